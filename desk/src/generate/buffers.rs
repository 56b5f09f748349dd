//! Buffers that a call may write to: of the size that it needs, one byte less,
//! or another; what they hold before the call is anything but zeros, or, where zero is
//! what a call may write, anything at all.

use super::contracts::Draft;
use super::rng::Rng;
use crate::reference;
use crate::reference::blocks::bytes_needed;
use crate::reference::calls::{text_tree, LONGEST_TEXT};
use crate::reference::fixing::without_octal;
use crate::reference::printing::print_of;
use crate::reference::Answer;
use crate::requests::LONGEST_INPUT;
use crate::tables::TableAndBuffer;

/// A buffer for the translation of this text.
pub fn for_translation(rng: &mut Rng, text: &[u8], list: &[u8]) -> Vec<u8> {
    let mut large = vec![0; bytes_needed(2 * text.len() + 1).min(LONGEST_INPUT)];
    let needed = match reference::translate(text, list, &mut large) {
        Answer::Translated(count) => bytes_needed(count),
        _ => 512,
    };
    let length = match rng.below(10) {
        0..=3 => needed,
        4 => needed - 1,
        5 => needed + rng.between(1, 600),
        6 => rng.below(needed),
        7 => needed + 512,
        8 => 0,
        _ => rng.below(2048),
    };
    filled(rng, length)
}

/// The bytes that a refused text is taken to need, so that it gets a buffer too.
const FOR_A_REFUSED_TEXT: usize = 20;

/// A buffer for the print of this text.
pub fn for_print(rng: &mut Rng, text: &[u8]) -> Vec<u8> {
    let needed = text_tree(text).map_or(FOR_A_REFUSED_TEXT, |tree| print_of(&tree).len());
    for_text(rng, needed)
}

/// A buffer for this text without its octal numerals.
pub fn for_fixed_text(rng: &mut Rng, text: &[u8]) -> Vec<u8> {
    let needed = without_octal(text).map_or(FOR_A_REFUSED_TEXT, |fixed| fixed.len());
    for_text(rng, needed)
}

/// A buffer for the text of this contract.
pub fn for_draft(rng: &mut Rng, draft: &Draft) -> Vec<u8> {
    let mut text = [0; LONGEST_TEXT];
    let answer = reference::pact(&draft.contract, &draft.table, &draft.names, &mut text);
    let needed = match answer {
        Answer::Drafted(length) => length,
        _ => FOR_A_REFUSED_TEXT,
    };
    // The table stands before the buffer in one input.
    let mut buffer = for_text(rng, needed);
    let table = TableAndBuffer::HEAD + draft.table.len() * TableAndBuffer::NUMBER;
    buffer.truncate(LONGEST_INPUT - table);
    buffer
}

/// A buffer for a text of so many bytes.
fn for_text(rng: &mut Rng, needed: usize) -> Vec<u8> {
    let length = match rng.below(40) {
        0 => LONGEST_INPUT,
        1 | 2 => 0,
        3 | 4 => 1,
        5..=7 => rng.below(needed.max(1)),
        8..=13 => needed.saturating_sub(1),
        14..=23 => needed,
        24..=27 => needed + 1,
        28..=31 => needed + rng.below(600),
        32 | 33 => LONGEST_TEXT - 1,
        34..=37 => LONGEST_TEXT,
        _ => LONGEST_TEXT + 1,
    };
    filled(rng, length)
}

/// Answers for so many entries, where there is room for so many bytes.
pub fn for_answers(rng: &mut Rng, entries: usize, room: usize) -> Vec<u8> {
    let length = match rng.below(40) {
        0 => room,
        1 => 0,
        2 | 3 => rng.below(entries.max(1)),
        4..=8 => entries.saturating_sub(1),
        9..=25 => entries,
        26..=29 => entries + 1,
        30 => entries + rng.below(600),
        _ => entries + rng.between(2, 20),
    };
    let length = length.min(room);
    if rng.one_in(4) {
        return (0..length).map(|_| rng.byte()).collect();
    }
    filled(rng, length)
}

/// So many bytes. None is zero, so that a byte which becomes zero shows.
fn filled(rng: &mut Rng, length: usize) -> Vec<u8> {
    let filling = rng.byte();
    let step = rng.pick(&[0, 1, 7]);
    (0..length)
        .map(|index| filling.wrapping_add((index as u8).wrapping_mul(step)))
        .map(|byte| byte.max(1))
        .collect()
}
