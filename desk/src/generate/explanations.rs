//! Inputs that an explainer is likely to get wrong: texts of several parts, with
//! ";" in parentheses and remarks; as many parts as there may be; a part that
//! ends where the longest text does; and entries that are refused at a key that they
//! must not leave out, at the first key, at the last, or at the priority.

use super::rng::Rng;
use super::spelling::{self, Blanks};
use super::texts::{self, Tokens};
use super::{entries, required, snippets};
use crate::lists::{list_bytes, NamedKey};
use crate::reference::calls::LONGEST_TEXT;
use crate::reference::entries::Entry;
use crate::reference::tokens::MOST_TOKENS;
use crate::reference::{judge, Answer};

/// The most parts that a text can have: a token and a ";" each.
pub const MOST_PARTS: usize = MOST_TOKENS / 2;

pub fn text(rng: &mut Rng, keys: &[NamedKey], entry: &Entry) -> Vec<u8> {
    match rng.below(10) {
        0 | 1 => snippets::any(rng, snippets::PARTS),
        2 => row(rng),
        3 | 4 => to_the_end(rng),
        _ => several(rng, keys, entry),
    }
}

/// A few parts, of which any may be the first false one, or none.
fn several(rng: &mut Rng, keys: &[NamedKey], entry: &Entry) -> Vec<u8> {
    let count = rng.between(1, 6);
    let first_false = rng.below(count + 1);
    let truths = truths(rng, count, first_false);
    with_truths(rng, keys, entry, &truths)
}

/// A few parts that are all true of the entry, whatever they say of others.
pub fn all_true(rng: &mut Rng, keys: &[NamedKey], entry: &Entry) -> Vec<u8> {
    let truths = vec![true; rng.between(1, 6)];
    with_truths(rng, keys, entry, &truths)
}

/// A part for each of these truths of the entry.
fn with_truths(rng: &mut Rng, keys: &[NamedKey], entry: &Entry, truths: &[bool]) -> Vec<u8> {
    let mut tokens = Tokens::new();
    for &truth in truths {
        tokens.extend(part(rng, keys, entry, truth));
        tokens.push(b";".to_vec());
    }
    if rng.one_in(2) {
        tokens.pop();
    }
    spelling::text(rng, &tokens)
}

/// So many truths, with any after the first false one.
fn truths(rng: &mut Rng, count: usize, first_false: usize) -> Vec<bool> {
    (0..count)
        .map(|index| index < first_false || index > first_false && rng.one_in(2))
        .collect()
}

/// A part that is true of the entry, or one that is false.
fn part(rng: &mut Rng, keys: &[NamedKey], entry: &Entry, wanted: bool) -> Tokens {
    let joins = rng.below(4);
    let mut inside = texts::tokens(rng, keys, entry, joins, 0);
    if inside.last().is_some_and(|last| last == b";") {
        inside.pop();
    }
    let text = spelling::text_with(rng, &inside, Blanks::One);
    let answer = judge(&text, &list_bytes(keys), &entry.to_bytes());
    let opening: &[&str] = if (answer == Answer::Accepted) != wanted {
        &["!", "("]
    } else {
        // Without parentheses it may be several parts.
        rng.pick(&[[].as_slice(), &["("], &["(", "("]])
    };
    let closing = opening.iter().filter(|&&token| token == "(").count();
    let opening: Tokens = opening.iter().map(|t| t.as_bytes().to_vec()).collect();
    [opening, inside, vec![b")".to_vec(); closing]].concat()
}

/// About as many parts as there may be, a word each.
fn row(rng: &mut Rng) -> Vec<u8> {
    let count = rng.pick(&[MOST_PARTS - 1, MOST_PARTS, MOST_PARTS, MOST_PARTS + 1]);
    let first_false = rng.pick(&[0, count / 2, count - 1, count - 1, count]);
    let mut tokens = Tokens::new();
    for truth in truths(rng, count, first_false) {
        tokens.push(truth.to_string().into_bytes());
        tokens.push(b";".to_vec());
    }
    if rng.one_in(2) {
        tokens.pop();
    }
    let blanks = rng.pick(&[Blanks::Needed, Blanks::One]);
    spelling::text_with(rng, &tokens, blanks)
}

/// A text of about 4,096 bytes that ends in a token: blanks or a remark stand
/// before or in its last part.
fn to_the_end(rng: &mut Rng) -> Vec<u8> {
    let length = rng.pick(&[
        LONGEST_TEXT - 1,
        LONGEST_TEXT,
        LONGEST_TEXT,
        LONGEST_TEXT + 1,
    ]);
    let (before, after) = rng.pick(&[
        ("", "false"),
        ("true;", "false"),
        ("(true;true);true;", "(true;false)"),
        ("true;(", "false)"),
        ("true;(true;", "false)"),
        ("true;1==", "2"),
        ("true;!", "true;"),
        ("true;", "true"),
        ("false;", "false"),
    ]);
    let room = length - before.len() - after.len();
    let between = if rng.one_in(2) {
        " ".repeat(room)
    } else {
        format!("//{}\n", ";".repeat(room - "//\n".len()))
    };
    format!("{before}{between}{after}").into_bytes()
}

/// An entry for these keys, of which there is one at least, that is most often
/// refused with 20: at a key that must not be left out, at the first key, at the
/// last, or at the priority, which hides the keys.
pub fn broken_entry(rng: &mut Rng, keys: &[NamedKey], entry: &Entry) -> Vec<u8> {
    let mut bytes = entry.to_bytes();
    if rng.one_in(3) {
        required::leave_out(rng, keys, &mut bytes);
        return bytes;
    }
    if rng.one_in(5) {
        entries::break_priority(&mut bytes);
    }
    for index in [0, keys.len() - 1] {
        if rng.one_in(2) {
            entries::break_record(rng, keys, index, &mut bytes);
        }
    }
    bytes
}
