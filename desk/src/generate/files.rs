//! Files of entries laid end to end: none, one, a few, and as many as a request has room
//! for; conforming ones, most of them near one another, refused ones among them or only
//! such, and a last one that is cut.

use super::entries::{break_priority, break_record, good, good_record};
use super::required;
use super::rng::Rng;
use crate::lists::NamedKey;
use crate::reference::entries::{Entry, Record};
use crate::requests::LONGEST_INPUT;

/// A file of entries for these keys, of which most are like this one.
pub fn entries(rng: &mut Rng, keys: &[NamedKey], entry: &Entry) -> Vec<u8> {
    let room = LONGEST_INPUT / Entry::size(keys.len());
    let mut file = whole(rng, keys, entry, room);
    if rng.one_in(2) {
        file.extend(cut_entry(rng, keys, entry));
    }
    file.truncate(LONGEST_INPUT);
    file
}

/// Whole entries, where there is room for so many.
pub fn whole(rng: &mut Rng, keys: &[NamedKey], entry: &Entry, room: usize) -> Vec<u8> {
    // In so many of a hundred something is wrong.
    let wrong = rng.pick(&[0, 0, 15, 15, 50, 100]);
    let mut file = Vec::new();
    for _ in 0..count(rng, room) {
        let mut bytes = like(rng, keys, entry).to_bytes();
        if rng.percent(wrong) {
            break_one(rng, keys, &mut bytes);
        }
        file.extend(bytes);
    }
    file
}

/// How many whole entries, where there is room for so many.
fn count(rng: &mut Rng, room: usize) -> usize {
    let count = match rng.below(40) {
        0..=2 => 0,
        3..=6 => 1,
        7..=9 => rng.between(10, 40),
        10 => rng.pick(&[room - 1, room]),
        _ => rng.between(2, 9),
    };
    count.min(room)
}

/// An entry that is this one but for a record, or for its priority; or any other.
fn like(rng: &mut Rng, keys: &[NamedKey], entry: &Entry) -> Entry {
    let mut like = entry.clone();
    match rng.below(4) {
        0 => {}
        1 => like.priority = good(rng, &[]).priority,
        2 if !keys.is_empty() => {
            let index = rng.below(keys.len());
            like.records[index] = good_record(rng, &keys[index]);
        }
        _ => like = good(rng, keys),
    }
    like
}

/// Breaks a rule of entries, or nearly so; the length stays.
fn break_one(rng: &mut Rng, keys: &[NamedKey], bytes: &mut [u8]) {
    match rng.below(6) {
        0 => break_priority(bytes),
        1 => required::leave_out(rng, keys, bytes),
        _ if keys.is_empty() => break_priority(bytes),
        _ => {
            let index = rng.below(keys.len());
            break_record(rng, keys, index, bytes);
        }
    }
}

/// The front of an entry that might have been accepted, violated or refused: cut behind
/// its first byte or before its last, behind its priority or another record, or
/// anywhere else.
pub fn cut_entry(rng: &mut Rng, keys: &[NamedKey], entry: &Entry) -> Vec<u8> {
    let mut bytes = like(rng, keys, entry).to_bytes();
    if rng.one_in(4) {
        break_one(rng, keys, &mut bytes);
    }
    let last = bytes.len() - 1;
    let length = match rng.below(5) {
        0 => 1,
        1 => last,
        2 if !keys.is_empty() => Entry::PRIORITY_SIZE + rng.below(keys.len()) * Record::SIZE,
        _ => rng.between(1, last),
    };
    bytes.truncate(length);
    bytes
}
