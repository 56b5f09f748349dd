//! Inputs that a summary or a recheck is likely to get wrong: texts that name no
//! key, all, or all but one, by key or by field, once or twice, with ::priority or
//! without; and entries that differ in one record, named or not, in the priority,
//! or in that one spells out what the other leaves absent, or leaves out a key that
//! must be present.

use super::rng::Rng;
use super::spelling::{self, Blanks};
use super::texts::Tokens;
use super::{entries, required};
use crate::changes::{Change, ACCEPTED, VIOLATED};
use crate::lists::{list_bytes, NamedKey};
use crate::reference::entries::{Entry, Record};
use crate::reference::fields::Field;
use crate::reference::{judge, summarize, Answer, Summary};

/// A text of a part for each key that it names.
pub fn text(rng: &mut Rng, keys: &[NamedKey], entry: &Entry) -> Vec<u8> {
    let mut parts = Vec::new();
    for index in named(rng, keys.len()) {
        parts.push(about(rng, &keys[index], &entry.records[index]));
    }
    if rng.one_in(3) {
        let place = rng.between(0, parts.len());
        parts.insert(place, about_priority(rng, entry));
    }
    if parts.is_empty() {
        parts.push(vec![b"true".to_vec()]);
    }
    let mut tokens = Tokens::new();
    for part in parts {
        if !tokens.is_empty() {
            let join = rng.pick(&[";", ";", "&&", "||"]);
            tokens.push(join.as_bytes().to_vec());
        }
        tokens.extend(part);
    }
    let blanks = rng.pick(&[Blanks::Needed, Blanks::One]);
    spelling::text_with(rng, &tokens, blanks)
}

/// The keys of so many that a text names: none, all, one, all but one, or any.
fn named(rng: &mut Rng, count: usize) -> Vec<usize> {
    if count == 0 {
        return Vec::new();
    }
    let any = rng.below(count);
    let one = rng.pick(&[0, any, count - 1]);
    let mut named: Vec<usize> = match rng.below(6) {
        0 => Vec::new(),
        1 => (0..count).collect(),
        2 | 3 => vec![one],
        4 => (0..count).filter(|&index| index != one).collect(),
        _ => (0..count).filter(|_| rng.one_in(2)).collect(),
    };
    if rng.one_in(2) {
        named.reverse();
    }
    // Twice counts once.
    if rng.one_in(4) {
        named.extend(named.first().copied());
    }
    named
}

/// A comparison about this key, true or false.
fn about(rng: &mut Rng, key: &NamedKey, record: &Record) -> Tokens {
    let reading = record.reading(&key.key());
    let fields: Vec<Field> = Field::ALL
        .into_iter()
        .filter(|field| field.belongs_to(key.kind))
        .collect();
    let mut tokens = vec![key.name.clone()];
    if rng.one_in(2) {
        let field = rng.pick(&fields);
        tokens.push(b"::".to_vec());
        tokens.push(field.name().as_bytes().to_vec());
    }
    let prefix_length = u128::from(reading.prefix_length);
    let number = rng.pick(&[reading.first, reading.second, prefix_length]);
    tokens.push(rng.pick(&["==", "!="]).as_bytes().to_vec());
    tokens.push(number.to_string().into_bytes());
    tokens
}

fn about_priority(rng: &mut Rng, entry: &Entry) -> Tokens {
    let operator = rng.pick(&["==", "!=", "<", ">="]);
    let number = entry.priority.to_string();
    ["::", "priority", operator, &number]
        .map(|token| token.as_bytes().to_vec())
        .to_vec()
}

/// A change of this entry, with an earlier answer for the text; most often the
/// true one.
pub fn change(rng: &mut Rng, text: &[u8], keys: &[NamedKey], entry: &Entry) -> Change {
    let list = list_bytes(keys);
    let summary = match summarize(text, &list) {
        Answer::Summary(summary) => summary,
        _ => Summary::default(),
    };
    let (old, new) = two_entries(rng, keys, entry, summary);
    let (mut old, mut new) = (old.to_bytes(), new.to_bytes());
    match rng.below(20) {
        0 => old = entries::damaged(rng, keys, entry),
        1 => new = entries::damaged(rng, keys, entry),
        2 => {
            // Equal, and both damaged alike.
            old = entries::damaged(rng, keys, entry);
            new = old.clone();
        }
        3 => required::leave_out(rng, keys, &mut old),
        4 => required::leave_out(rng, keys, &mut new),
        5 => {
            // Both leave out the same.
            required::leave_out(rng, keys, &mut old);
            new = old.clone();
        }
        _ => {}
    }
    let earlier = match judge(text, &list, &old) {
        _ if rng.one_in(4) => rng.pick(&[0, ACCEPTED, VIOLATED, 3, 20, 255]),
        Answer::Accepted => ACCEPTED,
        Answer::Violated => VIOLATED,
        _ => 0,
    };
    Change { earlier, old, new }
}

/// Two conforming entries, equal or different in a way that tells.
fn two_entries(
    rng: &mut Rng,
    keys: &[NamedKey],
    entry: &Entry,
    summary: Summary,
) -> (Entry, Entry) {
    let (mut old, mut new) = (entry.clone(), entry.clone());
    let indices = 0..keys.len();
    let (named, unnamed): (Vec<usize>, Vec<usize>) =
        indices.partition(|&index| summary.names(index));
    match rng.below(9) {
        0 => {}
        1 => new.priority = other_priority(rng, new.priority),
        2 | 3 => differ_in_one(rng, keys, &named, &mut new),
        4 | 5 => differ_in_one(rng, keys, &unnamed, &mut new),
        6 => spell_out(rng, keys, &named, &mut old, &mut new),
        7 => spell_out(rng, keys, &unnamed, &mut old, &mut new),
        _ => new = entries::good(rng, keys),
    }
    if rng.one_in(8) {
        new.priority = other_priority(rng, new.priority);
    }
    if rng.one_in(2) {
        return (new, old);
    }
    (old, new)
}

/// Another priority, most often one that differs in one bit.
fn other_priority(rng: &mut Rng, priority: u32) -> u32 {
    priority ^ 1 << rng.below(31)
}

/// Changes the record of one of these keys.
fn differ_in_one(rng: &mut Rng, keys: &[NamedKey], among: &[usize], entry: &mut Entry) {
    if !among.is_empty() {
        let index = rng.pick(among);
        entry.records[index] = other_record(rng, &keys[index], entry.records[index]);
    }
}

/// Another conforming record for this key: one that differs in one bit, if one is
/// found.
fn other_record(rng: &mut Rng, key: &NamedKey, record: Record) -> Record {
    for _ in 0..8 {
        let mut near = record;
        let bit = 1 << rng.below(usize::from(key.width));
        match rng.below(3) {
            0 => near.first ^= bit,
            1 => near.second ^= bit,
            _ => near.prefix_length ^= 1 << rng.below(8),
        }
        if near.conforms(&key.key()) {
            return near;
        }
    }
    entries::good_record(rng, key)
}

/// Leaves one of these keys absent in the old entry, and spells that out in the
/// new one.
fn spell_out(rng: &mut Rng, keys: &[NamedKey], among: &[usize], old: &mut Entry, new: &mut Entry) {
    let may_be_absent = |&index: &usize| keys[index].key().may_be_absent();
    let among: Vec<usize> = among.iter().copied().filter(may_be_absent).collect();
    if !among.is_empty() {
        let index = rng.pick(&among);
        old.records[index] = Record::ABSENT;
        new.records[index] = Record::ABSENT.reading(&keys[index].key());
    }
}

/// The third input of a recheck with its length, or the old entry's, near a limit.
pub fn malformed(rng: &mut Rng, change: &Change) -> Vec<u8> {
    let mut bytes = change.to_bytes();
    let old_end = Change::HEAD + change.old.len();
    let entries = u32::try_from(bytes.len() - Change::HEAD).expect("entries are short");
    match rng.below(6) {
        0 => bytes.truncate(rng.below(Change::HEAD + 1)),
        1 => bytes.truncate(old_end),
        2 => bytes.truncate(old_end.saturating_sub(1)),
        3 => bytes[1..5].copy_from_slice(&entries.to_be_bytes()),
        4 => bytes[1..5].copy_from_slice(&(entries + 1).to_be_bytes()),
        _ => bytes[1] = rng.pick(&[1, 128, 255]),
    }
    bytes
}
