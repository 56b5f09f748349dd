//! Random entries: conforming, nearly conforming, cut and extended.

use super::rng::Rng;
use super::{damage, required};
use crate::lists::NamedKey;
use crate::reference::entries::{Entry, Record};
use crate::reference::keys::Kind;
use crate::reference::numbers::{all_ones, lowest_bits};

/// An entry that conforms to these keys.
pub fn good(rng: &mut Rng, keys: &[NamedKey]) -> Entry {
    let priority = match rng.below(6) {
        0 => 0,
        1 => Entry::PRIORITY_LIMIT - 1,
        2 => rng.bits() as u32 % Entry::PRIORITY_LIMIT,
        _ => rng.below(300) as u32,
    };
    let records = keys.iter().map(|key| good_record(rng, key)).collect();
    Entry { priority, records }
}

/// A number below 2^W; small, large and round ones often.
pub fn value(rng: &mut Rng, width: u8) -> u128 {
    let any = rng.number();
    let number = match rng.below(8) {
        0 => 0,
        1 => u128::MAX,
        2 => 1 << rng.below(usize::from(width)),
        3 => any % 16,
        4 => any % 512,
        5 => (1u128 << rng.below(usize::from(width))).wrapping_sub(1),
        _ => any,
    };
    lowest_bits(number, width)
}

/// A record that conforms to this key.
pub fn good_record(rng: &mut Rng, key: &NamedKey) -> Record {
    if let Some(record) = required::matching_all(key).filter(|_| rng.one_in(5)) {
        return record;
    }
    let first = value(rng, key.width);
    let plain = Record {
        present: true,
        first,
        ..Record::ABSENT
    };
    match key.kind {
        Kind::Exact => plain,
        Kind::Ternary => ternary(rng, key.width, plain),
        Kind::Optional if rng.one_in(4) => Record { first: 0, ..plain },
        Kind::Optional => Record {
            second: all_ones(key.width),
            ..plain
        },
        Kind::Lpm => lpm(rng, key.width, plain),
        Kind::Range => range(rng, key.width, plain),
    }
}

fn ternary(rng: &mut Rng, width: u8, plain: Record) -> Record {
    let second = match rng.below(4) {
        0 => all_ones(width),
        1 => 0,
        _ => value(rng, width),
    };
    Record {
        first: plain.first & second,
        second,
        ..plain
    }
}

fn lpm(rng: &mut Rng, width: u8, plain: Record) -> Record {
    let free = free_bits(rng, width);
    let low_bits = if free == 0 { 0 } else { all_ones(free) };
    Record {
        first: plain.first & !low_bits,
        prefix_length: width - free,
        ..plain
    }
}

/// How many low bits a prefix leaves: none, all, any number, or one at which a
/// test of 32 bits at a time passes from one to the next, or next to it.
fn free_bits(rng: &mut Rng, width: u8) -> u8 {
    const AT_BORDERS: [u8; 10] = [31, 32, 33, 63, 64, 65, 95, 96, 97, 127];
    let at_border = rng.pick(&AT_BORDERS);
    match rng.below(4) {
        0 => 0,
        1 => width,
        2 if at_border < width => at_border,
        _ => rng.between(0, usize::from(width)) as u8,
    }
}

fn range(rng: &mut Rng, width: u8, plain: Record) -> Record {
    let other = match rng.below(5) {
        0 => plain.first,
        1 => plain.first.wrapping_add(1) & all_ones(width),
        2 => all_ones(width),
        _ => value(rng, width),
    };
    Record {
        first: plain.first.min(other),
        second: plain.first.max(other),
        ..plain
    }
}

/// An entry with one thing wrong, or nearly so.
pub fn damaged(rng: &mut Rng, keys: &[NamedKey], entry: &Entry) -> Vec<u8> {
    let mut bytes = entry.to_bytes();
    match rng.below(14) {
        0 | 1 => damage::cut_or_extend(rng, &mut bytes),
        2 => bytes.truncate(rng.below(bytes.len() + 1)),
        3 => bytes.extend_from_slice(&[0; Record::SIZE]),
        4 => break_priority(&mut bytes),
        5 => damage::any(rng, &mut bytes),
        6 | 7 if !required::flagged(keys).is_empty() => {
            required::leave_out(rng, keys, &mut bytes);
        }
        _ if keys.is_empty() => bytes[0] = rng.byte(),
        _ => {
            let index = rng.below(keys.len());
            break_record(rng, keys, index, &mut bytes);
        }
    }
    bytes
}

/// Makes the priority of an entry 2^31 or more.
pub fn break_priority(bytes: &mut [u8]) {
    bytes[0] |= 0x80;
}

/// Breaks the record of the key of this index, or nearly so.
pub fn break_record(rng: &mut Rng, keys: &[NamedKey], index: usize, bytes: &mut [u8]) {
    let start = Entry::size(index);
    let record = &mut bytes[start..start + Record::SIZE];
    match rng.below(12) {
        0 => record[0] = rng.pick(&[2, 3, 255]),
        1 => record[0] ^= 1,
        2 => record[1] = rng.byte(),
        3 => record[rng.pick(&[2, 3])] = rng.pick(&[1, 128]),
        4 => record.fill(0),
        5 => {
            let byte = rng.between(4, 35);
            record[byte] ^= 1 << rng.below(8);
        }
        _ => record.copy_from_slice(&nearly_good(rng, &keys[index]).to_bytes()),
    }
}

/// A record that breaks the rule of its kind by a hair, or nearly breaks it.
fn nearly_good(rng: &mut Rng, key: &NamedKey) -> Record {
    let mut record = good_record(rng, key);
    record.present = true;
    let bit = 1u128 << rng.below(usize::from(key.width));
    match (rng.below(8), key.kind) {
        // The smallest number that is not below 2^W, if there is one.
        (0, _) => record.first = all_ones(key.width).wrapping_add(1),
        (1, _) => record.second = all_ones(key.width).wrapping_add(1),
        (2, _) => record.prefix_length = rng.pick(&[1, key.width, key.width + 1]),
        (_, Kind::Exact) => record.second = bit,
        (3, Kind::Ternary | Kind::Optional) => record.first |= bit,
        (_, Kind::Ternary) => record.second &= !bit,
        (_, Kind::Optional) => record.second ^= bit,
        (_, Kind::Lpm) => break_prefix(rng, key.width, &mut record),
        (3 | 4, Kind::Range) => {
            record.first = record.first.max(1);
            record.second = record.first - 1;
        }
        (5, Kind::Range) => record.second = record.first,
        (_, Kind::Range) => std::mem::swap(&mut record.first, &mut record.second),
    }
    record
}

/// A bit set right after the prefix, the lowest bit set, or one length off.
fn break_prefix(rng: &mut Rng, width: u8, record: &mut Record) {
    let free = width - record.prefix_length;
    match rng.below(5) {
        0 | 1 if free > 0 => record.first |= 1 << (free - 1),
        2 => record.first |= 1,
        3 => record.prefix_length = record.prefix_length.saturating_sub(1),
        _ => record.second = 1,
    }
}
