//! Keys that must be present: the flags of a list, good and wrong, and entries that
//! leave such keys out.

use super::entries;
use super::rng::Rng;
use crate::lists::NamedKey;
use crate::reference::entries::{Entry, Record};
use crate::reference::keys::{Kind, Presence};

/// Sets the flags of a list: none, as in old lists, some, or all. An exact key may
/// have one too.
pub fn set_flags(rng: &mut Rng, keys: &mut [NamedKey]) {
    let chance = rng.pick(&[0, 20, 40, 60, 100]);
    for key in keys {
        if rng.percent(chance) {
            key.presence = Presence::Required;
        }
    }
}

/// Another byte for this flag: the other flag, or a byte that is none, most often
/// one that a look at a single bit, or at its sign, would take for a flag.
pub fn other_flag(rng: &mut Rng, flag: u8) -> u8 {
    match rng.below(4) {
        0 => flag ^ 1,
        1 => rng.between(Presence::ALL.len(), 255) as u8,
        _ => rng.pick(&[2, 3, 128, 129, 254, 255]),
    }
}

/// A conforming record that matches everything: absent where the key may be, else
/// present and spelled out. An exact key has none.
pub fn matching_all(key: &NamedKey) -> Option<Record> {
    let key = key.key();
    match key.kind {
        Kind::Exact => None,
        _ if key.may_be_absent() => Some(Record::ABSENT),
        _ => Some(Record::ABSENT.reading(&key)),
    }
}

/// The keys with the flag, by their indices.
pub fn flagged(keys: &[NamedKey]) -> Vec<usize> {
    (0..keys.len())
        .filter(|&index| keys[index].presence == Presence::Required)
        .collect()
}

/// Leaves out one key that must be present, or several, now and then under a bad
/// priority, which hides them. Where no key is flagged, it may be any.
pub fn leave_out(rng: &mut Rng, keys: &[NamedKey], bytes: &mut [u8]) {
    let mut among = flagged(keys);
    if among.is_empty() {
        among = (0..keys.len()).collect();
    }
    if !among.is_empty() {
        let one = rng.pick(&among);
        let several = rng.one_in(3);
        for index in among {
            if index == one || several && rng.one_in(2) {
                bytes[Entry::size(index)..Entry::size(index + 1)].fill(0);
            }
        }
    }
    if rng.one_in(8) {
        entries::break_priority(bytes);
    }
}
