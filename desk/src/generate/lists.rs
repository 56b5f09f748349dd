//! Random key lists, good and damaged.

use super::rng::Rng;
use super::{damage, required};
use crate::lists::{list_bytes, NamedKey};
use crate::reference::keys::{Key, Kind, Presence};

/// Names that are good keys, those among them that look like something else.
const NAMES: [&str; 28] = [
    "v",
    "d",
    "p",
    "r",
    "o",
    "k",
    "ipv4",
    "ipv6",
    "mac",
    "ipv4.valid",
    "ipv4.dst",
    "ipv6.dst",
    "hdr.ethernet.eth_type",
    "priority",
    "value",
    "mask",
    "true.x",
    "True",
    "FALSE",
    "x.true",
    "_",
    "_0",
    "a1",
    "a.b",
    "a.b.c",
    "a_b",
    "truef",
    "tru",
];

const WIDTHS: [u8; 24] = [
    1, 1, 2, 4, 7, 8, 8, 9, 16, 16, 31, 32, 33, 48, 63, 64, 65, 96, 127, 127, 127, 128, 128, 128,
];

/// A good list of about so many keys, at most 32.
pub fn good(rng: &mut Rng, about: usize) -> Vec<NamedKey> {
    let count = match rng.below(40) {
        0 => 0,
        1 => Key::MOST,
        2 => rng.below(Key::MOST + 1),
        _ => rng.between(1, about),
    };
    let mut keys: Vec<NamedKey> = Vec::new();
    for _ in 0..count {
        let name = fresh_name(rng, &keys);
        let kind = rng.pick(&Kind::ALL);
        let width = width(rng, &keys);
        keys.push(NamedKey::new(&name, kind, width));
    }
    required::set_flags(rng, &mut keys);
    keys
}

/// A good list of as many keys as there may be, with names as short and as long
/// as there may be.
pub fn full(rng: &mut Rng) -> Vec<NamedKey> {
    const INITIALS: &[u8; Key::MOST] = b"abcdefghijklmnopqrstuvwxyzABCDE_";
    let mut keys = INITIALS.map(|initial| {
        let length = rng.pick(&[1, 1, 2, Key::LONGEST_NAME - 1, Key::LONGEST_NAME]);
        let mut name = vec![initial];
        name.resize(length, b'x');
        NamedKey::new(&name, rng.pick(&Kind::ALL), rng.pick(&WIDTHS))
    });
    required::set_flags(rng, &mut keys);
    keys.to_vec()
}

/// Widths repeat often, so that keys of one list can be compared.
fn width(rng: &mut Rng, keys: &[NamedKey]) -> u8 {
    if !keys.is_empty() && rng.percent(40) {
        return rng.pick_ref(keys).width;
    }
    if rng.one_in(4) {
        return rng.between(1, 128) as u8;
    }
    rng.pick(&WIDTHS)
}

/// A name that none of these keys has.
pub fn fresh_name(rng: &mut Rng, keys: &[NamedKey]) -> Vec<u8> {
    loop {
        let name = any_name(rng);
        if keys.iter().all(|key| key.name != name) {
            return name;
        }
    }
}

fn any_name(rng: &mut Rng) -> Vec<u8> {
    if rng.percent(70) {
        return rng.pick(&NAMES).as_bytes().to_vec();
    }
    let longest = if rng.one_in(6) { 64 } else { 6 };
    let length = rng.between(1, longest);
    let mut name = vec![rng.pick(b"abxyz_ABZ")];
    while name.len() < length {
        let room_for_dot = length - name.len() >= 2 && name.last() != Some(&b'.');
        if room_for_dot && rng.one_in(6) {
            name.push(b'.');
            name.push(rng.pick(b"abxyz_ABZ"));
        } else {
            name.push(rng.pick(b"abcxyz_ABZ019"));
        }
    }
    name
}

/// The bytes of these keys, most often with one thing wrong.
pub fn damaged(rng: &mut Rng, keys: &[NamedKey]) -> Vec<u8> {
    let mut list = list_bytes(keys);
    match rng.below(12) {
        0 => damage::cut_or_extend(rng, &mut list),
        1 => list.extend_from_slice(&[0; Key::SIZE]),
        2 => list = too_many(rng),
        3 | 4 => repeat_a_name(rng, &mut list),
        5 => damage::any(rng, &mut list),
        6 | 7 => {
            let record = any_record(rng, &mut list);
            record[Key::FLAG] = required::other_flag(rng, record[Key::FLAG]);
        }
        _ => break_a_record(rng, &mut list),
    }
    list
}

fn too_many(rng: &mut Rng) -> Vec<u8> {
    let mut list = Vec::new();
    let count = rng.between(33, 35);
    for index in 0..count {
        let name = format!("k{index}");
        let key = NamedKey::new(name.as_bytes(), Kind::Exact, 8);
        list.extend_from_slice(&key.key().to_record());
    }
    list
}

fn repeat_a_name(rng: &mut Rng, list: &mut Vec<u8>) {
    let records = list.len() / Key::SIZE;
    if records == 0 || records == Key::MOST {
        return break_a_record(rng, list);
    }
    let start = rng.below(records) * Key::SIZE;
    let mut copy = list[start..start + Key::SIZE].to_vec();
    copy[1] = rng.below(5) as u8;
    copy[2] = rng.between(1, 128) as u8;
    copy[Key::FLAG] = rng.pick(&Presence::ALL).byte();
    if rng.one_in(4) {
        // Two faults at one place.
        copy[rng.pick(&[1, 2, Key::FLAG])] = 200;
    }
    list.extend_from_slice(&copy);
}

/// One of the records of a list; an empty list gets one first.
fn any_record<'l>(rng: &mut Rng, list: &'l mut Vec<u8>) -> &'l mut [u8] {
    if list.is_empty() {
        list.extend_from_slice(&NamedKey::new(b"k", Kind::Exact, 8).key().to_record());
    }
    let start = rng.below(list.len() / Key::SIZE) * Key::SIZE;
    &mut list[start..start + Key::SIZE]
}

fn break_a_record(rng: &mut Rng, list: &mut Vec<u8>) {
    let record = any_record(rng, list);
    let length = usize::from(record[0]);
    match rng.below(9) {
        0 => record[0] = rng.pick(&[0, 65, 66, 255]),
        1 => record[0] = record[0].wrapping_add(1),
        2 => record[0] = record[0].wrapping_sub(1),
        3 => record[1] = rng.pick(&[5, 6, 128, 255]),
        4 => record[2] = rng.pick(&[0, 129, 255]),
        5 => {
            let (first, last) = (Key::RESERVED, Key::NAME_START - 1);
            let any = rng.between(first, last);
            record[rng.pick(&[first, any, any, last])] = rng.pick(&[1, 2, 255]);
        }
        6 => record[16 + rng.below(length)] = rng.pick(b". 0-\0\xff'"),
        7 => record[rng.between(16, 79)] ^= 1 << rng.below(8),
        _ => record.copy_from_slice(&reserved_name(rng)),
    }
}

/// A record whose only fault is its name, "true" or "false".
fn reserved_name(rng: &mut Rng) -> [u8; Key::SIZE] {
    let name = rng.pick(&["true", "false"]);
    let width = rng.pick(&WIDTHS);
    NamedKey::new(name.as_bytes(), rng.pick(&Kind::ALL), width)
        .key()
        .to_record()
}
