//! Pact contracts that have no meaning, names that are not all exact keys of width 64,
//! and tables that are too long; most often with one thing wrong.

use super::contracts::{self, Draft};
use super::rng::Rng;
use super::{damage, lists, required};
use crate::lists::NamedKey;
use crate::reference::keys::{Key, Kind, NAME_WIDTH};
use crate::reference::pact::{Opcode, MOST_INDICES};
use crate::tables::TableAndBuffer;

/// A draft with something wrong, now and then in two of its three parts.
pub fn draft(rng: &mut Rng) -> Draft {
    let mut draft = contracts::good(rng);
    let (names, table, contract) = match rng.below(10) {
        0 | 1 => (true, false, false),
        2 => (false, true, false),
        3 => (rng.one_in(2), true, true),
        _ => (false, false, true),
    };
    if contract {
        spoil_contract(rng, &mut draft);
    }
    if table {
        lengthen_table(rng, &mut draft.table);
    }
    if names {
        spoil_names(rng, &mut draft.names);
    }
    draft
}

/// Where the opcodes of a good contract stand, and its index bytes.
struct Places {
    comparators: Vec<usize>,
    conjunctions: Vec<usize>,
    index_codes: Vec<usize>,
}

impl Places {
    fn of(contract: &[u8]) -> Places {
        let mut places = Places {
            comparators: Vec::new(),
            conjunctions: Vec::new(),
            index_codes: Vec::new(),
        };
        let mut place = 0;
        while place < contract.len() {
            match Opcode::from_byte(contract[place]) {
                Some(Opcode::Conjunction(_)) => {
                    places.conjunctions.push(place);
                    place += 1;
                }
                _ => {
                    places.comparators.push(place);
                    places.index_codes.push(place + 1);
                    place += 2;
                }
            }
        }
        places
    }

    fn opcodes(&self) -> Vec<usize> {
        [&self.comparators[..], &self.conjunctions].concat()
    }
}

pub fn spoil_contract(rng: &mut Rng, draft: &mut Draft) {
    let places = Places::of(&draft.contract);
    let contract = &mut draft.contract;
    if places.comparators.is_empty() {
        contract.push(rng.byte());
        return;
    }
    match rng.below(12) {
        0 => contract[rng.pick(&places.opcodes())] = rng.byte(),
        1 | 2 => contract[rng.pick(&places.opcodes())] = no_opcode(rng),
        3..=5 => {
            let place = rng.pick(&places.index_codes);
            let names = draft.names.len() / Key::SIZE;
            contract[place] = wrong_index(rng, contract[place], names, draft.table.len());
        }
        6 => contract.insert(0, any_conjunction(rng)),
        7 => conjoin_twice(rng, contract, &places),
        8 => contract.push(any_conjunction(rng)),
        9 => contract.truncate(rng.pick(&places.opcodes()) + 1),
        10 => contract.truncate(rng.below(contract.len())),
        _ => damage::any(rng, contract),
    }
}

/// A second conjunction behind one that stands there, or two after the first assertion.
fn conjoin_twice(rng: &mut Rng, contract: &mut Vec<u8>, places: &Places) {
    let after_first = places.index_codes[0] + 1;
    let place = match places.conjunctions[..] {
        [] => {
            contract.insert(after_first, any_conjunction(rng));
            after_first
        }
        ref conjunctions => rng.pick(conjunctions),
    };
    contract.insert(place + 1, any_conjunction(rng));
}

/// IN with either load, a reserved bit, or an operation number that is not used.
fn no_opcode(rng: &mut Rng) -> u8 {
    const IN: u8 = 3 << 2;
    const NOT: u8 = 1 << 6;
    const LOAD: u8 = 1 << 5;
    if rng.one_in(3) {
        return IN | rng.pick(&[0, NOT, LOAD, NOT | LOAD]);
    }
    loop {
        let byte = rng.byte();
        if Opcode::from_byte(byte).is_none() {
            return byte;
        }
    }
}

fn any_conjunction(rng: &mut Rng) -> u8 {
    loop {
        let byte = rng.byte();
        if let Some(Opcode::Conjunction(_)) = Opcode::from_byte(byte) {
            return byte;
        }
    }
}

/// An index byte with one index at the first that has no name or number, or at the
/// last that a byte can say.
fn wrong_index(rng: &mut Rng, index_code: u8, names: usize, users: usize) -> u8 {
    let last = MOST_INDICES - 1;
    let wrong = rng.pick(&[names, users, names.max(users), last]).min(last) as u8;
    if rng.one_in(2) {
        wrong << 4 | index_code & 0b1111
    } else {
        index_code & !0b1111 | wrong
    }
}

fn lengthen_table(rng: &mut Rng, table: &mut Vec<u64>) {
    let length = match rng.below(8) {
        0 => 4_000,
        1 => MOST_INDICES + rng.between(2, 20),
        _ => MOST_INDICES + 1,
    };
    while table.len() < length {
        table.push(rng.bits());
    }
}

/// Names that are keys, but not what a contract needs; or that are not even keys.
fn spoil_names(rng: &mut Rng, names: &mut Vec<u8>) {
    if names.is_empty() || rng.one_in(6) {
        let keys = contracts::names(rng);
        *names = lists::damaged(rng, &keys);
        return;
    }
    match rng.below(8) {
        0 | 1 => any_record(rng, names)[1] = rng.between(1, Kind::ALL.len() - 1) as u8,
        2 | 3 => any_record(rng, names)[2] = rng.pick(&[1, 32, 63, 65, 128]),
        4 => {
            let count = rng.pick(&[17, 17, 17, 18, 32, 33]);
            fill_up(names, count);
        }
        5 => {
            let record = any_record(rng, names);
            record[Key::FLAG] = required::other_flag(rng, record[Key::FLAG]);
        }
        _ => repeat_a_name(rng, names),
    }
}

fn any_record<'l>(rng: &mut Rng, names: &'l mut [u8]) -> &'l mut [u8] {
    let start = rng.below(names.len() / Key::SIZE) * Key::SIZE;
    &mut names[start..start + Key::SIZE]
}

/// Good records up to so many of them.
fn fill_up(names: &mut Vec<u8>, count: usize) {
    for index in names.len() / Key::SIZE..count {
        let name = format!("filled_up_{index}");
        let key = NamedKey::new(name.as_bytes(), Kind::Exact, NAME_WIDTH);
        names.extend(key.key().to_record());
    }
}

/// A record again at the end, as it is or with another fault; and now and then a record
/// of another width before it or after it, so that two places have a fault.
fn repeat_a_name(rng: &mut Rng, names: &mut Vec<u8>) {
    let mut copy = any_record(rng, names).to_vec();
    if rng.one_in(4) {
        copy[2] = NAME_WIDTH - 1;
    }
    names.extend(copy);
    match rng.below(6) {
        0 => any_record(rng, names)[2] = NAME_WIDTH + 1,
        1 => {
            let count = names.len() / Key::SIZE + 1;
            fill_up(names, count);
            let last = names.len() - Key::SIZE;
            names[last + 2] = NAME_WIDTH - 1;
        }
        _ => {}
    }
}

/// A table and a buffer without an end of the table, or with a count that is too large.
pub fn without_its_end(rng: &mut Rng, third: &[u8]) -> Vec<u8> {
    let (head, rest) = third.split_at(TableAndBuffer::HEAD);
    let numbers = usize::from(u16::from_be_bytes([head[0], head[1]]));
    if rng.one_in(2) {
        let end = TableAndBuffer::HEAD + numbers * TableAndBuffer::NUMBER;
        return third[..rng.below(end)].to_vec();
    }
    let least = (rest.len() / TableAndBuffer::NUMBER) as u16;
    let count: u16 = rng.pick(&[least, least + 1, u16::MAX]);
    [&count.to_be_bytes(), rest].concat()
}
