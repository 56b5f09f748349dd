//! Pact contracts with names and tables for them: good ones of every shape, with
//! indices up to the last name and number.

use super::rng::Rng;
use super::{buffers, contract_faults, contract_limits, lists, required};
use crate::lists::{list_bytes, NamedKey};
use crate::reference::keys::{Kind, NAME_WIDTH};
use crate::reference::pact::{
    Assertion, Comparator, Conjunction, Linking, Load, Opcode, Relation, MOST_INDICES,
};
use crate::requests::{Call, Request};
use crate::tables::TableAndBuffer;

/// A contract with what it is made into a text with.
#[derive(Clone)]
pub struct Draft {
    pub contract: Vec<u8>,
    pub table: Vec<u64>,
    pub names: Vec<u8>,
}

/// How many names and user numbers the indices of a contract may choose from.
#[derive(Clone, Copy)]
pub struct Known {
    pub names: usize,
    pub users: usize,
}

/// What the joins and inversions of a contract are like.
#[derive(Clone, Copy)]
pub struct Style {
    /// In so many of a hundred cases an assertion is linked to the one before.
    pub linked: usize,
    pub linkings: &'static [Linking],
    /// In so many of a hundred cases a conjunction is inverted, and a comparator.
    pub joins_inverted: usize,
    pub comparisons_inverted: usize,
}

pub fn request(rng: &mut Rng) -> Request {
    let draft = match rng.below(20) {
        0..=9 => good(rng),
        10..=15 => contract_faults::draft(rng),
        _ => contract_limits::draft(rng),
    };
    let buffer = buffers::for_draft(rng, &draft);
    let Draft {
        contract,
        table,
        names,
    } = draft;
    let mut third = TableAndBuffer { table, buffer }.to_bytes();
    if rng.one_in(20) {
        third = contract_faults::without_its_end(rng, &third);
    }
    Request::new(Call::Pact, contract, names, third)
}

/// A contract that has a meaning, now and then an empty one.
pub fn good(rng: &mut Rng) -> Draft {
    let (names, table) = (names(rng), table(rng));
    let known = Known {
        names: names.len(),
        users: table.len(),
    };
    let assertions = match rng.below(12) {
        0 => 0,
        1..=3 => 1,
        4 => rng.below(20),
        _ => rng.between(2, 6),
    };
    let style = any_style(rng);
    let contract = assertions_of(rng, known, style, assertions).concat();
    Draft {
        contract,
        table,
        names: list_bytes(&names),
    }
}

/// Good names, and no more than an index can choose from.
pub fn names(rng: &mut Rng) -> Vec<NamedKey> {
    let count = match rng.below(12) {
        0 => 0,
        1 => MOST_INDICES - 1,
        2 | 3 => MOST_INDICES,
        _ => rng.between(1, 6),
    };
    let mut names = Vec::new();
    for _ in 0..count {
        let name = lists::fresh_name(rng, &names);
        names.push(NamedKey::new(&name, Kind::Exact, NAME_WIDTH));
    }
    required::set_flags(rng, &mut names);
    names
}

pub fn table(rng: &mut Rng) -> Vec<u64> {
    let count = match rng.below(12) {
        0 => 0,
        1 => MOST_INDICES - 1,
        2 | 3 => MOST_INDICES,
        _ => rng.between(1, 6),
    };
    (0..count).map(|_| user_number(rng)).collect()
}

fn user_number(rng: &mut Rng) -> u64 {
    match rng.below(8) {
        0 => 0,
        1 => u64::MAX,
        2 => 1 << rng.below(64),
        3 | 4 => rng.below(12) as u64,
        _ => rng.bits() >> rng.below(64),
    }
}

fn any_style(rng: &mut Rng) -> Style {
    Style {
        linked: rng.pick(&[0, 40, 70, 100]),
        linkings: &Linking::ALL,
        joins_inverted: rng.pick(&[0, 30, 60]),
        comparisons_inverted: rng.pick(&[0, 30, 60]),
    }
}

/// So many assertions in bytes, each with the conjunction before it if there is one.
/// With no name there can be none.
pub fn assertions_of(rng: &mut Rng, known: Known, style: Style, count: usize) -> Vec<Vec<u8>> {
    let count = if known.names == 0 { 0 } else { count };
    (0..count)
        .map(|index| {
            let mut bytes = Vec::new();
            if index > 0 && rng.percent(style.linked) {
                bytes.push(Opcode::Conjunction(conjunction(rng, style)).byte());
            }
            bytes.extend(assertion(rng, known, style).to_bytes());
            bytes
        })
        .collect()
}

fn conjunction(rng: &mut Rng, style: Style) -> Conjunction {
    Conjunction {
        inverted: rng.percent(style.joins_inverted),
        linking: rng.pick(style.linkings),
    }
}

fn assertion(rng: &mut Rng, known: Known, style: Style) -> Assertion {
    let load = if known.users == 0 || rng.one_in(3) {
        Load::Input
    } else {
        Load::User
    };
    let comparator = Comparator {
        inverted: rng.percent(style.comparisons_inverted),
        load,
        relation: rng.pick(&Relation::ALL),
    };
    let of_right = match load {
        Load::User => known.users,
        Load::Input => known.names,
    };
    Assertion {
        comparator,
        left: index(rng, known.names),
        right: index(rng, of_right),
    }
}

/// An index below a count, often the last one.
fn index(rng: &mut Rng, count: usize) -> usize {
    if rng.one_in(4) {
        count - 1
    } else {
        rng.below(count)
    }
}
