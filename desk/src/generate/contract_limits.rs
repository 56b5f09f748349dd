//! Pact contracts at the limits of their texts: about 1,024 tokens, about 64 levels,
//! about 4,096 bytes; and contracts far beyond them.

use super::contract_faults::spoil_contract;
use super::contracts::{assertions_of, names, table, Draft, Known, Style};
use super::rng::Rng;
use crate::lists::{list_bytes, NamedKey};
use crate::reference::calls::LONGEST_TEXT;
use crate::reference::keys::{Kind, NAME_WIDTH};
use crate::reference::pact::Linking;
use crate::reference::{pact, Answer};
use crate::requests::LONGEST_INPUT;

pub fn draft(rng: &mut Rng) -> Draft {
    match rng.below(20) {
        0..=4 => {
            let style = rng.pick(&ROWS);
            at_the_last_that_passes(rng, Spelling::Short, style)
        }
        5..=9 => {
            let style = rng.pick(&NESTS);
            at_the_last_that_passes(rng, Spelling::Short, style)
        }
        10..=12 => {
            let style = rng.pick(&ROWS);
            at_the_last_that_passes(rng, Spelling::Long, style)
        }
        13..=18 => {
            let length = rng.pick(&[
                LONGEST_TEXT - 1,
                LONGEST_TEXT,
                LONGEST_TEXT,
                LONGEST_TEXT + 1,
            ]);
            of_length(rng, length)
        }
        _ => far_beyond(rng),
    }
}

const PLAIN: Style = Style {
    linked: 0,
    linkings: &Linking::ALL,
    joins_inverted: 0,
    comparisons_inverted: 0,
};

/// Texts that need few levels.
const ROWS: [Style; 4] = [
    PLAIN,
    Style {
        comparisons_inverted: 10,
        ..PLAIN
    },
    Style {
        linked: 50,
        linkings: &[Linking::And],
        comparisons_inverted: 5,
        ..PLAIN
    },
    Style {
        linked: 90,
        linkings: &[Linking::Or],
        ..PLAIN
    },
];

/// Texts in which each link, or nearly each, opens a level or two.
const NESTS: [Style; 5] = [
    Style {
        linked: 100,
        linkings: &[Linking::Xor],
        ..PLAIN
    },
    Style {
        linked: 100,
        linkings: &[Linking::And],
        joins_inverted: 100,
        ..PLAIN
    },
    Style {
        linked: 100,
        joins_inverted: 50,
        ..PLAIN
    },
    Style {
        linked: 100,
        linkings: &[Linking::Or, Linking::And],
        comparisons_inverted: 50,
        ..PLAIN
    },
    Style {
        linked: 99,
        linkings: &[Linking::Xor, Linking::Xor, Linking::Or],
        joins_inverted: 20,
        comparisons_inverted: 20,
    },
];

/// How long names and numbers are.
#[derive(Clone, Copy)]
enum Spelling {
    Short,
    Long,
}

/// More assertions than any text has.
const BEYOND: usize = 350;

/// The longest contract that passes of one that does not, or one assertion more, or
/// less.
fn at_the_last_that_passes(rng: &mut Rng, spelling: Spelling, style: Style) -> Draft {
    let (names, table) = match spelling {
        Spelling::Short => (short_names(), (0..10).collect()),
        Spelling::Long => (names(rng), table(rng)),
    };
    let known = Known {
        names: names.len(),
        users: table.len(),
    };
    let pieces = assertions_of(rng, known, style, BEYOND);
    let of = |assertions: usize| Draft {
        contract: pieces[..assertions].concat(),
        table: table.clone(),
        names: list_bytes(&names),
    };
    let mut passing = 0;
    let mut refused = pieces.len();
    while passing + 1 < refused {
        let middle = (passing + refused) / 2;
        if passes(&of(middle)) {
            passing = middle;
        } else {
            refused = middle;
        }
    }
    of(rng.pick(&[
        passing,
        passing,
        refused,
        refused,
        passing.saturating_sub(1),
    ]))
}

fn passes(draft: &Draft) -> bool {
    let mut buffer = [0; LONGEST_TEXT];
    let answer = pact(&draft.contract, &draft.table, &draft.names, &mut buffer);
    matches!(answer, Answer::Drafted(_))
}

fn short_names() -> Vec<NamedKey> {
    let names = [b"a", b"b", b"c", b"d"];
    names.map(|name| input(name)).to_vec()
}

fn input(name: &[u8]) -> NamedKey {
    NamedKey::new(name, Kind::Exact, NAME_WIDTH)
}

/// A contract whose text has exactly so many bytes: the same clause over and over, and
/// a last one with a name as long as is missing.
fn of_length(rng: &mut Rng, length: usize) -> Draft {
    const CLAUSE_BEYOND_NAME: usize = " == 0".len();
    const JOIN: usize = " ; ".len();
    const EQ: u8 = 0;
    let name = rng.between(40, 56);
    let clause = name + CLAUSE_BEYOND_NAME + JOIN;
    let clauses = (length - CLAUSE_BEYOND_NAME - 1) / clause;
    let last_name = length - clauses * clause - CLAUSE_BEYOND_NAME;
    let names = [vec![b'f'; name], vec![b'l'; last_name]].map(|name| input(&name));
    Draft {
        contract: [[EQ, 0x00].repeat(clauses), vec![EQ, 0x10]].concat(),
        table: vec![0],
        names: list_bytes(&names),
    }
}

/// A contract of any length up to the longest input, now and then with a fault, which
/// comes before its text.
fn far_beyond(rng: &mut Rng) -> Draft {
    let (names, table) = (short_names(), vec![0, u64::MAX]);
    let known = Known {
        names: names.len(),
        users: table.len(),
    };
    let style = Style {
        linked: rng.pick(&[0, 50, 100]),
        ..PLAIN
    };
    const LONGEST_ASSERTION: usize = 3;
    let most = LONGEST_INPUT / LONGEST_ASSERTION - 1;
    let assertions = rng.pick(&[341, 342, 600, 5_000, most]);
    let mut draft = Draft {
        contract: assertions_of(rng, known, style, assertions).concat(),
        table,
        names: list_bytes(&names),
    };
    if rng.one_in(2) {
        spoil_contract(rng, &mut draft);
    }
    draft
}
