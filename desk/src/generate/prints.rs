//! Texts that a printer is likely to get wrong: trees of every shape, prints of
//! about 4,096 bytes, prints far longer than their texts, and as many levels as
//! there may be.

use super::rng::Rng;
use super::texts::{self, Tokens};
use super::{snippets, spelling};
use crate::lists::NamedKey;
use crate::reference::calls::LONGEST_TEXT;
use crate::reference::entries::Entry;
use crate::reference::grammar::MOST_LEVELS;
use crate::reference::tree::{Comparison, Join};

pub fn text(rng: &mut Rng, keys: &[NamedKey], entry: &Entry) -> Vec<u8> {
    match rng.below(10) {
        0..=2 => snippets::any(rng, snippets::PRINTS),
        3..=6 => {
            let operators = rng.below(12);
            let tokens = Shapes { rng, keys, entry }.tree(operators);
            spelling::text(rng, &tokens)
        }
        7 => row(rng, LONGEST_TEXT),
        8 => {
            let length = rng.pick(&[LONGEST_TEXT - 1, LONGEST_TEXT + 1, LONGEST_TEXT + 2, 7_000]);
            row(rng, length)
        }
        _ => nest(rng),
    }
}

/// Writes trees in which any operator may have any operand, whatever its type.
struct Shapes<'a> {
    rng: &'a mut Rng,
    keys: &'a [NamedKey],
    entry: &'a Entry,
}

impl Shapes<'_> {
    /// The tokens of a tree with so many operators and those of its atoms.
    fn tree(&mut self, operators: usize) -> Tokens {
        if operators == 0 {
            return self.atom();
        }
        if self.rng.one_in(4) {
            let prefix = self.rng.pick(&["!", "-"]).as_bytes().to_vec();
            return [vec![prefix], self.operand(operators - 1)].concat();
        }
        let of_left = self.rng.below(operators);
        let left = self.operand(of_left);
        let right = self.operand(operators - 1 - of_left);
        let operator = self.binary().as_bytes().to_vec();
        [left, vec![operator], right].concat()
    }

    /// Parentheses stand round it more often than it needs them; without them
    /// the text may have another tree, or none.
    fn operand(&mut self, operators: usize) -> Tokens {
        let inside = self.tree(operators);
        let enclosed = if operators == 0 {
            self.rng.one_in(8)
        } else {
            !self.rng.one_in(6)
        };
        if !enclosed {
            return inside;
        }
        [vec![b"(".to_vec()], inside, vec![b")".to_vec()]].concat()
    }

    fn binary(&mut self) -> &'static str {
        match self.rng.below(3) {
            0 => self.rng.pick(&Comparison::ALL).spelling(),
            _ => self.rng.pick(&Join::ALL).spelling(),
        }
    }

    fn atom(&mut self) -> Tokens {
        match self.rng.below(6) {
            0 => vec![b"true".to_vec()],
            1 => vec![b"false".to_vec()],
            _ => texts::number_alone(self.rng, self.keys, self.entry),
        }
    }
}

/// A row of operands whose print has exactly so many bytes. The text itself is
/// shorter: no operand is longer than its print, and no blanks stand in it.
fn row(rng: &mut Rng, length: usize) -> Vec<u8> {
    let mut text = String::new();
    let mut missing = length;
    // More than the print of any operand with its operator.
    while missing > 150 {
        let (operand, print) = short_operand(rng);
        let operator = rng.pick(&[";", "||", "&&"]);
        text.push_str(&format!("{operand}{operator}"));
        missing -= format!("{print} {operator} ").len();
    }
    text.push_str(&"k".repeat(missing));
    text.into_bytes()
}

/// An operand and its print, which is mostly far longer.
fn short_operand(rng: &mut Rng) -> (String, String) {
    let group = rng.between(1, 0xffff) as u128;
    let address = (format!("ipv6('{group:x}::')"), (group << 112).to_string());
    match rng.below(8) {
        0 => (
            format!("{}<{}", address.0, address.0),
            format!("{} < {}", address.1, address.1),
        ),
        1 => long_numeral(rng),
        2 => (format!("!{}", address.0), format!("!{}", address.1)),
        _ => address,
    }
}

/// The largest number in any base, whose print is its own text in lower case.
fn long_numeral(rng: &mut Rng) -> (String, String) {
    let number = u128::MAX;
    match rng.below(3) {
        0 => (format!("0B{number:b}"), format!("0b{number:b}")),
        1 => (format!("0X{number:X}"), format!("0x{number:x}")),
        _ => (format!("{number}"), format!("{number}")),
    }
}

/// About 64 levels in one another. Where the operator does not join from that
/// side, the print needs them all.
fn nest(rng: &mut Rng) -> Vec<u8> {
    let levels = rng.pick(&[MOST_LEVELS - 1, MOST_LEVELS, MOST_LEVELS, MOST_LEVELS + 1]);
    let operator = rng.pick(&[";", "->", "||", "&&", "==", "<"]);
    let prefix = rng.pick(&["", "", "!", "-"]);
    // A prefix opens a level as its parenthesis does.
    let pairs = levels.div_ceil(1 + prefix.len());
    let (open, close) = if rng.one_in(2) {
        (format!("k{operator}{prefix}("), ")".to_string())
    } else {
        (format!("{prefix}("), format!("){operator}k"))
    };
    let (open, close) = (open.repeat(pairs), close.repeat(pairs));
    format!("{open}k{operator}k{close}").into_bytes()
}
