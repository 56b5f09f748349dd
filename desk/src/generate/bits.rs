//! Numbers that meet a width, on both sides of the range in which they lose no bits:
//! its ends and one past them, with minus signs, parentheses and addresses. And texts
//! that compare keys with such numbers, beside other faults of types.

use super::rng::Rng;
use super::spelling;
use super::texts::Tokens;
use crate::lists::NamedKey;
use crate::reference::fields::Field;
use crate::reference::numbers::{all_ones, lowest_bits, negate_bits};

/// A number to be written, with its sign; zero may have a minus sign.
#[derive(Clone, Copy)]
pub struct Signed {
    pub negative: bool,
    pub magnitude: u128,
}

impl Signed {
    pub fn plus(magnitude: u128) -> Self {
        Signed {
            negative: false,
            magnitude,
        }
    }

    pub fn minus(magnitude: u128) -> Self {
        Signed {
            negative: true,
            magnitude,
        }
    }

    /// The minus signs before its numeral: as many as it needs, or two more.
    pub fn signs(self, rng: &mut Rng) -> usize {
        let needed = usize::from(self.negative);
        if rng.one_in(6) {
            needed + 2
        } else {
            needed
        }
    }
}

/// 2^(W−1), which may stand below zero at width W.
fn half(width: u8) -> u128 {
    1 << (width - 1)
}

/// A number that loses no bits at this width: most often one that is the same as
/// the telling one modulo 2^W, else an end of the range.
pub fn kept(rng: &mut Rng, width: u8, telling: u128) -> Signed {
    let below_zero = negate_bits(telling, width);
    match rng.below(16) {
        0 => Signed::plus(all_ones(width)),
        1 => Signed::minus(half(width)),
        2 => Signed::minus(0),
        3..=7 if below_zero <= half(width) => Signed::minus(below_zero),
        _ => Signed::plus(lowest_bits(telling, width)),
    }
}

/// A number that loses bits at this width: most often the next to an end of the
/// range. At 128 bits all of them are below zero.
pub fn lost(rng: &mut Rng, width: u8) -> Signed {
    let further = rng.number() >> rng.below(128);
    let below = half(width) + 1;
    match (rng.below(10), all_ones(width).checked_add(1)) {
        (0..=2, Some(over)) => Signed::plus(over),
        (3, Some(over)) => Signed::plus(over.saturating_add(further)),
        (4, Some(_)) => Signed::plus(u128::MAX),
        (5, _) => Signed::minus(u128::MAX),
        (6, _) => Signed::minus(below.saturating_add(further)),
        _ => Signed::minus(below),
    }
}

/// A text of comparisons of keys with numbers at the ends of their ranges, now and
/// then with another fault of types before, behind or above them.
pub fn text(rng: &mut Rng, keys: &[NamedKey]) -> Vec<u8> {
    let mut tokens = comparison(rng, keys);
    for _ in 0..rng.below(3) {
        let other = if rng.one_in(4) {
            other_fault(rng, keys)
        } else {
            comparison(rng, keys)
        };
        let join = vec![rng.pick(&["&&", "||", ";"]).as_bytes().to_vec()];
        tokens = if rng.one_in(2) {
            [tokens, join, other].concat()
        } else {
            [other, join, tokens].concat()
        };
    }
    let tokens = under_an_operator(rng, tokens);
    spelling::text(rng, &tokens)
}

fn words(words: &[&str]) -> Tokens {
    words.iter().map(|word| word.as_bytes().to_vec()).collect()
}

/// The comparisons as they are, or under an operator that suits them or not.
fn under_an_operator(rng: &mut Rng, tokens: Tokens) -> Tokens {
    let (before, behind): (&[&str], &[&str]) = match rng.below(12) {
        0 => (&["!", "("], &[")"]),
        1 => (&["-", "("], &[")"]),
        2 => (&["("], &[")", "&&", "1"]),
        3 => (&["1", ";", "("], &[")"]),
        4 => (&["("], &[")", "==", "true"]),
        5 => (&["("], &[")", "->", "false"]),
        _ => (&[], &[]),
    };
    [words(before), tokens, words(behind)].concat()
}

/// An operand, beside which a number meets this width, if it meets any.
struct Beside {
    tokens: Tokens,
    width: Option<u8>,
}

fn comparison(rng: &mut Rng, keys: &[NamedKey]) -> Tokens {
    let beside = operand(rng, keys);
    let number = number_beside(rng, beside.width);
    let number = number_tokens(rng, number);
    let operator = rng.pick(&["==", "==", "!=", "<", ">="]);
    let operator = words(&[operator]);
    if rng.one_in(2) {
        [beside.tokens, operator, number].concat()
    } else {
        [number, operator, beside.tokens].concat()
    }
}

/// A key or one of its fields, now and then with a minus sign, or an int.
fn operand(rng: &mut Rng, keys: &[NamedKey]) -> Beside {
    if keys.is_empty() || rng.one_in(12) {
        let tokens = words(rng.pick(&[["::", "priority"].as_slice(), &["256"], &["-", "1"]]));
        return Beside {
            tokens,
            width: None,
        };
    }
    let key = rng.pick_ref(keys);
    let mut width = Some(key.width);
    let mut tokens = vec![key.name.clone()];
    if rng.one_in(2) {
        let field = any_field(rng, key);
        tokens.extend(words(&["::", field.name()]));
        if field == Field::PrefixLength {
            width = None;
        }
    }
    if rng.one_in(10) {
        tokens.insert(0, b"-".to_vec());
    }
    Beside { tokens, width }
}

fn any_field(rng: &mut Rng, key: &NamedKey) -> Field {
    let fields: Vec<Field> = Field::ALL
        .into_iter()
        .filter(|field| field.belongs_to(key.kind))
        .collect();
    rng.pick(&fields)
}

fn number_beside(rng: &mut Rng, width: Option<u8>) -> Signed {
    let any = rng.number();
    match width {
        None => Signed::minus(any),
        Some(width) if rng.one_in(2) => lost(rng, width),
        Some(width) => match rng.below(3) {
            0 => Signed::plus(all_ones(width)),
            1 => Signed::minus(half(width)),
            _ => kept(rng, width, any),
        },
    }
}

/// A number as an operand: with its signs, with parentheses anywhere, as a numeral
/// or as an address.
fn number_tokens(rng: &mut Rng, number: Signed) -> Tokens {
    let signs = number.signs(rng);
    let mut tokens = Tokens::new();
    for sign in 0..=signs {
        if rng.one_in(6) {
            tokens.push(b"(".to_vec());
        }
        if sign < signs {
            tokens.push(b"-".to_vec());
        }
    }
    let closing = tokens.iter().filter(|token| *token == b"(").count();
    if rng.one_in(6) {
        let (word, quoted) = spelling::address(rng, number.magnitude);
        tokens.extend([word.to_vec(), b"(".to_vec(), quoted, b")".to_vec()]);
    } else {
        tokens.push(spelling::numeral(rng, number.magnitude));
    }
    tokens.extend(vec![b")".to_vec(); closing]);
    tokens
}

/// A comparison that is refused with 11, 12 or 13.
fn other_fault(rng: &mut Rng, keys: &[NamedKey]) -> Tokens {
    let known = keys.first().map(|key| key.name.clone());
    match (rng.below(3), known) {
        (0, _) => words(&["nosuchkey", "==", "1"]),
        (1, Some(key)) => [vec![key], words(&["::", "nosuchfield", "==", "1"])].concat(),
        _ => words(&["true", "==", "1"]),
    }
}
