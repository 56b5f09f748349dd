//! Document 01, "Types and meaning": "Whole numbers up to 2^128 − 1 with a sign
//! are held exactly; minus zero is zero." and "An int meeting width W is
//! reduced modulo 2^W first." The numerals are those of document 004. Document 02,
//! request j, has the range of the numbers that lose no bits.

use std::cmp::Ordering;

/// A whole number with a sign. Zero is never held as negative.
#[derive(Clone, Copy, PartialEq, Eq, Debug)]
pub struct Whole {
    negative: bool,
    magnitude: u128,
}

impl Whole {
    pub fn new(magnitude: u128) -> Self {
        Whole {
            negative: false,
            magnitude,
        }
    }

    pub fn negate(self) -> Self {
        Whole {
            negative: !self.negative && self.magnitude != 0,
            magnitude: self.magnitude,
        }
    }

    /// The remainder from 0 to 2^W − 1.
    pub fn modulo(self, width: u8) -> u128 {
        if self.negative {
            negate_bits(self.magnitude, width)
        } else {
            lowest_bits(self.magnitude, width)
        }
    }

    /// Does it lie between −2^(W−1) and 2^W − 1?
    pub fn fits(self, width: u8) -> bool {
        let most = if self.negative {
            1 << (width - 1)
        } else {
            all_ones(width)
        };
        self.magnitude <= most
    }

    pub fn compare(self, other: Whole) -> Ordering {
        match (self.negative, other.negative) {
            (false, false) => self.magnitude.cmp(&other.magnitude),
            (true, true) => other.magnitude.cmp(&self.magnitude),
            (false, true) => Ordering::Greater,
            (true, false) => Ordering::Less,
        }
    }
}

/// 2^W − 1, for W from 1 to 128.
pub fn all_ones(width: u8) -> u128 {
    u128::MAX >> (128 - u32::from(width))
}

/// The number modulo 2^W.
pub fn lowest_bits(number: u128, width: u8) -> u128 {
    number & all_ones(width)
}

/// Minus the number, modulo 2^W.
pub fn negate_bits(number: u128, width: u8) -> u128 {
    lowest_bits(0u128.wrapping_sub(number), width)
}

/// Document 02, request e: "A numeral that is read must also report how it was
/// written: decimal, binary, octal or hex." Request h: "The base list of e) loses
/// octal."
#[derive(Clone, Copy, PartialEq, Eq, Debug)]
pub enum Base {
    Decimal,
    Binary,
    Hex,
}

impl Base {
    pub fn radix(self) -> u32 {
        match self {
            Base::Decimal => 10,
            Base::Binary => 2,
            Base::Hex => 16,
        }
    }
}

const OCTAL_RADIX: u32 = 8;

/// A number, and how it is written.
#[derive(Clone, Copy, PartialEq, Eq, Debug)]
pub struct Literal {
    pub base: Base,
    pub number: u128,
}

/// What a run of letters, digits and underscores that starts with a digit is.
#[derive(Clone, Copy, PartialEq, Eq, Debug)]
pub enum Numeral {
    Number(Literal),
    /// A decimal, binary or hex numeral of 004, but above 2^128 − 1.
    TooLarge,
    /// An octal numeral of 004, of whatever size.
    Octal(Octal),
    /// No numeral of 004.
    None,
}

/// The number of an octal numeral; only the pass that rewrites such numerals asks
/// for it.
#[derive(Clone, Copy, PartialEq, Eq, Debug)]
pub enum Octal {
    Number(u128),
    /// Above 2^128 − 1.
    TooLarge,
}

/// Reads a whole run as one numeral of 004.
pub fn numeral(run: &[u8]) -> Numeral {
    match run {
        [b'0', b'd' | b'D', digits @ ..] => digits_in_base(digits, Base::Decimal),
        [b'0', b'b' | b'B', digits @ ..] => digits_in_base(digits, Base::Binary),
        [b'0', b'o' | b'O', digits @ ..] => octal_digits(digits),
        [b'0', b'x' | b'X', digits @ ..] => digits_in_base(digits, Base::Hex),
        digits => digits_in_base(digits, Base::Decimal),
    }
}

fn digits_in_base(digits: &[u8], base: Base) -> Numeral {
    match spelled(digits, base.radix()) {
        Spelled::Number(number) => Numeral::Number(Literal { base, number }),
        Spelled::TooLarge => Numeral::TooLarge,
        Spelled::Nothing => Numeral::None,
    }
}

fn octal_digits(digits: &[u8]) -> Numeral {
    match spelled(digits, OCTAL_RADIX) {
        Spelled::Number(number) => Numeral::Octal(Octal::Number(number)),
        Spelled::TooLarge => Numeral::Octal(Octal::TooLarge),
        Spelled::Nothing => Numeral::None,
    }
}

/// What bytes spell as the digits of a number.
enum Spelled {
    Number(u128),
    /// A number above 2^128 − 1.
    TooLarge,
    Nothing,
}

fn spelled(digits: &[u8], radix: u32) -> Spelled {
    if digits.is_empty() {
        return Spelled::Nothing;
    }
    // All digits are looked at even after the number has grown too large: a
    // later byte may show that they spell no number at all.
    let mut number = Some(0u128);
    for &byte in digits {
        let Some(digit) = char::from(byte).to_digit(radix) else {
            return Spelled::Nothing;
        };
        number = number
            .and_then(|n| n.checked_mul(u128::from(radix)))
            .and_then(|n| n.checked_add(u128::from(digit)));
    }
    match number {
        Some(number) => Spelled::Number(number),
        None => Spelled::TooLarge,
    }
}
