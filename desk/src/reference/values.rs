//! Document 01, "Types and meaning": what each operator gives. "A number meeting
//! a bare key becomes the match of that one value: mask all ones, prefix length
//! W, or low equal to high."
//!
//! Judging from the text and running blocks both use these operations; they
//! are called on operands of good types only.

use std::cmp::Ordering;

use super::entries::Entry;
use super::fields::Field;
use super::keys::{Key, Kind};
use super::numbers::{all_ones, negate_bits, Whole};
use super::tree::{Comparison, Join};
use super::types::Type;

#[derive(Clone, Copy, PartialEq, Eq, Debug)]
pub enum Value {
    Bool(bool),
    Int(Whole),
    Bits {
        width: u8,
        bits: u128,
    },
    /// A match: its value or low, and its mask, prefix length or high.
    Match {
        kind: Kind,
        width: u8,
        first: u128,
        second: u128,
    },
}

impl Value {
    pub fn number(number: u128) -> Value {
        Value::Int(Whole::new(number))
    }

    pub fn priority(entry: &Entry) -> Value {
        Value::number(u128::from(entry.priority))
    }

    /// The value of the bare key of this index.
    pub fn of_key(index: usize, keys: &[Key], entry: &Entry) -> Value {
        let key = &keys[index];
        let record = entry.records[index].reading(key);
        let second = match key.kind {
            Kind::Exact => return bits(key.width, record.first),
            Kind::Lpm => u128::from(record.prefix_length),
            Kind::Ternary | Kind::Optional | Kind::Range => record.second,
        };
        Value::Match {
            kind: key.kind,
            width: key.width,
            first: record.first,
            second,
        }
    }

    /// The value of a field of the key of this index.
    pub fn of_field(index: usize, field: Field, keys: &[Key], entry: &Entry) -> Value {
        let key = &keys[index];
        let record = entry.records[index].reading(key);
        match field {
            Field::Value | Field::Low => bits(key.width, record.first),
            Field::Mask | Field::High => bits(key.width, record.second),
            Field::PrefixLength => Value::number(u128::from(record.prefix_length)),
        }
    }

    pub fn truth(self) -> bool {
        match self {
            Value::Bool(truth) => truth,
            _ => unreachable!("typed as bool"),
        }
    }

    pub fn opposite(self) -> Value {
        Value::Bool(!self.truth())
    }

    pub fn minus(self) -> Value {
        match self {
            Value::Int(number) => Value::Int(number.negate()),
            Value::Bits { width, bits: held } => bits(width, negate_bits(held, width)),
            _ => unreachable!("typed as int or bit"),
        }
    }

    pub fn convert(self, to: Type) -> Value {
        match to {
            Type::Bits(width) => bits(width, self.reduced(width)),
            Type::Match(kind, width) => match_of_one(kind, width, self.reduced(width)),
            Type::Bool | Type::Int => unreachable!("nothing converts to these"),
        }
    }

    /// The number that this int or bit<W> is at width W.
    fn reduced(self, width: u8) -> u128 {
        match self {
            Value::Int(number) => number.modulo(width),
            Value::Bits { bits, .. } => bits,
            _ => unreachable!("typed as int or bit"),
        }
    }

    /// Compares two values of one type.
    pub fn compare(self, comparison: Comparison, other: Value) -> Value {
        Value::Bool(match comparison {
            Comparison::Equal => self == other,
            Comparison::NotEqual => self != other,
            Comparison::Greater => self.order(other) == Ordering::Greater,
            Comparison::GreaterEqual => self.order(other) != Ordering::Less,
            Comparison::Less => self.order(other) == Ordering::Less,
            Comparison::LessEqual => self.order(other) != Ordering::Greater,
        })
    }

    fn order(self, other: Value) -> Ordering {
        match (self, other) {
            (Value::Int(left), Value::Int(right)) => left.compare(right),
            (Value::Bits { bits: left, .. }, Value::Bits { bits: right, .. }) => left.cmp(&right),
            _ => unreachable!("typed as two ints or two bits"),
        }
    }

    pub fn join(self, join: Join, other: Value) -> Value {
        let (left, right) = (self.truth(), other.truth());
        Value::Bool(match join {
            Join::Sequence | Join::And => left && right,
            Join::Or => left || right,
            Join::Implies => !left || right,
        })
    }
}

fn bits(width: u8, bits: u128) -> Value {
    Value::Bits { width, bits }
}

/// The match of exactly one value.
fn match_of_one(kind: Kind, width: u8, value: u128) -> Value {
    let second = match kind {
        Kind::Exact => unreachable!("a bare exact key is bit<W>"),
        Kind::Ternary | Kind::Optional => all_ones(width),
        Kind::Lpm => u128::from(width),
        Kind::Range => value,
    };
    Value::Match {
        kind,
        width,
        first: value,
        second,
    }
}
