//! Document 01, "Types and meaning": "Fields are those of 004's table."
//! "Blocks" gives each field its detail byte: "0 value, 1 mask,
//! 2 prefix_length, 3 low, 4 high".

use super::keys::Kind;
use super::types::Type;

#[derive(Clone, Copy, PartialEq, Eq, Debug)]
pub enum Field {
    Value,
    Mask,
    PrefixLength,
    Low,
    High,
}

impl Field {
    /// All fields; each stands at the index that its detail byte names.
    pub const ALL: [Field; 5] = [
        Field::Value,
        Field::Mask,
        Field::PrefixLength,
        Field::Low,
        Field::High,
    ];

    pub fn name(self) -> &'static str {
        match self {
            Field::Value => "value",
            Field::Mask => "mask",
            Field::PrefixLength => "prefix_length",
            Field::Low => "low",
            Field::High => "high",
        }
    }

    pub fn named(name: &[u8]) -> Option<Field> {
        Field::ALL.into_iter().find(|f| f.name().as_bytes() == name)
    }

    pub fn from_detail(detail: u8) -> Option<Field> {
        Field::ALL.get(usize::from(detail)).copied()
    }

    pub fn detail(self) -> u8 {
        self as u8
    }

    /// Does 004's table give this field to keys of this kind?
    pub fn belongs_to(self, kind: Kind) -> bool {
        match kind {
            Kind::Exact => self == Field::Value,
            Kind::Ternary | Kind::Optional => matches!(self, Field::Value | Field::Mask),
            Kind::Lpm => matches!(self, Field::Value | Field::PrefixLength),
            Kind::Range => matches!(self, Field::Low | Field::High),
        }
    }

    /// The type of this field of a key of this width.
    pub fn type_at(self, width: u8) -> Type {
        match self {
            Field::PrefixLength => Type::Int,
            _ => Type::Bits(width),
        }
    }
}
