//! Document 02, request j, "Numbers that lose bits": "Where an int operand built only
//! of a numeral or address, minus signs and parentheses meets width W, its number must
//! lie between −2^(W−1) and 2^W − 1. Otherwise give new number 23, at the operand's
//! place, in the type stage, once both operands have types that suit the operator".
//! "Other ints, such as prefix lengths, are still reduced."

use super::answers::Refusal;
use super::numbers::Whole;
use super::tree::{Node, What};
use super::types::Type;

/// Refuses an operand of a comparison whose number loses bits where it meets the
/// type of the other operand.
pub fn keeps_bits(operand: &Node, other: Type) -> Result<(), Refusal> {
    match (spelled_out(operand), width_of(other)) {
        (Some(number), Some(width)) if !number.fits(width) => Err(Refusal::text(23, operand.place)),
        _ => Ok(()),
    }
}

/// The number of an operand built only of a numeral or address, minus signs and
/// parentheses, which make no node.
fn spelled_out(node: &Node) -> Option<Whole> {
    match &node.what {
        What::Number(literal) => Some(Whole::new(literal.number)),
        What::Minus(inner) => spelled_out(inner).map(Whole::negate),
        _ => None,
    }
}

/// The width that an int meets beside an operand of this type.
pub fn width_of(other: Type) -> Option<u8> {
    match other {
        Type::Bool | Type::Int => None,
        Type::Bits(width) | Type::Match(_, width) => Some(width),
    }
}
