//! Numbers in readable entries.

use crate::reference::addresses::{ipv4, ipv6, mac};
use crate::reference::numbers::{numeral, Numeral};

/// The number that a numeral or a bare address stands for.
pub fn number(text: &str) -> Result<u128, String> {
    let bytes = text.as_bytes();
    // No text is of two of these forms: six pairs are no eight groups.
    let address = ipv4(bytes).or_else(|| mac(bytes)).or_else(|| ipv6(bytes));
    if let Some(number) = address {
        return Ok(number);
    }
    match numeral(bytes) {
        Numeral::Number(literal) => Ok(literal.number),
        Numeral::TooLarge => Err(format!("{text} is above 2^128 - 1")),
        Numeral::Octal(_) => Err(format!(
            "{text} is octal; write the number in decimal, binary or hex"
        )),
        Numeral::None if text.is_empty() => Err("a number is missing".to_string()),
        Numeral::None => Err(format!("{text} is not a number or an address")),
    }
}
