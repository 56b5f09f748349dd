//! Document 02, request h: "Supply a pass for texts on file that copies a text and
//! turns each octal numeral into "0x" and lower-case hex of the same number without
//! leading zeros, with all other bytes as they stood, strings and comments included."

use super::answers::Refusal;
use super::tokens::{old_tokens, OldShape};

/// The text without octal numerals, or its refusal in stage 5 to 7 by the old
/// rules. Whether its tokens make a sentence plays no part.
pub fn without_octal(text: &[u8]) -> Result<Vec<u8>, Refusal> {
    let mut fixed = Vec::new();
    let mut copied = 0;
    for (stretch, shape) in old_tokens(text)? {
        if let OldShape::Octal(number) = shape {
            fixed.extend_from_slice(&text[copied..stretch.start]);
            fixed.extend_from_slice(format!("0x{number:x}").as_bytes());
            copied = stretch.end;
        }
    }
    fixed.extend_from_slice(&text[copied..]);
    Ok(fixed)
}
