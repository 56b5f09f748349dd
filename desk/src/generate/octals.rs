//! Texts with octal numerals, for the pass that rewrites them and for the calls that
//! refuse them: with either prefix, with zeros before the number, on both sides of
//! 2^128, in strings and remarks, as the 1,024th token and the 1,025th, in texts of
//! 4,096 bytes; and what is no octal numeral for a byte.

use super::rng::Rng;
use super::spelling::{self, Blanks};
use super::texts::{self, Tokens};
use super::{damage, snippets};
use crate::lists::NamedKey;
use crate::reference::calls::LONGEST_TEXT;
use crate::reference::entries::Entry;
use crate::reference::numbers::{numeral, Numeral};
use crate::reference::tokens::MOST_TOKENS;

pub fn text(rng: &mut Rng, keys: &[NamedKey], entry: &Entry) -> Vec<u8> {
    match rng.below(16) {
        0..=3 => snippets::any(rng, snippets::OCTALS),
        4..=8 => restriction(rng, keys, entry),
        9 | 10 => loose(rng, keys),
        11 | 12 => many_tokens(rng),
        13 | 14 => to_the_end(rng),
        _ => battered(rng, keys),
    }
}

/// A restriction that is good but for its numerals, of which some are octal, or
/// all.
fn restriction(rng: &mut Rng, keys: &[NamedKey], entry: &Entry) -> Vec<u8> {
    let joins = rng.below(6);
    let mut tokens = texts::tokens(rng, keys, entry, joins, 0);
    let octal_in = rng.between(1, 3);
    for token in &mut tokens {
        if let Numeral::Number(literal) = numeral(token) {
            if rng.one_in(octal_in) {
                *token = spelling::octal(rng, literal.number);
            }
        }
    }
    spelling::text(rng, &tokens)
}

/// Tokens that stand together for no reason, octal numerals among them.
fn loose(rng: &mut Rng, keys: &[NamedKey]) -> Vec<u8> {
    let length = rng.below(10);
    let mut tokens = texts::soup(rng, keys, length);
    for _ in 0..rng.between(1, 4) {
        let place = rng.between(0, tokens.len());
        let piece = piece(rng);
        tokens.insert(place, piece);
    }
    spelling::text(rng, &tokens)
}

/// An octal numeral by itself, in a string or in a remark, or what is none.
fn piece(rng: &mut Rng) -> Vec<u8> {
    let octal = any_octal(rng);
    match rng.below(16) {
        0 => too_large(rng),
        1 => no_octal(rng),
        2 | 3 => [b"'", &octal[..], b"'"].concat(),
        4 | 5 => [b"//", &octal[..], b"\n"].concat(),
        _ => octal,
    }
}

/// A loose text after much damage.
fn battered(rng: &mut Rng, keys: &[NamedKey]) -> Vec<u8> {
    let mut text = loose(rng, keys);
    for _ in 0..rng.between(1, 20) {
        damage::any(rng, &mut text);
    }
    text
}

/// An octal numeral up to 2^128 − 1, often one next to a power of two.
fn any_octal(rng: &mut Rng) -> Vec<u8> {
    let power = 1u128 << rng.below(128);
    let number = match rng.below(8) {
        0 => 0,
        1 | 2 => rng.below(64) as u128,
        3 => power,
        4 => power - 1,
        5 => u128::MAX,
        _ => rng.number() >> rng.below(128),
    };
    spelling::octal(rng, number)
}

/// An octal numeral above 2^128 − 1; the least of them, or a longer one.
fn too_large(rng: &mut Rng) -> Vec<u8> {
    let prefix = rng.pick(&["0o", "0O", "0o00"]);
    let zeros = rng.pick(&[42, 42, 43, 80]);
    format!("{prefix}4{}", "0".repeat(zeros)).into_bytes()
}

/// What is no octal numeral for a byte that it has, or has not.
fn no_octal(rng: &mut Rng) -> Vec<u8> {
    let prefix = "0o".len();
    let mut run = any_octal(rng);
    match rng.below(5) {
        0 => run.truncate(prefix),
        1 => run.push(rng.pick(b"89a_oz")),
        2 => run.insert(prefix, rng.pick(b"89_oO")),
        3 => run.insert(0, rng.pick(b"01_a")),
        _ => {
            run.remove(0);
        }
    }
    run
}

/// About 1,024 tokens, with octal numerals or nearly such ones at the end, and
/// now and then before.
fn many_tokens(rng: &mut Rng) -> Vec<u8> {
    let before = rng.pick(&[MOST_TOKENS - 2, MOST_TOKENS - 1, MOST_TOKENS]);
    let fillers: &[&str] = rng.pick(&[["!"].as_slice(), &["1", "!"], &["0o17", "!", ";"]]);
    let mut tokens: Tokens = (0..before)
        .map(|_| rng.pick(fillers).as_bytes().to_vec())
        .collect();
    for _ in 0..rng.between(1, 2) {
        let last = match rng.below(6) {
            0 => too_large(rng),
            1 => no_octal(rng),
            _ => any_octal(rng),
        };
        tokens.push(last);
    }
    spelling::text_with(rng, &tokens, Blanks::Needed)
}

/// A text of about 4,096 bytes that is one octal numeral with zeros, blanks or a
/// remark. Without the zeros, what becomes of it may be as long.
fn to_the_end(rng: &mut Rng) -> Vec<u8> {
    let length = rng.pick(&[
        LONGEST_TEXT - 1,
        LONGEST_TEXT,
        LONGEST_TEXT,
        LONGEST_TEXT + 1,
    ]);
    let prefix = rng.pick(&["0o", "0O"]);
    let largest = format!("{:o}", u128::MAX);
    let digits = rng.pick(&["7", "7", "10", "377", &largest]);
    let room = length - prefix.len() - digits.len();
    let (zeros, blanks) = ("0".repeat(room), " ".repeat(room));
    match rng.below(4) {
        0 => format!("{prefix}{zeros}{digits}"),
        1 => format!("{blanks}{prefix}{digits}"),
        2 => format!("{prefix}{digits}//{}", &zeros["//".len()..]),
        _ => format!("{prefix}{digits}{blanks}"),
    }
    .into_bytes()
}
