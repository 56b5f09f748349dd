//! Texts at the limits: 4,096 bytes, 1,024 tokens, 64 levels, 2^128 − 1, and
//! one beyond each. Texts of up to 1,536 bytes are read with room for 256
//! tokens first, and those of up to 64 bytes with room for 64, so these are
//! limits too, of which no answer may tell.

use super::rng::Rng;
use super::spelling::{self, Blanks};
use super::texts::{self, Tokens};
use crate::lists::NamedKey;
use crate::reference::calls::LONGEST_TEXT;
use crate::reference::entries::Entry;
use crate::reference::grammar::MOST_LEVELS;
use crate::reference::tokens::MOST_TOKENS;

/// The longest text that is read with little room first, and the tokens that
/// there is then room for.
const TRIED_TEXT: usize = 1536;
const TRIED_TOKENS: usize = 256;

/// The longest text that is brief. It has no more tokens than bytes, and code
/// with no more nodes has little room too.
const BRIEF_TEXT: usize = 64;

/// A text padded to about 4,096, 1,536 or 64 bytes.
pub fn bytes(rng: &mut Rng, keys: &[NamedKey], entry: &Entry) -> Vec<u8> {
    let longest = rng.pick(&[LONGEST_TEXT, LONGEST_TEXT, TRIED_TEXT, BRIEF_TEXT]);
    let length = match rng.below(12) {
        0 => longest - 1,
        1..=3 => longest,
        4..=8 => longest + 1,
        9 => longest + 2,
        _ => longest + rng.below(1500),
    };
    let joins = rng.below(if longest == BRIEF_TEXT { 2 } else { 20 });
    let tokens = texts::tokens(rng, keys, entry, joins, 0);
    let mut text = spelling::text(rng, &tokens);
    if text.len() >= length {
        return text;
    }
    let missing = length - text.len();
    match rng.below(5) {
        0 => text.extend(vec![b' '; missing]),
        1 => text.splice(0..0, vec![b'\n'; missing]).for_each(drop),
        2 if missing >= 2 => {
            text.extend_from_slice(b"//");
            text.extend(vec![b'x'; missing - 2]);
        }
        3 if missing >= 6 => {
            // Leading zeros may go on as long as the text does.
            let zeros = "0".repeat(missing - 6);
            text.splice(0..0, format!("1=={zeros}1;").into_bytes())
                .for_each(drop);
        }
        _ => text.extend(vec![b'\t'; missing]),
    }
    text
}

/// A text of about 1,024, 256 or 64 tokens.
pub fn many_tokens(rng: &mut Rng, keys: &[NamedKey], entry: &Entry) -> Vec<u8> {
    let most = rng.pick(&[MOST_TOKENS, MOST_TOKENS, TRIED_TOKENS, BRIEF_TEXT]);
    let count = match rng.below(8) {
        0 => most - 1,
        1..=3 => most,
        4..=6 => most + 1,
        _ => most + rng.between(2, 9),
    };
    let mut tokens: Tokens = vec![b"(".to_vec()];
    tokens.extend(texts::tokens(rng, keys, entry, 3, 0));
    if tokens.last().is_some_and(|last| last == b";") {
        tokens.pop();
    }
    tokens.push(b")".to_vec());
    let operators: &[&str] = rng.pick(&[["&&", ";"].as_slice(), &["||"], &["&&"], &[";", ";"]]);
    while tokens.len() < count {
        let joined = another_part(rng, keys, count - tokens.len(), operators);
        tokens.extend(joined);
    }
    if count > most && rng.one_in(4) {
        tokens[most] = too_large(rng);
    } else if count > most && rng.one_in(4) {
        tokens[most] = rng.pick(&["@", "'", "0x", "1a"]).as_bytes().to_vec();
    }
    spelling::text_with(rng, &tokens, Blanks::Needed)
}

/// An operator and its right operand, in at most so many tokens.
fn another_part(rng: &mut Rng, keys: &[NamedKey], room: usize, operators: &[&str]) -> Vec<Vec<u8>> {
    let operator = rng.pick(operators).as_bytes().to_vec();
    let short = keys.iter().find(|key| key.name.len() <= 3);
    let part = |words: &[&str]| words.iter().map(|w| w.as_bytes().to_vec()).collect();
    let mut tokens: Vec<Vec<u8>> = vec![operator];
    match (room, short) {
        (1, _) => tokens = part(&[";"]),
        (2, _) => tokens.extend::<Tokens>(part(&["true"])),
        (3, _) => tokens.extend::<Tokens>(part(&["!", "false"])),
        (_, Some(key)) if room != 5 => {
            tokens.push(key.name.clone());
            tokens.extend::<Tokens>(part(&["==", "1"]));
        }
        (4, None) => tokens.extend::<Tokens>(part(&["1", "<", "2"])),
        _ => tokens.extend::<Tokens>(part(&["true"])),
    }
    tokens
}

/// A text with about 64 levels open at once.
pub fn many_levels(rng: &mut Rng, keys: &[NamedKey], entry: &Entry) -> Vec<u8> {
    let mut tokens = nest(rng, keys, entry);
    if rng.one_in(4) {
        tokens.push(rng.pick(&["&&", "->", ";", "=="]).as_bytes().to_vec());
        tokens.extend(nest(rng, keys, entry));
    }
    if rng.one_in(10) {
        tokens.truncate(rng.between(MOST_LEVELS - 1, MOST_LEVELS + 1));
    }
    spelling::text_with(rng, &tokens, Blanks::Needed)
}

fn nest(rng: &mut Rng, keys: &[NamedKey], entry: &Entry) -> Tokens {
    let levels = match rng.below(8) {
        0 => MOST_LEVELS - 1,
        1..=3 => MOST_LEVELS,
        4..=6 => MOST_LEVELS + 1,
        _ => MOST_LEVELS + rng.between(2, 4),
    };
    let of_number = rng.one_in(3);
    let prefix = if of_number { "-" } else { "!" };
    let parentheses = rng.below(11);
    let mut tokens: Tokens = Vec::new();
    let mut closing = 0;
    if of_number {
        tokens.extend(["1".as_bytes().to_vec(), b"==".to_vec()]);
    }
    for _ in 0..levels {
        let parenthesis = rng.below(10) < parentheses;
        closing += usize::from(parenthesis);
        let opening = if parenthesis { "(" } else { prefix };
        tokens.push(opening.as_bytes().to_vec());
    }
    if of_number && rng.one_in(3) {
        tokens.extend(["ipv4", "(", "'0.0.0.1'", ")"].map(|t| t.as_bytes().to_vec()));
    } else if of_number {
        tokens.push(b"1".to_vec());
    } else if closing > 0 && rng.one_in(3) {
        tokens.extend(texts::tokens(rng, keys, entry, 0, 0));
    } else {
        tokens.push(b"true".to_vec());
    }
    tokens.extend(vec![b")".to_vec(); closing]);
    tokens
}

/// A numeral above 2^128 − 1; now and then one that is no numeral for its last
/// byte.
pub fn too_large(rng: &mut Rng) -> Vec<u8> {
    let mut numeral = above_the_limit(rng);
    if rng.one_in(6) {
        numeral.push(rng.pick(b"_gz8"));
    }
    numeral
}

fn above_the_limit(rng: &mut Rng) -> Vec<u8> {
    match rng.below(8) {
        0..=2 => b"340282366920938463463374607431768211456".to_vec(),
        3 => format!("0x1{}", "0".repeat(32)).into_bytes(),
        4 => format!("0b1{}", "0".repeat(128)).into_bytes(),
        5 => format!("0o4{}", "0".repeat(42)).into_bytes(),
        6 => format!("0d00{}", "9".repeat(rng.between(39, 80))).into_bytes(),
        _ => format!("0X{}", "f".repeat(rng.between(33, 60))).into_bytes(),
    }
}

/// A restriction with numerals on both sides of 2^128.
pub fn large_numbers(rng: &mut Rng) -> Vec<u8> {
    let mut side = || -> String {
        let numeral = match rng.below(18) {
            0..=2 => String::from_utf8_lossy(&too_large(rng)).into_owned(),
            3..=6 => format!("0x{}", "f".repeat(32)),
            7..=10 => format!("0b{}", "1".repeat(128)),
            11 => format!("0o3{}", "7".repeat(42)),
            _ => "340282366920938463463374607431768211455".to_string(),
        };
        let sign = if rng.one_in(3) { "-" } else { "" };
        format!("{sign}{numeral}")
    };
    let (left, right) = (side(), side());
    let operator = rng.pick(&["==", "!=", "<", "<=", ">", ">="]);
    format!("{left} {operator} {right}").into_bytes()
}
