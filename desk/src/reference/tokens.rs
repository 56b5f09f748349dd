//! Document 01, "Tokens and grammar": "Blanks are space, tab, CR, LF, and "//"
//! up to LF or the end. Tokens are the longest possible from the left". "A run
//! of letters, digits and underscores that starts with a digit must be one
//! numeral of 004 as a whole, else refusal 5 at its start. A string is a quote,
//! bytes other than quote and LF, a quote." Refusals 5, 6 and 7. And document 02,
//! request h: "A well-formed octal numeral is refused with new number 22 at its
//! first byte, in the token stage, whatever its size (never 6)."

use std::ops::Range;

use super::answers::Refusal;
use super::numbers::{numeral, Literal, Numeral, Octal};
use super::words::{continues_id, starts_id, word_length};

pub const MOST_TOKENS: usize = 1024;

/// The numbers of the refusals in the token stage.
const NO_TOKEN: u8 = 5;
const NUMERAL_TOO_LARGE: u8 = 6;
const TOO_MANY_TOKENS: u8 = 7;
const OCTAL_NUMERAL: u8 = 22;

#[derive(Clone, Copy, PartialEq, Eq, Debug)]
pub struct Token<'t> {
    /// The offset of the token's first byte in the text.
    pub place: usize,
    /// One past the offset of its last byte.
    pub end: usize,
    pub shape: Shape<'t>,
}

#[derive(Clone, Copy, PartialEq, Eq, Debug)]
pub enum Shape<'t> {
    Word(&'t [u8]),
    Numeral(Literal),
    /// A string; the bytes between its quotes.
    Quoted(&'t [u8]),
    Symbol(Symbol),
}

#[derive(Clone, Copy, PartialEq, Eq, Debug)]
pub enum Symbol {
    Semicolon,
    Arrow,
    Or,
    And,
    Equal,
    NotEqual,
    GreaterEqual,
    Greater,
    LessEqual,
    Less,
    Not,
    Minus,
    Open,
    Close,
    Colons,
}

/// The spelling of each symbol, longer ones before those that they start with.
pub const SYMBOLS: [(&[u8], Symbol); 15] = [
    (b"->", Symbol::Arrow),
    (b"||", Symbol::Or),
    (b"&&", Symbol::And),
    (b"==", Symbol::Equal),
    (b"!=", Symbol::NotEqual),
    (b">=", Symbol::GreaterEqual),
    (b"<=", Symbol::LessEqual),
    (b"::", Symbol::Colons),
    (b">", Symbol::Greater),
    (b"<", Symbol::Less),
    (b"!", Symbol::Not),
    (b"-", Symbol::Minus),
    (b"(", Symbol::Open),
    (b")", Symbol::Close),
    (b";", Symbol::Semicolon),
];

/// All tokens of a text: stage 5 to 7, with 22.
pub fn tokens(text: &[u8]) -> Result<Vec<Token<'_>>, Refusal> {
    let found = cut(text, token_at_front)?;
    let token = |(stretch, shape): (Range<usize>, _)| Token {
        place: stretch.start,
        end: stretch.end,
        shape,
    };
    Ok(found.into_iter().map(token).collect())
}

/// What a token is by the old rules, in the eyes of the pass that rewrites octal
/// numerals.
#[derive(Clone, Copy, PartialEq, Eq, Debug)]
pub enum OldShape {
    /// An octal numeral of this number.
    Octal(u128),
    Other,
}

/// The stretches of a text's tokens by the old rules, under which octal numerals
/// are numerals as others are: stage 5 to 7.
pub fn old_tokens(text: &[u8]) -> Result<Vec<(Range<usize>, OldShape)>, Refusal> {
    cut(text, old_token_at_front)
}

/// What stands at the front of some bytes and its length, or the number of the
/// refusal.
type Front<S> = Result<(S, usize), u8>;

/// Cuts a text into tokens, each with its stretch.
///
/// Places only grow on the way through the text, so the first refusal met is
/// the one at the earliest place.
fn cut<'t, S>(
    text: &'t [u8],
    at_front: fn(&'t [u8]) -> Front<S>,
) -> Result<Vec<(Range<usize>, S)>, Refusal> {
    let mut found = Vec::new();
    let mut place = skip_blanks(text, 0);
    while place < text.len() {
        let mut front = at_front(&text[place..]);
        if found.len() == MOST_TOKENS {
            front = Err(one_too_many(front));
        }
        let (shape, length) = front.map_err(|number| Refusal::text(number, place))?;
        let end = place + length;
        found.push((place..end, shape));
        place = skip_blanks(text, end);
    }
    Ok(found)
}

/// The number of the refusal of a 1,025th token: "at one place the lower number
/// wins".
fn one_too_many<S>(front: Front<S>) -> u8 {
    match front {
        Ok(_) => TOO_MANY_TOKENS,
        Err(number) => number.min(TOO_MANY_TOKENS),
    }
}

fn skip_blanks(text: &[u8], mut place: usize) -> usize {
    loop {
        match &text[place..] {
            [b' ' | b'\t' | b'\r' | b'\n', ..] => place += 1,
            [b'/', b'/', ..] => {
                let comment = text[place..].iter().take_while(|&&b| b != b'\n').count();
                place += comment;
            }
            _ => return place,
        }
    }
}

/// The longest token at the front of these bytes.
fn token_at_front(bytes: &[u8]) -> Front<Shape<'_>> {
    let first = bytes[0];
    if starts_id(first) {
        let length = word_length(bytes);
        return Ok((Shape::Word(&bytes[..length]), length));
    }
    if first.is_ascii_digit() {
        return numeral_at_front(bytes);
    }
    if first == b'\'' {
        return string_at_front(bytes);
    }
    SYMBOLS
        .iter()
        .find(|(spelling, _)| bytes.starts_with(spelling))
        .map(|&(spelling, symbol)| (Shape::Symbol(symbol), spelling.len()))
        .ok_or(NO_TOKEN)
}

/// Octal numerals are the only tokens for which the old rules are others.
fn old_token_at_front(bytes: &[u8]) -> Front<OldShape> {
    let run = run_at_front(bytes);
    match numeral(run) {
        Numeral::Octal(Octal::Number(number)) => Ok((OldShape::Octal(number), run.len())),
        Numeral::Octal(Octal::TooLarge) => Err(NUMERAL_TOO_LARGE),
        _ => token_at_front(bytes).map(|(_, length)| (OldShape::Other, length)),
    }
}

/// The run of letters, digits and underscores at the front of these bytes.
fn run_at_front(bytes: &[u8]) -> &[u8] {
    let length = bytes.iter().take_while(|&&b| continues_id(b)).count();
    &bytes[..length]
}

fn numeral_at_front(bytes: &[u8]) -> Front<Shape<'_>> {
    let run = run_at_front(bytes);
    match numeral(run) {
        Numeral::Number(literal) => Ok((Shape::Numeral(literal), run.len())),
        Numeral::TooLarge => Err(NUMERAL_TOO_LARGE),
        Numeral::Octal(_) => Err(OCTAL_NUMERAL),
        Numeral::None => Err(NO_TOKEN),
    }
}

fn string_at_front(bytes: &[u8]) -> Front<Shape<'_>> {
    let rest = &bytes[1..];
    let inside = rest
        .iter()
        .take_while(|&&b| b != b'\'' && b != b'\n')
        .count();
    match rest.get(inside) {
        Some(b'\'') => Ok((Shape::Quoted(&rest[..inside]), inside + 2)),
        _ => Err(NO_TOKEN),
    }
}
