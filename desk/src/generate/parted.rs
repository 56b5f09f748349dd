//! Texts of several parts that are easily mistaken for one another: equal ones, ones
//! that are spelled differently and translate alike, ones whose code begins or ends as
//! that of another does, sequences in parentheses, and as many parts as there may be.

use super::explanations::{self, MOST_PARTS};
use super::rng::Rng;
use super::spelling::{self, Blanks};
use super::texts::{self, Tokens};
use super::{limits, snippets};
use crate::lists::NamedKey;
use crate::reference::entries::Entry;
use crate::reference::tokens::MOST_TOKENS;

pub fn text(rng: &mut Rng, keys: &[NamedKey], entry: &Entry) -> Vec<u8> {
    match rng.below(20) {
        0..=2 => snippets::any(rng, snippets::LOOK_ALIKES),
        3 | 4 => explanations::text(rng, keys, entry),
        5 => many(rng),
        6 => limits::many_tokens(rng, keys, entry),
        _ => several(rng, keys, entry),
    }
}

/// A few parts that are made of the same few conditions.
fn several(rng: &mut Rng, keys: &[NamedKey], entry: &Entry) -> Vec<u8> {
    let conditions: Vec<Tokens> = (0..rng.between(1, 3))
        .map(|_| condition(rng, keys, entry))
        .collect();
    let count = match rng.below(8) {
        0 => 1,
        1 => rng.between(6, 20),
        _ => rng.between(2, 5),
    };
    let parts: Vec<Tokens> = (0..count).map(|_| part(rng, &conditions)).collect();
    let tokens = in_a_row(rng, &parts);
    spelling::text(rng, &tokens)
}

/// The parts with ";" between them, and now and then behind the last.
fn in_a_row(rng: &mut Rng, parts: &[Tokens]) -> Tokens {
    let sign = b";".to_vec();
    let mut tokens = parts.join(&sign);
    if rng.one_in(4) {
        tokens.push(sign);
    }
    tokens
}

/// A condition without joins that may stand on either side of one.
fn condition(rng: &mut Rng, keys: &[NamedKey], entry: &Entry) -> Tokens {
    if rng.one_in(4) {
        let number = rng.below(2) as u128;
        let [left, right] = [(), ()].map(|()| spelling::numeral(rng, number));
        return vec![left, b"==".to_vec(), right];
    }
    let mut tokens = texts::tokens(rng, keys, entry, 0, 0);
    if tokens.last().is_some_and(|last| last == b";") {
        tokens.pop();
    }
    tokens
}

/// What parts are made of conditions: `a`, `b` and `c` stand for any of them.
const FORMS: &[&[&str]] = &[
    &["a"],
    &["(", "a", ")"],
    &["!", "(", "a", ")"],
    &["a", "&&", "b"],
    &["a", "&&", "b", "&&", "c"],
    &["a", "&&", "(", "b", "&&", "c", ")"],
    &["a", "||", "b"],
    &["a", "->", "b"],
    &["(", "a", ";", "b", ")"],
    &["(", "a", ";", "b", ";", "c", ")"],
    &["(", "a", ";", "(", "b", ";", "c", ")", ")"],
];

fn part(rng: &mut Rng, conditions: &[Tokens]) -> Tokens {
    let form = if rng.one_in(2) {
        FORMS[0]
    } else {
        rng.pick(FORMS)
    };
    form.iter()
        .flat_map(|&token| match token {
            "a" | "b" | "c" => rng.pick_ref(conditions).clone(),
            other => vec![other.as_bytes().to_vec()],
        })
        .collect()
}

/// About as many parts as there may be of so many tokens each: all equal, all different
/// as far as that is possible, or of a few sorts.
fn many(rng: &mut Rng) -> Vec<u8> {
    let each = rng.pick(&[1, 1, 2, 3]);
    let most = if each == 1 {
        MOST_PARTS
    } else {
        MOST_TOKENS / (each + 1)
    };
    let count = rng.pick(&[most / 2, most - 1, most, most, most + 1]);
    let sorts = rng.pick(&[1, 2, 3, count]);
    let parts: Vec<Tokens> = (0..count)
        .map(|_| short_part(each, rng.below(sorts)))
        .collect();
    let tokens = in_a_row(rng, &parts);
    spelling::text_with(rng, &tokens, Blanks::Needed)
}

/// A part of so many tokens; the sorts of three tokens are all different.
fn short_part(tokens: usize, sort: usize) -> Tokens {
    let truth = sort.is_multiple_of(2).to_string();
    let words = match tokens {
        1 => vec![truth],
        2 => vec!["!".to_string(), truth],
        _ => vec![sort.to_string(), "==".to_string(), "1".to_string()],
    };
    words.into_iter().map(String::into_bytes).collect()
}
