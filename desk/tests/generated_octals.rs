//! What is true of every text that is copied without octal numerals, and what the
//! generated requests reach of it.

mod common;

use std::collections::BTreeMap;

use common::generated;
use desk::generate::{rng::Rng, scenes::Scene, spelling, texts};
use desk::lists::list_bytes;
use desk::reference::calls::LONGEST_TEXT;
use desk::reference::fixing::without_octal;
use desk::reference::numbers::{numeral, Base, Literal, Numeral};
use desk::reference::tokens::{old_tokens, tokens, OldShape, Shape, MOST_TOKENS};
use desk::reference::{fix_octal, judge, Answer};
use desk::requests::{Call, Request, LONGEST_INPUT};

/// Each octal numeral became the hex numeral of its number, every other token and
/// every blank stayed, and there is nothing left to do.
fn holds_of_the_fixed_text(text: &[u8], fixed: &[u8]) {
    assert!(fixed.len() <= text.len());
    let (before, after) = (old_tokens(text).expect("tokens"), tokens(fixed));
    let after = after.expect("no octal numeral is left");
    assert_eq!(before.len(), after.len());
    let (mut from, mut to) = (0, 0);
    for ((stretch, shape), token) in before.into_iter().zip(after) {
        assert_eq!(text[from..stretch.start], fixed[to..token.place]);
        let spelled = &fixed[token.place..token.end];
        match shape {
            OldShape::Octal(number) => {
                let base = Base::Hex;
                assert_eq!(token.shape, Shape::Numeral(Literal { base, number }));
                assert_eq!(spelled, format!("{number:#x}").as_bytes());
            }
            OldShape::Other => assert_eq!(spelled, &text[stretch.clone()]),
        }
        (from, to) = (stretch.end, token.end);
    }
    assert_eq!(text[from..], fixed[to..]);
    assert_eq!(without_octal(fixed).as_deref(), Ok(fixed));
}

#[test]
fn laws_of_generated_fixes() {
    let (mut done, mut changed) = (0, 0);
    for index in 0..6_000 {
        let [text, _, before] = generated(Call::FixOctal, 21, index).inputs;
        let mut after = before.clone();
        match fix_octal(&text, &mut after) {
            Answer::Fixed(length) => {
                holds_of_the_fixed_text(&text, &after[..length]);
                assert_eq!(after[length..], before[length..]);
                done += 1;
                changed += usize::from(after[..length] != text);
            }
            _ => assert_eq!(after, before),
        }
    }
    assert!(done > 2_500, "{done}");
    assert!(changed > 1_500, "{changed}");
}

/// A restriction, and the same with its numerals in octal.
fn restriction_both_ways(rng: &mut Rng, scene: &Scene) -> (Vec<u8>, Vec<u8>) {
    let plain = texts::tokens(rng, &scene.keys, &scene.entry, 3, 0);
    let octal: Vec<Vec<u8>> = plain
        .iter()
        .map(|token| match numeral(token) {
            Numeral::Number(literal) => spelling::octal(rng, literal.number),
            _ => token.clone(),
        })
        .collect();
    (plain.join(&b' '), octal.join(&b' '))
}

/// What the old rules judged, today's rules judge of the copy.
#[test]
fn a_fixed_text_means_what_it_meant() {
    let mut settled = 0;
    for index in 0..2_000 {
        let mut rng = Rng::for_item(22, index);
        let scene = Scene::new(&mut rng, 8, 5);
        let (plain, octal) = restriction_both_ways(&mut rng, &scene);
        let (list, entry) = (list_bytes(&scene.keys), scene.entry.to_bytes());
        let fixed = without_octal(&octal).expect("tokens");
        let answer = judge(&plain, &list, &entry);
        assert_eq!(judge(&fixed, &list, &entry), answer);
        settled += usize::from(matches!(answer, Answer::Accepted | Answer::Violated));
    }
    assert!(settled > 1_900, "{settled}");
}

/// Which limit of the buffer this request lies at.
fn limit_of_buffer(needed: usize, room: usize) -> &'static str {
    match (needed, room) {
        (LONGEST_TEXT, LONGEST_TEXT) => "the longest text, just long enough",
        (0, _) => "an empty text",
        (_, 0) => "no buffer",
        _ if room == needed => "a buffer just long enough",
        _ if room + 1 == needed => "a buffer a byte too short",
        _ if room == needed + 1 => "a buffer a byte longer",
        (_, LONGEST_TEXT) => "a buffer of 4,096 bytes",
        (_, LONGEST_INPUT) => "the longest buffer",
        _ => "another buffer",
    }
}

/// Which limit of texts a refused one lies at.
fn limit_of_refusal(number: u8, offset: usize, text: &[u8]) -> &'static str {
    let at_place = text.get(offset..).unwrap_or_default();
    let octal = at_place.starts_with(b"0o") || at_place.starts_with(b"0O");
    let before = old_tokens(&text[..offset]).map_or(0, |tokens| tokens.len());
    match (number, octal) {
        (1, _) if text.len() == LONGEST_TEXT + 1 => "a text a byte too long",
        (5, true) if before == MOST_TOKENS => "no octal numeral after 1,024 tokens",
        (5, true) => "no octal numeral",
        (6, true) if before == MOST_TOKENS => "too large after 1,024 tokens",
        (6, true) => "an octal numeral that is too large",
        (7, true) => "an octal numeral after 1,024 tokens",
        _ => "another refusal",
    }
}

fn reached(request: &Request) -> &'static str {
    let [text, _, buffer] = &request.inputs;
    match fix_octal(text, &mut vec![0; LONGEST_TEXT]) {
        Answer::Fixed(needed) => limit_of_buffer(needed, buffer.len()),
        Answer::Refused { number, offset, .. } => limit_of_refusal(number, offset, text),
        other => panic!("{other}"),
    }
}

#[test]
fn fixes_reach_their_limits() {
    let mut counts = BTreeMap::new();
    for index in 0..8_000 {
        let request = generated(Call::FixOctal, 23, index);
        *counts.entry(reached(&request)).or_insert(0) += 1;
        assert!(!request.inputs[2].contains(&0));
    }
    assert_eq!(counts.len(), 16, "{counts:?}");
    for (reached, count) in counts {
        assert!(count >= 10, "{reached}: {count}");
    }
}

fn holds_octal(bytes: &[u8]) -> bool {
    let prefix = |pair: &[u8]| pair.eq_ignore_ascii_case(b"0o");
    bytes.windows(2).any(prefix)
}

/// What octal numeral this token is, or holds.
fn sort_of_token(index: usize, spelled: &[u8], shape: OldShape) -> Option<&'static str> {
    let OldShape::Octal(number) = shape else {
        let string = spelled[0] == b'\'';
        return (string && holds_octal(spelled)).then_some("in a string");
    };
    let without_zeros = format!("0o{number:o}");
    Some(match number {
        _ if index + 1 == MOST_TOKENS => "token 1,024",
        u128::MAX => "the largest",
        0 => "zero",
        _ if spelled.len() > without_zeros.len() => "with zeros",
        _ if spelled[1] == b'O' => "with an upper-case prefix",
        _ => "with a lower-case prefix",
    })
}

/// What octal numerals stand in a text, if it is made of tokens.
fn sorts(text: &[u8]) -> Vec<&'static str> {
    let mut sorts = Vec::new();
    let mut end = 0;
    let tokens = old_tokens(text).unwrap_or_default();
    for (index, (stretch, shape)) in tokens.into_iter().enumerate() {
        if holds_octal(&text[end..stretch.start]) {
            sorts.push("in a remark");
        }
        end = stretch.end;
        sorts.extend(sort_of_token(index, &text[stretch], shape));
    }
    sorts
}

/// Octal numerals of every sort stand in texts, of calls that refuse them too.
#[test]
fn octal_numerals_of_every_sort() {
    let mut counts = BTreeMap::new();
    for index in 0..16_000 {
        for call in [Call::Read, Call::Judge, Call::FixOctal] {
            let [text, ..] = generated(call, 24, index).inputs;
            for sort in sorts(&text) {
                *counts.entry((call.byte(), sort)).or_insert(0) += 1;
            }
        }
    }
    assert_eq!(counts.len(), 3 * 8, "{counts:?}");
    for (sort, count) in counts {
        assert!(count >= 5, "{sort:?}: {count}");
    }
}

/// Every call with a text gets octal numerals, yet not so often that they hide
/// what else is asked of it.
#[test]
fn refusal_22_occurs_but_stays_rare() {
    for call in Call::ALL {
        let without_text = matches!(call, Call::Load | Call::Run | Call::RunAll | Call::Pact);
        let may_refuse = !without_text && call != Call::FixOctal;
        let refused = (0..3_000)
            .map(|index| generated(call, 25, index).answer_line())
            .filter(|line| line.contains("refused 22 "))
            .count();
        let wanted = if may_refuse { 10..=300 } else { 0..=0 };
        assert!(wanted.contains(&refused), "{}: {refused}", call.name());
    }
}
