//! Judgements for comparison with definitions: short texts, many refusals.

use super::rng::Rng;
use super::scenes::Scene;
use super::{bits, damage, limits, octals, snippets, spelling, texts};
use crate::requests::{Call, Request};
use crate::show::hex;

const SHORT: usize = 120;

/// Case `index` of the run with this seed: a request to judge.
pub fn case(seed: u64, index: u64) -> Request {
    let mut rng = Rng::for_item(seed, index);
    let rng = &mut rng;
    let scene = Scene::new(rng, 4, 4);
    let text = text(rng, &scene);
    Request::new(Call::Judge, text, scene.list(rng), scene.entry(rng))
}

fn text(rng: &mut Rng, scene: &Scene) -> Vec<u8> {
    let (keys, entry) = (&scene.keys, &scene.entry);
    match rng.below(200) {
        0 => return limits::bytes(rng, keys, entry),
        1 => return limits::many_tokens(rng, keys, entry),
        2..=5 => return limits::many_levels(rng, keys, entry),
        6..=9 => return limits::large_numbers(rng),
        _ => {}
    }
    loop {
        let text = short_text(rng, scene);
        if text.len() < SHORT {
            return text;
        }
    }
}

fn short_text(rng: &mut Rng, scene: &Scene) -> Vec<u8> {
    let (keys, entry) = (&scene.keys, &scene.entry);
    if rng.one_in(30) {
        return octals::text(rng, keys, entry);
    }
    if rng.one_in(20) {
        return bits::text(rng, keys);
    }
    let joins = rng.below(4);
    let fault_in = if rng.one_in(3) { 4 } else { 0 };
    let mut tokens = match rng.below(20) {
        0..=9 if scene.marked => vec![rng.pick(snippets::TEXTS).as_bytes().to_vec()],
        0 => texts::soup(rng, keys, joins + 2),
        1 => texts::number_alone(rng, keys, entry),
        _ => texts::tokens(rng, keys, entry, joins, fault_in),
    };
    if rng.one_in(6) {
        texts::disturb(rng, keys, &mut tokens);
    }
    let mut text = spelling::text(rng, &tokens);
    if rng.one_in(5) {
        damage::any(rng, &mut text);
    }
    text
}

/// The case in a line: text, list and entry in hex, and the answer.
pub fn line(case: &Request) -> String {
    let [text, list, entry] = &case.inputs;
    let answer = case.answer_line();
    let [text, list, entry] = [text, list, entry].map(|input| hex_or_dash(input));
    format!("{text} {list} {entry} {answer}")
}

fn hex_or_dash(bytes: &[u8]) -> String {
    if bytes.is_empty() {
        "-".to_string()
    } else {
        hex(bytes)
    }
}
