//! What the generated programs with skips promise: that the good ones load, and
//! that every sort of skip occurs, good and wrong.

mod common;

use std::collections::BTreeMap;

use desk::generate::rng::Rng;
use desk::generate::{entries, lists, programs, skips};
use desk::lists::list_bytes;
use desk::reference::blocks::{
    all_parts, blocks_of, checked_layout, INSTRUCTIONS_IN_BLOCK, MOST_BLOCKS,
};
use desk::reference::code::{landing, Instruction, Parts, Skip};
use desk::reference::keys::key_list;
use desk::reference::loading::{Walk, MOST_HELD};
use desk::reference::{load, run, Answer, Outcome};
use desk::requests::Call;

const MOST_INSTRUCTIONS: usize = MOST_BLOCKS * INSTRUCTIONS_IN_BLOCK;

/// How often each thing was reached.
#[derive(Default)]
struct Reached(BTreeMap<&'static str, usize>);

impl Reached {
    fn note(&mut self, what: &'static str, holds: bool) {
        *self.0.entry(what).or_insert(0) += usize::from(holds);
    }

    fn each_at_least(&self, wanted: usize) {
        for (what, &count) in &self.0 {
            assert!(count >= wanted, "{what}: {count}");
        }
    }
}

/// The code of a generated request to load whose list and layout are good, all
/// instructions, and the walk through them.
fn generated_code(index: u64) -> Option<(Vec<Parts>, Walk)> {
    let [list, blocks, _] = common::generated(Call::Load, 16, index).inputs;
    let keys = key_list(&list).ok()?;
    let total = checked_layout(&blocks, keys.len()).ok()?;
    let all: Vec<Parts> = all_parts(&blocks, total).collect();
    let walk = Walk::through(all.iter().copied(), total, &keys);
    Some((all, walk))
}

/// The skips among instructions, each with its index.
fn skips_in(code: &[Instruction]) -> Vec<(usize, Skip)> {
    let numbered = code.iter().enumerate();
    numbered
        .filter_map(|(index, &instruction)| match instruction {
            Instruction::Skip(skip) => Some((index, skip)),
            _ => None,
        })
        .collect()
}

#[test]
fn programs_with_skips_load() {
    let mut taken = 0;
    for index in 0..3_000 {
        let mut rng = Rng::for_item(17, index);
        let keys = lists::good(&mut rng, 6);
        let entry = entries::good(&mut rng, &keys);
        let (joins, count) = (rng.between(1, 10), rng.between(1, 8));
        let plain = programs::good(&mut rng, &keys, &entry, joins);
        let code = skips::insert(&mut rng, &plain, &keys, count);
        assert_eq!(skips::without(&code), plain);
        let (list, blocks) = (list_bytes(&keys), blocks_of(&code, keys.len()));
        assert_eq!(load(&list, &blocks), Answer::Loaded(code.len()));
        let Answer::Ran(Outcome { steps, .. }) = run(&list, &blocks, &entry.to_bytes()) else {
            panic!("it loads, and the entry conforms");
        };
        assert!(steps <= code.len());
        taken += usize::from(steps < code.len());
    }
    assert!(taken >= 1_000, "{taken}");
}

/// What is special about the skips of a program in which no instruction is wrong.
fn note_good(reached: &mut Reached, walk: &Walk) {
    let skips = skips_in(&walk.code);
    reached.note("no skip", skips.is_empty());
    for &(index, skip) in &skips {
        let end = skip.landing(index);
        let depth = walk.held[index].len();
        let passed = &walk.held[index + 1..end];
        let starts_inside = |other: &&(usize, Skip)| (index + 1..end).contains(&other.0);
        let inner: Vec<usize> = skips
            .iter()
            .filter(starts_inside)
            .map(|&(start, skip)| skip.landing(start))
            .collect();
        let last_passed = (end - 1) / INSTRUCTIONS_IN_BLOCK;
        reached.note("the end", end == walk.code.len());
        reached.note("a skip", skips.iter().any(|other| other.0 == end));
        reached.note("a skip inside", inner.iter().any(|&inner| inner <= end));
        reached.note("a skip across", inner.iter().any(|&inner| inner > end));
        reached.note("a block's end", index / INSTRUCTIONS_IN_BLOCK < last_passed);
        reached.note("fewer held", passed.iter().any(|held| held.len() < depth));
        reached.note("over one instruction", skip.over == 1);
        reached.note("a bool that changes", skip.when != skip.becomes);
    }
}

/// What is special about the first skip that misfits.
fn note_misfit(reached: &mut Reached, walk: &Walk, total: usize, index: usize) {
    let Instruction::Skip(skip) = walk.code[index] else {
        panic!("only a skip misfits");
    };
    let end = skip.landing(index);
    let [at_skip, at_landing] = [index, end].map(|place| &walk.held[place]);
    let as_many = at_landing.len() == at_skip.len();
    let misfits_too = |&(other, skip): &(usize, Skip)| {
        let held = walk.held.get(skip.landing(other));
        index < other && other < end && held.is_some_and(|held| *held != walk.held[other])
    };
    reached.note("as many values", as_many);
    let bool_on_top = at_landing.last() == at_skip.last();
    reached.note("as many values, a bool on top", as_many && bool_on_top);
    reached.note("misfit at the end", end == total);
    let at_failing = end == walk.code.len() && end < total;
    reached.note("misfit at a failing instruction", at_failing);
    let inside = skips_in(&walk.code).iter().any(misfits_too);
    reached.note("misfit over a misfit", inside);
}

/// What is special about the instruction that fails by itself.
fn note_failing(reached: &mut Reached, all: &[Parts], walk: &Walk) {
    let failing = walk.code.len();
    let parts = all[failing];
    let landings = || {
        let skips = skips_in(&walk.code).into_iter();
        skips.map(|(index, skip)| skip.landing(index))
    };
    let past = failing + 1;
    reached.note("landed one past", landings().any(|end| end == past));
    reached.note("landed further past", landings().any(|end| end > past));
    if parts.operation != Parts::SKIP {
        return;
    }
    let first_byte = parts.constant >> Parts::FIRST_CONSTANT_BYTE;
    let second_byte = parts.constant << 8 >> Parts::FIRST_CONSTANT_BYTE;
    let end = landing(failing, parts.operand);
    reached.note("a detail of 2 or more", parts.detail > 1);
    reached.note("a first byte of 2 or more", first_byte > 1);
    reached.note("a second byte", second_byte == 1);
    reached.note("a last byte", parts.constant & 1 == 1);
    reached.note("no instruction passed", parts.operand == 0);
    reached.note("one past the end", end == all.len() + 1);
    reached.note("far past the end", parts.operand == u16::MAX);
    let fields_fit = Instruction::from_parts(parts).is_some() && end <= all.len();
    reached.note("no bool", fields_fit);
}

#[test]
fn every_sort_of_skip_occurs() {
    let mut reached = Reached::default();
    for index in 0..20_000 {
        let Some((all, walk)) = generated_code(index) else {
            continue;
        };
        let total = all.len();
        match (walk.first_misfit(), walk.first_failing(total)) {
            (Some(index), _) => note_misfit(&mut reached, &walk, total, index),
            (None, Some(_)) => note_failing(&mut reached, &all, &walk),
            (None, None) => note_good(&mut reached, &walk),
        }
    }
    assert_eq!(reached.0.len(), 24, "{:?}", reached.0);
    reached.each_at_least(20);
}

/// Both sides of 123 blocks, with skips and without.
#[test]
fn long_programs_reach_their_limit() {
    let mut reached = Reached::default();
    for index in 0..500 {
        let mut rng = Rng::for_item(18, index);
        let code = programs::many_blocks(&mut rng);
        let answer = load(&[], &blocks_of(&code, 0));
        let plain = skips::without(&code).len() == code.len();
        let full = answer == Answer::Loaded(MOST_INSTRUCTIONS);
        reached.note("full, with skips", full && !plain);
        reached.note("full, without", full && plain);
        let over = code.len() == MOST_INSTRUCTIONS + 1;
        reached.note("one too many, with skips", over && !plain);
        reached.note("one too many, without", over && plain);
        let loads = code.len() <= MOST_INSTRUCTIONS;
        assert_eq!(answer == Answer::Loaded(code.len()), loads);
    }
    reached.each_at_least(10);
}

/// Skips that stand where as many values are held as may be.
#[test]
fn skips_reach_the_most_values() {
    let mut reached = Reached::default();
    for index in 0..500 {
        let mut rng = Rng::for_item(20, index);
        let plain = programs::many_held(&mut rng);
        let code = skips::insert(&mut rng, &plain, &[], 3);
        let walk = Walk::through(code.iter().copied(), code.len(), &[]);
        let depths: Vec<usize> = skips_in(&walk.code)
            .iter()
            .map(|&(index, _)| walk.held[index].len())
            .collect();
        let loads = load(&[], &blocks_of(&code, 0)) == Answer::Loaded(code.len());
        reached.note("384 held", loads && depths.contains(&MOST_HELD));
    }
    reached.each_at_least(20);
}

/// Runs that stop early and runs to the end, accepted and violated.
#[test]
fn runs_stop_early_and_run_to_the_end() {
    let mut reached = Reached::default();
    for index in 0..6_000 {
        let [list, blocks, entry] = common::generated(Call::Run, 19, index).inputs;
        let (Answer::Loaded(count), Answer::Ran(outcome)) =
            (load(&list, &blocks), run(&list, &blocks, &entry))
        else {
            continue;
        };
        let Outcome { accepted, steps } = outcome;
        reached.note("accepted early", accepted && steps < count);
        reached.note("violated early", !accepted && steps < count);
        reached.note("accepted at the end", accepted && steps == count);
        reached.note("violated at the end", !accepted && steps == count);
        reached.note(
            "more than a block is passed over",
            steps + INSTRUCTIONS_IN_BLOCK < count,
        );
    }
    reached.each_at_least(100);
}
