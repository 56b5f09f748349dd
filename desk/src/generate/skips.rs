//! Skips in instruction sequences: good ones, wherever the types allow one, and
//! wrong ones of every sort.

use super::programs::JOINS;
use super::rng::Rng;
use crate::lists::NamedKey;
use crate::reference::code::{landing, Instruction, Parts, Skip};
use crate::reference::keys::Key;
use crate::reference::loading::Walk;
use crate::reference::types::Type;

/// From the instruction that a skip is put before to the one that it lands at, as
/// they are numbered without skips.
type Stretch = (usize, usize);

/// The code with so many skips in it that load, or with none if there is no room
/// for any. They may be nested or overlap, and a landing may be another skip.
pub fn insert(rng: &mut Rng, code: &[Parts], keys: &[NamedKey], count: usize) -> Vec<Parts> {
    let held = types_held(code, keys);
    let starts: Vec<usize> = (0..held.len())
        .filter(|&start| ends(&held, start).next().is_some())
        .collect();
    let Some(&deepest) = starts.iter().max_by_key(|&&start| held[start].len()) else {
        return code.to_vec();
    };
    let mut stretches: Vec<Stretch> = (0..count)
        .map(|_| {
            let any = rng.pick(&starts);
            let start = if rng.one_in(3) { deepest } else { any };
            let ends: Vec<usize> = ends(&held, start).collect();
            (start, any_end(rng, &ends))
        })
        .collect();
    stretches.sort_unstable();
    with_skips(rng, code, &stretches)
}

/// The types held before each instruction, up to the first that fails by itself, or
/// else at the end too.
fn types_held(code: &[Parts], keys: &[NamedKey]) -> Vec<Vec<Type>> {
    let lent: Vec<Key> = keys.iter().map(NamedKey::key).collect();
    Walk::through(code.iter().copied(), code.len(), &lent).held
}

/// Where a skip at `start` may land: the same types are held, a bool uppermost.
/// In between, the values under it may be taken away and others put in their place.
fn ends(held: &[Vec<Type>], start: usize) -> impl Iterator<Item = usize> + '_ {
    let fits = held[start].last() == Some(&Type::Bool);
    (start + 1..held.len()).filter(move |&end| fits && held[end] == held[start])
}

fn any_end(rng: &mut Rng, ends: &[usize]) -> usize {
    match rng.below(4) {
        0 => ends[0],
        1 => ends[ends.len() - 1],
        _ => rng.pick(ends),
    }
}

/// The code with a skip for each of these stretches, which are in order.
fn with_skips(rng: &mut Rng, code: &[Parts], stretches: &[Stretch]) -> Vec<Parts> {
    let skips_before = |place: usize| stretches.partition_point(|&(start, _)| start < place);
    let mut longer = Vec::new();
    for (index, &parts) in code.iter().enumerate() {
        for &(_, end) in stretches.iter().filter(|stretch| stretch.0 == index) {
            // Skips that stand at the end are landed at, or passed over too.
            let landing = end + rng.between(skips_before(end), skips_before(end + 1));
            let over = landing - (longer.len() + 1);
            longer.push(any_skip(rng, over));
        }
        longer.push(parts);
    }
    longer
}

/// A skip over so many instructions.
fn any_skip(rng: &mut Rng, over: usize) -> Parts {
    let skip = Skip {
        when: rng.one_in(2),
        becomes: rng.one_in(2),
        over: u16::try_from(over).expect("code is shorter than 2^16"),
    };
    Instruction::Skip(skip).parts()
}

/// Bools, and a skip over joins of them and over what is then put in their place: a
/// bool uppermost, and under it bools again or one value of another type. Code in
/// which such a value stands under a bool never loads, so that no change of good
/// code makes it.
pub fn refilled(rng: &mut Rng) -> Vec<Parts> {
    let held = rng.between(2, 8);
    let joined = rng.between(1, held - 1);
    let bools = |rng: &mut Rng, count: usize| -> Vec<Parts> {
        let mut push = || Instruction::PushBool(rng.one_in(2)).parts();
        (0..count).map(|_| push()).collect()
    };
    let joins = |rng: &mut Rng, count: usize| -> Vec<Parts> {
        let mut join = || Instruction::Join(rng.pick(&JOINS)).parts();
        (0..count).map(|_| join()).collect()
    };
    let mut put_in_place = bools(rng, joined);
    if joined > 1 && rng.one_in(2) {
        put_in_place[rng.below(joined - 1)] = Instruction::PushPriority.parts();
    }
    [
        bools(rng, held),
        vec![any_skip(rng, 2 * joined)],
        joins(rng, joined),
        put_in_place,
        joins(rng, held - 1),
    ]
    .concat()
}

/// The code as it was made before there were skips.
pub fn without(code: &[Parts]) -> Vec<Parts> {
    code.iter()
        .copied()
        .filter(|&parts| !is_skip(parts))
        .collect()
}

fn is_skip(parts: Parts) -> bool {
    parts.operation == Parts::SKIP
}

/// One thing wrong with a skip, or nearly so. Code without any gets one.
pub fn spoil(rng: &mut Rng, code: &mut Vec<Parts>, keys: &[NamedKey]) {
    let skips: Vec<usize> = (0..code.len())
        .filter(|&index| is_skip(code[index]))
        .collect();
    if skips.is_empty() || rng.one_in(8) {
        insert_anywhere(rng, code);
        return;
    }
    let index = rng.pick(&skips);
    match rng.below(7) {
        0 => spoil_fields(rng, &mut code[index]),
        1 => land_beyond(rng, code, index),
        2 => {
            let near = rng.pick(&[1, u16::MAX]);
            code[index].operand = code[index].operand.wrapping_add(near);
        }
        3 => land_anywhere(rng, code, index),
        4 => land_at_as_many(rng, code, keys, index),
        5 => {
            let other = rng.below(code.len());
            code.swap(index, other);
        }
        _ => {
            land_anywhere(rng, code, index);
            fail_near_landing(rng, code, index);
        }
    }
}

/// A skip wherever it may stand, most often with no bool uppermost or with other
/// types where it lands; other skips now land one too early.
fn insert_anywhere(rng: &mut Rng, code: &mut Vec<Parts>) {
    let index = rng.below(code.len());
    let over = rng.between(1, code.len() - index);
    code.insert(index, any_skip(rng, over));
}

/// A field of the skip out of its range.
fn spoil_fields(rng: &mut Rng, skip: &mut Parts) {
    let first_byte = |byte: u128| byte << Parts::FIRST_CONSTANT_BYTE;
    match rng.below(6) {
        0 => skip.detail = rng.pick(&[2, 3, 128, 255]),
        1 => skip.operand = 0,
        2 => skip.constant = first_byte(rng.pick(&[2, 3, 128, 255])),
        // The constant's second byte, its last byte, or any bit of it.
        3 => skip.constant |= first_byte(1) >> 8,
        4 => skip.constant |= 1,
        _ => skip.constant ^= 1 << rng.below(128),
    }
}

/// The landing is the end of the code, one past it, or far out.
fn land_beyond(rng: &mut Rng, code: &mut [Parts], index: usize) {
    let at_end = (code.len() - index - 1) as u16;
    code[index].operand = rng.pick(&[at_end, at_end + 1, at_end + 1, at_end + 256, u16::MAX]);
}

/// The landing is any later instruction or the end, whatever types are held there.
fn land_anywhere(rng: &mut Rng, code: &mut [Parts], index: usize) {
    let at_end = code.len() - index - 1;
    if at_end > 0 {
        code[index].operand = rng.between(1, at_end) as u16;
    }
}

/// The landing holds as many values as the skip, but not of the same types, if there
/// is such an instruction.
fn land_at_as_many(rng: &mut Rng, code: &mut [Parts], keys: &[NamedKey], index: usize) {
    let held = types_held(code, keys);
    let fitting: Vec<usize> = (index + 2..held.len())
        .filter(|&end| held[end].len() == held[index].len() && held[end] != held[index])
        .collect();
    if !fitting.is_empty() {
        code[index].operand = (rng.pick(&fitting) - index - 1) as u16;
    }
}

/// Lets an instruction fail by itself just before the landing of the skip, at it or
/// just after it: the landing is compared or not.
fn fail_near_landing(rng: &mut Rng, code: &mut [Parts], index: usize) {
    let failing = landing(index, code[index].operand) - 1 + rng.below(3);
    if failing > index && failing < code.len() {
        code[failing] = failing_instruction(rng, code.len() - failing);
    }
}

/// An instruction that fails by itself with so many instructions from it to the end.
/// Most often it is a skip.
fn failing_instruction(rng: &mut Rng, to_end: usize) -> Parts {
    let mut skip = any_skip(rng, 1);
    match rng.below(5) {
        0 => skip.operation = 0,
        1 => skip.operand = 0,
        2 => skip.detail = 2,
        // The first landing beyond the end, and one that is far out.
        3 => skip.operand = to_end as u16,
        _ => skip.operand = u16::MAX,
    }
    skip
}

/// The code with one of its skips landing at another place that holds the same types,
/// if a skip has such a place.
pub fn land_elsewhere(rng: &mut Rng, code: &[Parts], keys: &[NamedKey]) -> Vec<Parts> {
    let held = types_held(code, keys);
    let mut changed = code.to_vec();
    let other_ends = |index: usize| -> Vec<usize> {
        let landed = landing(index, code[index].operand);
        ends(&held, index)
            .filter(|&end| end > index + 1 && end != landed)
            .collect()
    };
    let movable: Vec<usize> = (0..code.len())
        .filter(|&index| is_skip(code[index]) && !other_ends(index).is_empty())
        .collect();
    if !movable.is_empty() {
        let index = rng.pick(&movable);
        let end = rng.pick(&other_ends(index));
        changed[index].operand = (end - index - 1) as u16;
    }
    changed
}
