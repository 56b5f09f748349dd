//! Wrong ways to compare blocks with a text: the generated requests tell each of them
//! from the right one.

mod common;

use std::collections::BTreeSet;

use common::generated;
use desk::generate::rivals::from_left;
use desk::reference::agreeing::{part_codes, Code};
use desk::reference::blocks::{all_parts, checked_layout};
use desk::reference::code::Parts;
use desk::reference::keys::key_list;
use desk::reference::{compare, Answer};
use desk::requests::Call;

/// A way to answer, from the code of the blocks and that of each part.
type Way = fn(&[Parts], &[Code]) -> bool;

/// The code cut into a first part of this length and right operands by the landings of
/// the skips between them, whatever else these and the joins are.
fn cut(code: &[Parts], first: usize) -> Option<Vec<Code>> {
    let (first, mut rest) = code.split_at_checked(first)?;
    let mut row = vec![first.to_vec()];
    while let [skip, behind @ ..] = rest {
        let (passed, landed) = behind.split_at_checked(usize::from(skip.operand))?;
        let (_, right) = passed.split_last()?;
        row.push(right.to_vec());
        rest = landed;
    }
    Some(row)
}

/// The rows that the code may be cut into, one for each part that it begins with; one
/// for parts that are equal.
fn loose_rows(code: &[Parts], parts: &[Code]) -> Vec<Vec<Code>> {
    let mut met = BTreeSet::new();
    parts
        .iter()
        .filter(|part| code.starts_with(part) && met.insert(*part))
        .filter_map(|part| cut(code, part.len()))
        .collect()
}

/// Those that are joined from the left as we join them.
fn rows(code: &[Parts], parts: &[Code]) -> Vec<Vec<Code>> {
    let mut rows = loose_rows(code, parts);
    rows.retain(|row| from_left(row) == code);
    rows
}

fn sorted<T: Ord + Clone>(all: &[T]) -> Vec<T> {
    let mut all = all.to_vec();
    all.sort_unstable();
    all
}

fn right(code: &[Parts], parts: &[Code]) -> bool {
    rows(code, parts)
        .iter()
        .any(|row| sorted(row) == sorted(parts))
}

/// The first part of the text that the blocks begin with is taken for their first.
fn greedy_from_the_front(code: &[Parts], parts: &[Code]) -> bool {
    rows(code, parts)
        .first()
        .is_some_and(|row| sorted(row) == sorted(parts))
}

/// A part may be used again.
fn used_again(code: &[Parts], parts: &[Code]) -> bool {
    let set = |row: &[Code]| row.iter().cloned().collect::<BTreeSet<Code>>();
    rows(code, parts).iter().any(|row| set(row) == set(parts))
}

/// A part may be left out.
fn left_out(code: &[Parts], parts: &[Code]) -> bool {
    let mut rows = rows(code, parts);
    rows.retain(|row| row.len() <= parts.len());
    rows.iter()
        .any(|row| row.iter().all(|part| parts.contains(part)))
}

/// Only the parts in their own order.
fn in_order_only(code: &[Parts], parts: &[Code]) -> bool {
    from_left(parts) == code
}

/// Joins and skips are only counted.
fn any_joins(code: &[Parts], parts: &[Code]) -> bool {
    loose_rows(code, parts)
        .iter()
        .any(|row| sorted(row) == sorted(parts))
}

/// The same instructions, wherever they stand.
fn any_shape(code: &[Parts], parts: &[Code]) -> bool {
    sorted(code) == sorted(&from_left(parts))
}

/// Skips play no part.
fn any_skips(code: &[Parts], parts: &[Code]) -> bool {
    let without = |code: &[Parts]| -> Vec<Parts> {
        let mut code = code.to_vec();
        code.retain(|parts| parts.operation != Parts::SKIP);
        code
    };
    right(code, parts) || without(code) == without(&from_left(parts))
}

/// The code of blocks that load, of each part, and whether they agree.
fn compared(index: u64) -> Option<(Vec<Parts>, Vec<Code>, bool)> {
    let [text, list, blocks] = generated(Call::Compare, 61, index).inputs;
    let agrees = match compare(&text, &list, &blocks) {
        Answer::Agrees => true,
        Answer::Differs => false,
        _ => return None,
    };
    let keys = key_list(&list).ok()?;
    let total = checked_layout(&blocks, keys.len()).ok()?;
    let code = all_parts(&blocks, total).collect();
    Some((code, part_codes(&text, &keys).ok()?, agrees))
}

#[test]
fn wrong_ways_are_told_from_the_right_one() {
    let ways: [(&str, Way); 8] = [
        ("right", right),
        ("greedy from the front", greedy_from_the_front),
        ("used again", used_again),
        ("left out", left_out),
        ("in order only", in_order_only),
        ("any joins", any_joins),
        ("any shape", any_shape),
        ("any skips", any_skips),
    ];
    let mut wrong = [0; 8];
    for (code, parts, agrees) in (0..4_000).filter_map(compared) {
        for ((_, way), count) in ways.iter().zip(&mut wrong) {
            *count += usize::from(way(&code, &parts) != agrees);
        }
    }
    assert_eq!(wrong[0], 0);
    for ((name, _), count) in ways.iter().zip(wrong).skip(1) {
        assert!(count >= 50, "{name}: wrong only {count} times");
    }
}
