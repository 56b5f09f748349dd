//! What is true of every number that meets a width, and which of them the generated
//! requests reach.

mod common;

use std::collections::BTreeMap;

use common::generated;
use desk::reference::calls::text_tree;
use desk::reference::keys::{find, key_list, Key};
use desk::reference::numbers::{all_ones, numeral, Numeral};
use desk::reference::tokens::{tokens, Shape};
use desk::reference::tree::{Node, What};
use desk::reference::{check, Answer};
use desk::requests::Call;

/// The calls that type a text.
const TYPING: [Call; 8] = [
    Call::Check,
    Call::Judge,
    Call::Translate,
    Call::Explain,
    Call::Summarize,
    Call::Recheck,
    Call::Compare,
    Call::Count,
];

/// A number that a text compares with a key or a field of some width.
struct Met {
    place: usize,
    width: u8,
    signs: usize,
    magnitude: u128,
    left: bool,
}

/// How a number lies to the range of its width, worked out without any arithmetic on
/// numbers with signs: by the bits of its magnitude.
#[derive(Clone, Copy, PartialEq, Eq, PartialOrd, Ord, Debug)]
enum Lies {
    Inside,
    MinusZero,
    TopEnd,
    OverTop,
    BottomEnd,
    UnderBottom,
    FarOut,
}

impl Met {
    fn lies(&self) -> Lies {
        let width = u32::from(self.width);
        let bits = u128::BITS - self.magnitude.leading_zeros();
        let power = self.magnitude.is_power_of_two();
        let after_power = self.magnitude > 2 && (self.magnitude - 1).is_power_of_two();
        match self.signs % 2 {
            0 if self.magnitude == all_ones(self.width) => Lies::TopEnd,
            0 if bits == width + 1 && power => Lies::OverTop,
            0 if bits <= width => Lies::Inside,
            1 if self.magnitude == 0 => Lies::MinusZero,
            1 if bits == width && power => Lies::BottomEnd,
            1 if bits < width => Lies::Inside,
            1 if bits == width && after_power => Lies::UnderBottom,
            // At one bit, the number after the last is -2, which is a power.
            1 if width == 1 && self.magnitude == 2 => Lies::UnderBottom,
            _ => Lies::FarOut,
        }
    }

    fn loses(&self) -> bool {
        matches!(
            self.lies(),
            Lies::OverTop | Lies::UnderBottom | Lies::FarOut
        )
    }
}

/// The width that a number meets beside this operand, if it is a key or a field.
fn width_beside(node: &Node, keys: &[Key]) -> Option<u8> {
    let name = match &node.what {
        What::Key(name) => name,
        What::Field { name, .. } if *name == b"prefix_length" => return None,
        What::Field { key, .. } => key,
        What::Minus(inner) => return width_beside(inner, keys),
        _ => return None,
    };
    find(keys, name).map(|index| keys[index].width)
}

fn met(number: &Node, beside: &Node, left: bool, keys: &[Key]) -> Option<Met> {
    let width = width_beside(beside, keys)?;
    let (mut signs, mut node) = (0, number);
    while let What::Minus(inner) = &node.what {
        (signs, node) = (signs + 1, inner);
    }
    let What::Number(literal) = node.what else {
        return None;
    };
    Some(Met {
        place: number.place,
        width,
        signs,
        magnitude: literal.number,
        left,
    })
}

/// All numbers of a tree that meet a width.
fn all_met(node: &Node, keys: &[Key], found: &mut Vec<Met>) {
    match &node.what {
        What::Not(inner) | What::Minus(inner) => all_met(inner, keys, found),
        What::Join(_, left, right) => {
            all_met(left, keys, found);
            all_met(right, keys, found);
        }
        What::Compare(_, left, right) => {
            found.extend(met(left, right, true, keys));
            found.extend(met(right, left, false, keys));
            all_met(left, keys, found);
            all_met(right, keys, found);
        }
        _ => {}
    }
}

fn numbers_of(text: &[u8], list: &[u8]) -> Vec<Met> {
    let mut found = Vec::new();
    if let (Ok(tree), Ok(keys)) = (text_tree(text), key_list(list)) {
        all_met(&tree, &keys, &mut found);
    }
    found
}

/// A text that passes has no number that loses bits; one that is refused with 23 has
/// the first of them where the refusal says.
#[test]
fn texts_pass_without_lost_bits_and_23_is_the_first() {
    let (mut passed, mut refused) = (0, 0);
    for index in 0..12_000 {
        let [text, list, _] = generated(Call::Check, 41, index).inputs;
        let lost: Vec<usize> = numbers_of(&text, &list)
            .iter()
            .filter(|met| met.loses())
            .map(|met| met.place)
            .collect();
        match check(&text, &list) {
            Answer::Passed => {
                assert!(lost.is_empty(), "{}", text.escape_ascii());
                passed += 1;
            }
            Answer::Refused {
                number: 23, offset, ..
            } => {
                // Ones that no type suits, as in d > 300, are not asked.
                assert!(lost.contains(&offset), "{}", text.escape_ascii());
                refused += 1;
            }
            _ => {}
        }
    }
    assert!(passed > 6_000, "{passed}");
    assert!(refused > 300, "{refused}");
}

/// With every numeral 0, no bits are lost.
#[test]
fn zero_loses_nothing() {
    let mut changed = 0;
    for index in 0..6_000 {
        let [text, list, _] = generated(Call::Check, 42, index).inputs;
        let before = check(&text, &list);
        let Ok(all) = tokens(&text) else {
            continue;
        };
        if text.contains(&b'\'') {
            // It may have an address, which has a number too.
            continue;
        }
        let zeros: Vec<Vec<u8>> = all
            .iter()
            .map(|token| match token.shape {
                Shape::Numeral(_) => b"0".to_vec(),
                _ => text[token.place..token.end].to_vec(),
            })
            .collect();
        let after = check(&zeros.join(&b' '), &list);
        assert!(!matches!(after, Answer::Refused { number: 23, .. }));
        if before == Answer::Passed {
            assert_eq!(after, Answer::Passed, "{}", text.escape_ascii());
        }
        changed += usize::from(matches!(before, Answer::Refused { number: 23, .. }));
    }
    assert!(changed > 100, "{changed}");
}

/// Both ends of the range and the numbers next to them, at one bit, at eight, and
/// at 127 and 128, where no number lies above the range; on both sides of an operator.
#[test]
fn numbers_reach_both_ends() {
    let mut counts = BTreeMap::new();
    for index in 0..40_000 {
        let [text, list, _] = generated(Call::Check, 43, index).inputs;
        for met in numbers_of(&text, &list) {
            let width = Some(met.width).filter(|width| [1, 8, 127, 128].contains(width));
            *counts.entry((width, met.left, met.lies())).or_insert(0) += 1;
        }
    }
    // At 128 bits no number is over the top.
    assert_eq!(counts.len(), 5 * 2 * 7 - 2, "{counts:?}");
    for (reached, count) in counts {
        assert!(count >= 3, "{reached:?}: {count}");
    }
}

/// Numbers with signs, parentheses and addresses, that lose bits and that do not.
#[test]
fn numbers_of_every_spelling() {
    let mut counts = BTreeMap::new();
    for index in 0..16_000 {
        let [text, list, _] = generated(Call::Check, 44, index).inputs;
        for met in numbers_of(&text, &list) {
            let at = &text[met.place..];
            let spelled = match (at[0], met.signs) {
                (b'i' | b'm', _) => "an address",
                (b'-', 1) => "one sign",
                (b'-', 2) => "two signs",
                (b'-', _) => "more signs",
                _ => "no sign",
            };
            let inside = text[..met.place].trim_ascii_end().ends_with(b"(");
            let key = (spelled, inside, met.loses());
            *counts.entry(key).or_insert(0) += 1;
        }
    }
    assert_eq!(counts.len(), 5 * 2 * 2, "{counts:?}");
    for (spelled, count) in counts {
        assert!(count >= 4, "{spelled:?}: {count}");
    }
}

/// Every call that types a text gets such numbers, yet not so often that they hide
/// what else is asked of it.
#[test]
fn refusal_23_occurs_but_stays_rare() {
    for call in Call::ALL {
        let refused = (0..3_000)
            .map(|index| generated(call, 45, index).answer_line())
            .filter(|line| line.contains("refused 23 "))
            .count();
        let wanted = if TYPING.contains(&call) {
            10..=300
        } else {
            0..=0
        };
        assert!(wanted.contains(&refused), "{}: {refused}", call.name());
    }
}

/// 23 beside 11, 12 and 13 in one text, with the earlier place told; whichever it is.
#[test]
fn other_faults_stand_before_and_behind() {
    let mut counts = BTreeMap::new();
    for index in 0..20_000 {
        let [text, list, _] = generated(Call::Check, 46, index).inputs;
        let Answer::Refused { number, offset, .. } = check(&text, &list) else {
            continue;
        };
        if ![11, 12, 13, 23].contains(&number) {
            continue;
        }
        let lost = numbers_of(&text, &list);
        let behind = lost.iter().any(|met| met.loses() && met.place > offset);
        *counts.entry((number, behind)).or_insert(0) += 1;
    }
    for number in [11, 12, 13, 23] {
        for behind in [false, true] {
            let count = counts.get(&(number, behind)).copied().unwrap_or(0);
            assert!(count >= 20, "{number} {behind}: {count}");
        }
    }
}

/// Numbers in every notation lose bits, and do not.
#[test]
fn numbers_in_every_base() {
    let mut counts = BTreeMap::new();
    for index in 0..8_000 {
        let [text, list, _] = generated(Call::Check, 47, index).inputs;
        for met in numbers_of(&text, &list) {
            let run = text[met.place..]
                .split(|byte| !byte.is_ascii_alphanumeric())
                .next()
                .unwrap_or_default();
            if let Numeral::Number(literal) = numeral(run) {
                let key = (literal.base.radix(), met.loses());
                *counts.entry(key).or_insert(0) += 1;
            }
        }
    }
    assert_eq!(counts.len(), 3 * 2, "{counts:?}");
    assert!(counts.values().all(|&count| count >= 20), "{counts:?}");
}
