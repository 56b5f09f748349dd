//! Skips: operation 13, the types at their landings, and the steps of a run.

mod common;

use common::code::*;
use common::*;
use desk::reference::blocks::{all_parts, blocks_of};
use desk::reference::code::Parts;

const BOTH: [bool; 2] = [false, true];

/// The constant whose first byte is this.
fn first_byte(byte: u8) -> u128 {
    u128::from(byte) << 120
}

fn run_code(code: &[Parts]) -> String {
    running(&list(), &blocks_of(code, 5), &entry())
}

/// The instructions of a text.
fn code_of(text: &str) -> Vec<Parts> {
    let blocks = translated(text, &list());
    let count = usize::from(u16::from_be_bytes([blocks[504], blocks[505]]));
    all_parts(&blocks, count).collect()
}

/// The run of a text's translation on document 01's entry.
fn run_text(text: &str) -> String {
    running(&list(), &translated(text, &list()), &entry())
}

#[test]
fn fields_of_a_skip() {
    let load = |skip| load_code(&[push_bool(1), skip, plain(NOT)]);
    for detail in [0, 1] {
        for byte in [0, 1] {
            assert_eq!(load(op(13, detail, 1, first_byte(byte))), "loaded 3");
        }
    }
    for bad in [
        op(13, 2, 1, 0),
        op(13, 255, 1, 0),
        op(13, 0, 0, 0),
        op(13, 0, 1, first_byte(2)),
        op(13, 0, 1, first_byte(255)),
        op(13, 0, 1, first_byte(1) >> 8),
        op(13, 0, 1, first_byte(1) | 1),
        op(13, 0, 1, 1),
        op(14, 0, 1, 0),
    ] {
        assert_eq!(load(bad), fails_at(1), "{bad:?}");
    }
}

#[test]
fn a_skip_takes_a_bool() {
    assert_eq!(load_code(&[skip(1), push_bool(1)]), fails_at(0));
    let on_int = [push_int(1), skip(1), push_int(1), plain(EQUAL)];
    assert_eq!(load_code(&on_int), fails_at(1));
}

/// Taken, the bool becomes the constant's; else it stays.
#[test]
fn taken_and_not_taken() {
    for (truth, when, becomes) in BOTH
        .iter()
        .flat_map(|&truth| BOTH.map(|when| (truth, when)))
        .flat_map(|(truth, when)| BOTH.map(|becomes| (truth, when, becomes)))
    {
        let push = push_bool(u16::from(truth));
        let code = [push, skip_on(when, becomes, 1), plain(NOT)];
        let wanted = match (truth == when, becomes, truth) {
            (true, true, _) => "A 2",
            (true, false, _) => "V 2",
            (false, _, false) => "A 3",
            (false, _, true) => "V 3",
        };
        assert_eq!(run_code(&code), wanted, "{truth} {when} {becomes}");
    }
}

/// Directly after the left operand, over the right one and the join.
#[test]
fn skips_of_each_join() {
    let [f, t] = [0, 1].map(push_bool);
    let and = [t, skip_on(false, false, 2), f, plain(AND)];
    assert_eq!(code_of("true && false"), and);
    assert_eq!(code_of("true; false"), and);
    assert_eq!(code_of("true; false;"), and);
    let or = [t, skip_on(true, true, 2), f, plain(11)];
    assert_eq!(code_of("true || false"), or);
    let implies = [t, skip_on(false, true, 2), f, plain(12)];
    assert_eq!(code_of("true -> false"), implies);
    // Other operators have none.
    assert_eq!(code_of("true == !false"), [t, f, plain(NOT), plain(EQUAL)]);
}

/// The operand counts the right operand with its own skips and conversions.
#[test]
fn skips_over_joins() {
    let [f, t] = [0, 1].map(push_bool);
    let and = plain(AND);
    let from_left = [t, skip(2), f, and, skip(2), t, and];
    assert_eq!(code_of("true && false && true"), from_left);
    let from_right = [t, skip(5), f, skip(2), t, and, and];
    assert_eq!(code_of("true && (false && true)"), from_right);
    assert_eq!(code_of("true && v == 1")[1], skip(5));
    assert_eq!(code_of("!(true && false)")[1], skip(2));
}

/// The count grows by one for each join.
#[test]
fn one_skip_for_each_join() {
    for (text, joins, others) in [
        ("v == 1", 0, 4),
        ("v == 1; true", 1, 6),
        ("true -> false || v == 1 && !(true; false)", 4, 13),
        ("(true == (false || true)) != true", 1, 7),
    ] {
        let code = code_of(text);
        let skips = code.iter().filter(|parts| parts.operation == Parts::SKIP);
        assert_eq!(skips.count(), joins, "{text}");
        assert_eq!(code.len(), joins + others, "{text}");
        assert_eq!(load_code(&code), format!("loaded {}", code.len()));
    }
}

/// The types fall through: code that no run reaches is checked all the same.
#[test]
fn code_that_is_never_reached() {
    let [f, t] = [0, 1].map(push_bool);
    assert_eq!(
        load_code(&[f, skip(2), plain(NEGATE), plain(NOT)]),
        fails_at(2)
    );
    assert_eq!(run_code(&[f, skip(2), t, plain(AND), plain(NOT)]), "A 3");
}

/// Between a skip and its landing other values may be held, fewer ones too.
#[test]
fn types_that_come_back() {
    let (t, one) = (push_bool(1), push_int(1));
    let (and, equal) = (plain(AND), plain(EQUAL));
    let through_one_bool = [t, t, skip(2), and, t, and];
    assert_eq!(load_code(&through_one_bool), "loaded 6");
    assert_eq!(run_code(&through_one_bool), "A 6");
    let through_ints = [t, t, skip(4), and, one, one, equal, and];
    assert_eq!(load_code(&through_ints), "loaded 8");
    // As many values where it lands, but one of another type.
    let on_an_int = [t, t, skip(2), and, one, one, equal, and];
    assert_eq!(load_code(&on_an_int), fails_at(2));
    // A bool is uppermost in both, and what stands under it is not.
    let under_a_bool = [t, t, t, skip(4), and, and, one, t, and];
    assert_eq!(load_code(&under_a_bool), fails_at(3));
}

/// Whatever makes an instruction fail, but for a landing's types, hides the skips
/// that land past it.
#[test]
fn past_an_instruction_that_fails_by_itself() {
    let (t, one) = (push_bool(1), push_int(1));
    // The outer skip lands at the end, where more is held than at the skip.
    let load = |middle: &[Parts]| {
        let over = middle.len() as u16 + 1;
        load_code(&[&[t, skip(over)][..], middle, &[t]].concat())
    };
    assert_eq!(load(&[t]), fails_at(1));
    for failing in [
        skip(9),
        op(13, 0, 0, 0),
        op(13, 2, 1, 0),
        op(13, 0, 1, 1),
        plain(0),
        plain(14),
        plain(NEGATE),
        op(3, 0, 5, 0),
        op(1, 0, 2, 0),
        convert(0, 8),
    ] {
        assert_eq!(load(&[t, failing]), fails_at(3), "{failing:?}");
    }
    assert_eq!(load(&[one, skip(1)]), fails_at(3));
    // Bool 1 stands at the bottom, so that the last of these is value 385.
    assert_eq!(load(&vec![t; 384]), fails_at(385));
    assert_eq!(load(&vec![t; 382]), fails_at(1));
}

/// A skip that lands at other types does not fail by itself: what lands past it is
/// compared.
#[test]
fn past_a_skip_that_only_misfits() {
    let t = push_bool(1);
    assert_eq!(load_code(&[t, skip(3), t, skip(1), t]), fails_at(1));
    // The outer one fits.
    let outer_fits = [t, skip(5), t, skip(1), t, plain(AND), plain(AND)];
    assert_eq!(load_code(&outer_fits), fails_at(3));
}

/// A landing exactly at the failing instruction is compared; one past it is not.
#[test]
fn at_the_failing_instruction_and_past_it() {
    let (t, failing) = (push_bool(1), plain(NEGATE));
    assert_eq!(load_code(&[t, skip(1), t, failing, t]), fails_at(1));
    assert_eq!(load_code(&[t, skip(2), t, failing, t]), fails_at(3));
    assert_eq!(load_code(&[t, skip(3), t, failing, t]), fails_at(3));
    // It fits where it lands.
    assert_eq!(load_code(&[t, skip(1), plain(NOT), failing]), fails_at(3));
    // The first that fails counts, not the one that is landed at.
    assert_eq!(load_code(&[t, skip(2), t, failing, failing]), fails_at(3));
}

/// A landing at the end is compared with the types there, before the end's own rule.
#[test]
fn landings_at_the_end() {
    let t = push_bool(1);
    assert_eq!(load_code(&[t, skip(1), t]), fails_at(1));
    assert_eq!(load_code(&[t, t, skip(1), plain(NOT)]), "18 blocks 512");
    assert_eq!(load_code(&[t, skip(1), plain(NOT)]), "loaded 3");
}

/// Of several skips that misfit the first counts, not the one that lands first.
#[test]
fn earliest_skip() {
    let t = push_bool(1);
    let code = [t, skip(4), t, skip(1), t, t];
    assert_eq!(load_code(&code), fails_at(1));
}

/// Landings are counted across blocks, up to the number of instructions.
#[test]
fn farthest_landings() {
    for count in [3, 25, 26, 60, 3_075] {
        for index in [1, count / 2, count - 2] {
            let to_end = (count - index - 1) as u16;
            for (over, wanted) in [
                (to_end, format!("loaded {count}")),
                (to_end + 1, fails_at(index)),
                (65_535, fails_at(index)),
            ] {
                let mut code = nots(count);
                code[index] = skip(over);
                assert_eq!(load_code(&code), wanted, "{index} of {count}");
            }
        }
    }
    // Nothing is left to pass over after the last instruction.
    for over in [0, 1] {
        assert_eq!(load_code(&[push_bool(1), skip(over)]), fails_at(1));
    }
}

#[test]
fn landings_in_another_block() {
    // The skip is the last of block 0, and its landing's types depend on block 1.
    let mut code = nots(24);
    code.extend([skip(2), push_bool(1), plain(AND), plain(NOT)]);
    assert_eq!(load_code(&code), "loaded 28");
    assert_eq!(run_code(&code), "A 26");
    code[24] = skip(1);
    assert_eq!(load_code(&code), "18 blocks 484");
    code.insert(0, push_bool(1));
    code.push(plain(AND));
    assert_eq!(load_code(&code), "18 blocks 516");
}

/// A skip holds no value more: 384 may be held where it stands.
#[test]
fn skips_at_384_values() {
    let mut code = vec![push_bool(1); 384];
    code.push(skip(1));
    code.push(plain(NOT));
    code.extend(vec![plain(AND); 383]);
    assert_eq!(load_code(&code), "loaded 769");
}

/// In a chain whose first part is false both skips are taken: the first lands on the
/// second.
#[test]
fn steps_of_a_chain() {
    for (text, wanted) in [
        ("false && true && true", "V 3"),
        ("false; true; true", "V 3"),
        ("true && false && true", "V 5"),
        ("true && true && true", "A 7"),
        ("true || false || false", "A 3"),
        ("false || true || false", "A 5"),
        ("false || false || false", "V 7"),
        ("false -> true", "A 2"),
        ("true -> false", "V 4"),
        ("false && (true || true)", "V 2"),
        ("!(false && true)", "A 3"),
        // Four instructions of the comparison, and the skips.
        ("v == 0 && v == 1 && v == 1", "V 6"),
        ("v == 1 && v == 0 && v == 1", "V 11"),
        ("v == 1 && v == 1 && v == 1", "A 16"),
    ] {
        assert_eq!(run_text(text), wanted, "{text}");
    }
}

/// Blocks from before there were skips take as many steps as they have instructions.
#[test]
fn older_blocks() {
    let [f, t] = [0, 1].map(push_bool);
    let and = plain(AND);
    let chain = [f, t, and, t, and];
    assert_eq!(load_code(&chain), "loaded 5");
    assert_eq!(run_code(&chain), "V 5");
    assert_eq!(run_code(&[t, f, plain(11), t, plain(11)]), "A 5");
    assert_eq!(run_code(&[f, t, plain(12)]), "A 3");
}

/// The longest code that loads, and a skip over nearly all of it.
#[test]
fn steps_of_the_longest_code() {
    let mut code = nots(3_075);
    assert_eq!(run_code(&code), "A 3075");
    code[1] = skip_on(true, false, 3_073);
    assert_eq!(run_code(&code), "V 2");
}
