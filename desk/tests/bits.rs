//! Numbers that lose bits where they meet a width are refused with 23.

mod common;

use common::*;
use desk::reference::{explain, recheck, summarize, translate, Answer};

/// 2^128 − 1.
const LARGEST: &str = "340282366920938463463374607431768211455";
/// 2^127, and the number after it.
const HALF: &str = "170141183460469231731687303715884105728";
const OVER_HALF: &str = "170141183460469231731687303715884105729";

#[test]
fn numbers_that_lose_bits_are_23_at_the_operand() {
    let cases = [
        ("d::mask == 0x1f0", "23@11"),
        ("d == 0x1f0", "23@5"),
        ("0x1f0 == d", "23@0"),
        ("0x1f0 == d::mask", "23@0"),
        // The place of a minus sign is its own, the outermost; parentheses have
        // none.
        ("v == -(-3)", "23@5"),
        ("v == - -3", "23@5"),
        ("v == (3)", "23@6"),
        ("v == (-(3))", "23@6"),
        ("((2)) != v", "23@2"),
        ("-v == 3", "23@6"),
        ("v == // 3\n 3", "23@11"),
        ("d == ipv4('0.0.1.0')", "23@5"),
        ("(mac('00:00:00:00:01:00')) == p::value", "23@1"),
        ("r != -ipv6('::8001')", "23@5"),
        ("o <= 16", "13@2"),
        ("o::mask <= 16", "23@11"),
    ];
    all(checking, cases.to_vec());
    all(judging, cases.to_vec());
}

#[test]
fn every_call_that_types_a_text_gives_23() {
    let text = b"d::mask == 0x1f0";
    assert_eq!(reading(text), "read 3");
    assert_eq!(printing(text), "d::mask == 0x1f0");
    assert_eq!(checking(text), "23@11");
    assert_eq!(judging(text), "23@11");
    assert_eq!(short(translate(text, &list(), &mut [])), "23@11");
    assert_eq!(
        short_explanation(explain(text, &list(), &entry())),
        "nothing 23@11"
    );
    assert_eq!(short(summarize(text, &list())), "23@11");
    let again = recheck(text, &list(), &entry(), Answer::Accepted, &entry());
    assert_eq!(short_recheck(again), "judged 23@11");
}

/// Every number from −600 to 600 at every width from 1 to 9, beside every kind of
/// key and of field, on both sides.
#[test]
fn both_ends_of_small_widths() {
    for width in 1..=9 {
        let keys = format!(
            "v exact {width}\nd ternary {width}\np lpm {width}\nr range {width}\no optional {width}"
        );
        let list = list_of(&keys);
        let range = -(1 << (width - 1))..=(1 << width) - 1;
        for number in -600..=600 {
            let fits = range.contains(&number);
            for beside in ["v", "d", "p", "r", "o", "v::value", "p::value", "r::high"] {
                let right = format!("{beside} != {number}");
                let left = format!("{number} == {beside}");
                let place = right.rfind(' ').expect("a blank") + 1;
                for (text, place) in [(right, place), (left, 0)] {
                    let answer = short(desk::reference::check(text.as_bytes(), &list));
                    let wanted = if fits {
                        "passed".to_string()
                    } else {
                        format!("23@{place}")
                    };
                    assert_eq!(answer, wanted, "{text} at width {width}");
                }
            }
        }
    }
}

#[test]
fn both_ends_of_the_widest() {
    let keys = "a exact 128\nb ternary 127\nc range 64\nd lpm 65";
    let cases = [
        (format!("a == {LARGEST}"), "passed"),
        (format!("a < -{HALF}"), "passed"),
        (format!("a < -{OVER_HALF}"), "23@4"),
        (format!("a == -{LARGEST}"), "23@5"),
        (format!("a == --{LARGEST}"), "passed"),
        (format!("b == {LARGEST}"), "23@5"),
        (format!("b == {HALF}"), "23@5"),
        ("b == 0x7fffffffffffffffffffffffffffffff".into(), "passed"),
        ("b == -0x40000000000000000000000000000000".into(), "passed"),
        ("b == -0x40000000000000000000000000000001".into(), "23@5"),
        ("c == 0xffffffffffffffff".into(), "passed"),
        ("c == 0x10000000000000000".into(), "23@5"),
        ("c == -0x8000000000000000".into(), "passed"),
        ("c == -0x8000000000000001".into(), "23@5"),
        ("d == 0x1ffffffffffffffff".into(), "passed"),
        ("d == 0x20000000000000000".into(), "23@5"),
        ("d == -0x10000000000000000".into(), "passed"),
        ("d == -0x10000000000000001".into(), "23@5"),
    ];
    for (text, wanted) in cases {
        assert_eq!(checking_on(&text, keys), wanted, "{text}");
    }
}

#[test]
fn signs() {
    let cases = [
        ("v == -0", "passed"),
        ("v == --0", "passed"),
        ("v == -1", "passed"),
        ("v == --1", "passed"),
        ("v == ---1", "passed"),
        ("v == --2", "23@5"),
        ("d == --255", "passed"),
        ("d == --300", "23@5"),
        ("d == ---129", "23@5"),
        ("--300 == d", "23@0"),
        ("-(-(128)) == d", "passed"),
        ("-(-(-(129))) == d", "23@0"),
    ];
    all(checking, cases.to_vec());
}

#[test]
fn other_ints_and_ints_among_themselves_are_not_asked() {
    let cases = [
        ("256 == 256", "passed"),
        ("-300 < 300", "passed"),
        ("p::prefix_length == 256", "passed"),
        ("::priority < -300", "passed"),
        ("v == p::prefix_length", "passed"),
        ("d == ::priority", "passed"),
        ("d == -::priority", "passed"),
        ("v == -(-(p::prefix_length))", "passed"),
    ];
    all(checking, cases.to_vec());
}

/// 23 only once both operands have types that suit the operator.
#[test]
fn types_come_first() {
    let cases = [
        ("d > 0x1f0", "13@2"),
        ("0x1f0 <= d", "13@6"),
        ("zz == 0x1f0", "11@0"),
        ("d::low == 0x1f0", "12@3"),
        ("0x1f0 == zz", "11@9"),
        ("true == 0x1f0", "13@5"),
        ("!300 == d", "13@0"),
    ];
    all(checking, cases.to_vec());
}

/// A comparison without a type hides what stands above it, and nothing else.
#[test]
fn nothing_above_it_is_judged() {
    let cases = [
        ("!(d::mask == 0x1f0) && 1", "23@13"),
        ("-(d == 256)", "23@7"),
        ("(d == 256) == 1", "23@6"),
        ("1 == (d == 256)", "23@11"),
        ("1 && d == 256", "23@10"),
        ("d == 256", "23@5"),
        // The whole text is a bool, or nothing at all: never 14.
        ("(v == 3)", "23@6"),
        // Faults elsewhere count, and the earliest place wins.
        ("zz == 1 && v == 9", "11@0"),
        ("v == 9 && zz == 1", "23@5"),
        ("d > 1 && v == 9", "13@2"),
        ("v == 9; d > 1", "23@5"),
        ("v::mask == 1 || v == 9", "12@3"),
        ("v == 9 || v::mask == 1", "23@5"),
        ("v == 9 -> v == 8", "23@5"),
        ("(1 && true) || v == 9", "13@3"),
        ("v == 9 || (1 && true)", "23@5"),
        ("(v == 1) == (v == 2)", "23@18"),
    ];
    all(checking, cases.to_vec());
}

/// Stages before the types and after them.
#[test]
fn other_stages() {
    assert_eq!(checking("v == 9 )"), "8@7");
    assert_eq!(checking("v == 9 && 0o7 == 7"), "22@10");
    let list = list();
    let judged = desk::reference::judge(b"v == 9", &list, &[]);
    assert_eq!(short(judged), "23@5");
    let broken = desk::reference::check(b"v == 9", &list[1..]);
    assert_eq!(short(broken), "2 list 399");
}
