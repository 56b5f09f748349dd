//! Types and meaning: refusals 11 to 14. The tests of refusal 23 are in bits.rs.

mod common;

use common::*;

#[test]
fn operator_over_a_fault_is_not_judged() {
    let cases = [
        ("1 && zz", "11@5"),
        ("zz && 1", "11@0"),
        ("(1 && true) && zz", "13@3"),
        ("d > zz", "11@4"),
        ("!(v::mask == 1)", "12@5"),
        ("-(zz) == 1", "11@2"),
    ];
    all(checking, cases.to_vec());
}

#[test]
fn places() {
    let cases = [
        ("v::mask", "12@3"),
        ("::prio", "12@2"),
        (":: prio", "12@3"),
        ("v :: mask", "12@5"),
        ("zz::foo", "11@0"),
        ("1; true", "13@1"),
        ("true; 1", "13@4"),
        ("!v == 1", "13@0"),
        ("true && -true", "13@8"),
        ("true -> 1", "13@5"),
        ("1 || true", "13@2"),
    ];
    all(checking, cases.to_vec());
}

#[test]
fn whole_text_must_be_bool() {
    let cases = [
        ("1", "14@0"),
        ("((1))", "14@2"),
        ("-(1)", "14@0"),
        ("(-1)", "14@1"),
        ("(d::mask)", "14@1"),
        (" ::priority", "14@1"),
        ("ipv4('1.2.3.4')", "14@0"),
        ("(ipv4('1.2.3.4'))", "14@1"),
        ("v", "14@0"),
        ("d", "14@0"),
        ("(d) // x", "14@1"),
    ];
    all(checking, cases.to_vec());
}

#[test]
fn bools_compare_with_bools_only() {
    let cases = [
        ("true == false", "passed"),
        ("true != (v == 1)", "passed"),
        ("true < false", "13@5"),
        ("(true) >= (false)", "13@7"),
        ("v == true", "13@2"),
        ("true == 1", "13@5"),
        ("d == true", "13@2"),
        ("true == d::mask", "13@5"),
        ("-true == 1", "13@0"),
        ("!1 == true", "13@0"),
    ];
    all(checking, cases.to_vec());
}

#[test]
fn numbers_and_bare_keys() {
    let cases = [
        ("d == 1", "passed"),
        ("1 == d", "passed"),
        ("d != p::value", "passed"),
        ("p::value != d", "passed"),
        ("d::mask == d", "passed"),
        ("(d) == (1)", "passed"),
        ("d == ::priority", "passed"),
        ("v == p::prefix_length", "passed"),
        ("d == v", "13@2"),
        ("d == p", "13@2"),
        ("d == o", "13@2"),
        ("r == d::mask", "13@2"),
        ("d == d", "passed"),
        ("r != r", "passed"),
        ("-d == 1", "13@0"),
        ("-v == v::value", "passed"),
        ("d::value == p::value", "passed"),
        ("d::value == r::low", "13@9"),
        ("d::value < p::value", "passed"),
        ("v::value < d::value", "13@9"),
        ("d > 3", "13@2"),
        ("3 < d", "13@2"),
        ("d < d", "13@2"),
        ("d >= d::mask", "13@2"),
        ("v > 1", "passed"),
        ("1 >= v", "passed"),
        ("p::prefix_length < r::low", "passed"),
    ];
    all(checking, cases.to_vec());
}

#[test]
fn two_bare_keys_need_one_kind_and_width() {
    let keys = "t1 ternary 1\no1 optional 1\nv exact 1\nw exact 1\nt2 ternary 2\nu1 ternary 1";
    let cases = [
        ("t1 == u1", "passed"),
        ("t1 == t2", "13@3"),
        ("t1 == o1", "13@3"),
        ("v == t1", "passed"),
        ("t1 == v", "passed"),
        ("v == t2", "13@2"),
        ("-v == t1", "passed"),
        ("v == w", "passed"),
        ("v < w", "passed"),
        ("v < t1", "13@2"),
        ("-t1 == v", "13@0"),
    ];
    for (text, wanted) in cases {
        assert_eq!(checking_on(text, keys), wanted, "{text}");
    }
}

#[test]
fn fields_of_each_kind() {
    let cases = [
        ("v", "value"),
        ("d", "value mask"),
        ("p", "value prefix_length"),
        ("r", "low high"),
        ("o", "value mask"),
    ];
    for (key, fields) in cases {
        for field in [
            "value",
            "mask",
            "prefix_length",
            "low",
            "high",
            "Value",
            "priority",
        ] {
            let good = fields.split(' ').any(|name| name == field);
            let wanted = if good { "passed" } else { "12@3" };
            assert_eq!(checking(format!("{key}::{field} == 1")), wanted);
        }
    }
}

#[test]
fn key_names_are_compared_whole() {
    let name = "k".repeat(64);
    let keys = format!("{name} exact 8");
    assert_eq!(checking_on(&format!("{name} == 1"), &keys), "passed");
    assert_eq!(checking_on(&format!("{name}k == 1"), &keys), "11@0");
    assert_eq!(checking_on(&format!("{} == 1", &name[1..]), &keys), "11@0");
    assert_eq!(checking_on("a == 1", "a.b exact 8"), "11@0");
    assert_eq!(checking_on("a.b.c == 1", "a.b exact 8"), "11@0");
    assert_eq!(checking_on("A == 1", "a exact 8"), "11@0");
    assert_eq!(checking_on("a == 1", ""), "11@0");
}

#[test]
fn whole_numbers_with_a_sign() {
    let largest = "340282366920938463463374607431768211455";
    let cases = [
        ("-0 == 0".to_string(), "A"),
        ("0 == -0".to_string(), "A"),
        ("--2 == 2".to_string(), "A"),
        ("-1 < 0".to_string(), "A"),
        ("-2 < -1".to_string(), "A"),
        ("-1 >= 1".to_string(), "V"),
        (format!("-{largest} < {largest}"), "A"),
        (format!("-{largest} == {largest}"), "V"),
        (format!("-{largest} <= -{largest}"), "A"),
        ("256 == 0".to_string(), "V"),
    ];
    for (text, wanted) in cases {
        assert_eq!(judging(&text), wanted, "{text}");
    }
}

#[test]
fn an_int_is_reduced_where_it_meets_a_width() {
    let cases = [
        ("d::mask == -16", "A"),
        ("d::mask < -1", "A"),
        ("-1 < v::value", "V"),
        ("v == -1", "A"),
        ("p::value == -64", "A"),
        ("-64 == p::value", "A"),
        // Prefix lengths and priorities are ints as well.
        ("v == p::prefix_length", "V"),
        ("::priority == r::low", "V"),
        ("p::prefix_length == 258", "V"),
        ("- p::prefix_length == -2", "A"),
        ("-v == v", "A"),
        ("-d::value == 0xe0", "A"),
        ("--d::value == 32", "A"),
    ];
    all(judging, cases.to_vec());
}

/// A number of the text must fit its width; one of the entry need not.
#[test]
fn ints_of_the_entry_of_any_size_are_reduced() {
    let keys = "d ternary 8\np lpm 127\nv exact 1\no optional 2";
    let entry = "priority 0x1f0; d 0xf0 &&& 0xf0; p 4/125; v 1; o 1";
    let cases = [
        ("d::mask == ::priority", "A"),
        ("::priority == d::value", "A"),
        ("d::mask != -(-(::priority))", "V"),
        ("-::priority == 0x10", "V"),
        ("d::mask > -::priority", "A"),
        ("v == p::prefix_length", "A"),
        ("o == p::prefix_length", "A"),
        ("o::value == -::priority", "V"),
        ("o == -p::prefix_length", "V"),
    ];
    for (text, wanted) in cases {
        assert_eq!(judging_on(text, keys, entry), wanted, "{text}");
    }
}

#[test]
fn a_number_meeting_a_bare_key_is_the_match_of_one_value() {
    let keys = "d ternary 8\np lpm 8\nr range 16\no optional 4\nv exact 8";
    let one = "d 0x20; p 0xc0; r 0..0; o 5; v 0x20";
    let cases = [
        ("d == 0x20", "A"),
        ("d == - - 0x20", "A"),
        ("d == v", "A"),
        ("v == d", "A"),
        ("v != d", "V"),
        ("p == 0xc0", "A"),
        ("p == 0xc1", "V"),
        ("r == 0", "A"),
        ("r == 1", "V"),
        ("p == -64", "A"),
        ("o == 5", "A"),
        ("o == -8", "V"),
        ("-v == d", "V"),
        ("p != v", "A"),
    ];
    for (text, wanted) in cases {
        assert_eq!(judging_on(text, keys, one), wanted, "{text}");
    }
    let wide = "d 0x20 &&& 0xfe; p 0xc0/7; r 0..1; o *; v 0x20";
    for text in [
        "d == 0x20",
        "p == 0xc0",
        "r == 0",
        "r == 1",
        "o == 0",
        "d == v",
    ] {
        assert_eq!(judging_on(text, keys, wide), "V", "{text}");
    }
}

#[test]
fn matches_are_equal_in_all_fields() {
    let keys = "a ternary 8\nb ternary 8\nc lpm 8\nd lpm 8\ne range 8\nf range 8";
    let entry = "a 0 &&& 1; b 0 &&& 3; c 0x80/1; d 0x80/2; e 1..2; f 1..3";
    for text in ["a == b", "c == d", "e == f"] {
        assert_eq!(judging_on(text, keys, entry), "V", "{text}");
        let other = text.replace("==", "!=");
        assert_eq!(judging_on(&other, keys, entry), "A", "{other}");
    }
    let equal = "a 1 &&& 3; b 1 &&& 3; c 0x80/2; d 0x80/2; e 1..2; f 1..2";
    for text in ["a == b", "c == d", "e == f"] {
        assert_eq!(judging_on(text, keys, equal), "A", "{text}");
    }
}

#[test]
fn joins() {
    for (left, right) in [(false, false), (false, true), (true, false), (true, true)] {
        let wanted = |truth: bool| if truth { "A" } else { "V" };
        assert_eq!(judging(format!("{left} && {right}")), wanted(left && right));
        assert_eq!(judging(format!("{left} ; {right}")), wanted(left && right));
        assert_eq!(judging(format!("{left} || {right}")), wanted(left || right));
        assert_eq!(
            judging(format!("{left} -> {right}")),
            wanted(!left || right)
        );
        assert_eq!(judging(format!("{left} == {right}")), wanted(left == right));
        assert_eq!(judging(format!("{left} != {right}")), wanted(left != right));
    }
}

#[test]
fn orderings() {
    for (left, right) in [(1, 2), (2, 1), (2, 2), (0, 15), (15, 0)] {
        for (operator, truth) in [
            (">", left > right),
            (">=", left >= right),
            ("<", left < right),
            ("<=", left <= right),
            ("==", left == right),
            ("!=", left != right),
        ] {
            let wanted = if truth { "A" } else { "V" };
            let ints = format!("{left} {operator} {right}");
            assert_eq!(judging(&ints), wanted, "{ints}");
            let bits = format!("a {operator} b && a {operator} {right} && {left} {operator} b");
            let entry = format!("a {left}; b {right}");
            assert_eq!(
                judging_on(&bits, "a exact 4\nb exact 4", &entry),
                wanted,
                "{bits}"
            );
        }
    }
}
