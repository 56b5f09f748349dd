//! The pass that copies a text without octal numerals: what becomes of them, what
//! stays, and refusals 1, 5, 6, 7 and 21.

mod common;

use common::*;
use desk::reference::calls::LONGEST_TEXT;
use desk::reference::tokens::MOST_TOKENS;
use desk::reference::{fix_octal, Answer};
use desk::requests::LONGEST_INPUT;

fn fix_into(text: &str, length: usize) -> String {
    short(fix_octal(text.as_bytes(), &mut vec![0; length]))
}

#[test]
fn octal_becomes_lower_case_hex_without_zeros() {
    let cases = [
        ("0o0", "0x0"),
        ("0O0", "0x0"),
        ("0o000", "0x0"),
        ("0o7", "0x7"),
        ("0O7", "0x7"),
        ("0o10", "0x8"),
        ("0O0017", "0xf"),
        ("0o20", "0x10"),
        ("0o377", "0xff"),
        ("0O025363", "0x2af3"),
        ("0o7 0O10;0o11", "0x7 0x8;0x9"),
        ("-0o1->0o2<(0o3)", "-0x1->0x2<(0x3)"),
    ];
    all(fixing, cases.to_vec());
}

#[test]
fn all_other_bytes_as_they_stood() {
    for text in [
        "",
        " \t\r\n",
        "007 0d10 0D0 0B01 0X0aF 0xAB",
        "o7 a0o7 _0o7 a.o7 k::o7",
        "  ( ( ( v ) )  \t; ; :: ",
        "true // remark, the text ends in it",
    ] {
        assert_eq!(fixing(text), text);
    }
    assert_eq!(
        fixing("\t0X0F == 0o17;;// 0o17\r\n 0O17"),
        "\t0X0F == 0xf;;// 0o17\r\n 0xf"
    );
}

#[test]
fn strings_and_remarks_stay() {
    let cases = [
        ("'0o17'", "'0o17'"),
        ("'0o17'0o17'0o17'", "'0o17'0xf'0o17'"),
        ("ipv4('0o17') == 0o17", "ipv4('0o17') == 0xf"),
        ("'// 0o17' 0o17", "'// 0o17' 0xf"),
        ("// 0o17", "// 0o17"),
        ("0o17//0o17\n0o17", "0xf//0o17\n0xf"),
        // A remark ends at LF, not at CR, and a quote in it opens no string.
        ("//\r0o17\n0o17", "//\r0o17\n0xf"),
        ("// '\n0o17 // '", "// '\n0xf // '"),
    ];
    all(fixing, cases.to_vec());
}

/// Neither the grammar is asked nor the types.
#[test]
fn no_grammar_is_asked() {
    let cases = [
        (")) 0o7 ((", ")) 0x7 (("),
        ("true true 0o7", "true true 0x7"),
        ("k::0o7", "k::0x7"),
        ("!0o1 && ipv4('bad')", "!0x1 && ipv4('bad')"),
    ];
    all(fixing, cases.to_vec());
    // One level more than may be open.
    let text = row_ending_in("0o7", 66);
    assert_eq!(reading(text.replace("0o", "0x")), "9@64");
    assert_eq!(fixing(&text), text.replace("0o", "0x"));
}

#[test]
fn an_empty_text_gives_length_0() {
    assert_eq!(fix_into("", 0), "fixed 0");
    assert_eq!(fix_into("", 1), "fixed 0");
}

#[test]
fn bytes_that_form_no_token() {
    for run in NO_OCTAL_RUNS {
        assert_eq!(fixing(format!("0o7 {run}")), "5@4", "{run}");
    }
    let too_large_but_for_a_byte = format!("{}8", octal_too_large());
    assert_eq!(fixing(too_large_but_for_a_byte), "5@0");
    let cases = [
        ("0o7 @", "5@4"),
        ("0o7.a", "5@3"),
        ("a.0o7", "5@1"),
        ("'0o7", "5@0"),
        ("0o7 '0o7\n'", "5@4"),
    ];
    all(fixing, cases.to_vec());
}

/// Refusal 6 by the old rules: an octal numeral is held to the limit as others are.
#[test]
fn octal_on_both_sides_of_two_to_the_128() {
    let fixed = format!("0x{}", "f".repeat(32));
    assert_eq!(fixing(largest_octal()), fixed);
    assert_eq!(fixing(largest_octal().replace("0o", "0O000")), fixed);
    let nines = "9".repeat(40);
    for large in [octal_too_large(), "0o".to_string() + &"7".repeat(43), nines] {
        assert_eq!(fixing(&large), "6@0", "{large}");
        assert_eq!(fixing(format!("0o7 {large} @")), "6@4", "{large}");
    }
}

/// By the old rules an octal numeral counts as any other: 5, then 6, then 7.
#[test]
fn octal_as_token_1024_and_1025() {
    let fixed = row_ending_in("0x7", MOST_TOKENS);
    assert_eq!(fixing(row_ending_in("0o7", MOST_TOKENS)), fixed);
    let over = MOST_TOKENS + 1;
    assert_eq!(fixing(row_ending_in("0o7", over)), "7@1024");
    assert_eq!(fixing(row_ending_in(&largest_octal(), over)), "7@1024");
    assert_eq!(fixing(row_ending_in(&octal_too_large(), over)), "6@1024");
    assert_eq!(fixing(row_ending_in("0o8", over)), "5@1024");
    let too_large = row_ending_in(&octal_too_large(), MOST_TOKENS);
    assert_eq!(fixing(too_large), "6@1023");
}

#[test]
fn texts_of_4096_and_4097_bytes() {
    let longest = format!("{:4096}", "0o7");
    assert_eq!(fixing(&longest), longest.replace("0o", "0x"));
    assert_eq!(fix_into(&longest, 4095), "21 buffer 4095");
    assert_eq!(fixing(format!("{longest} ")), "1@4096");
    // Zeros that fill the text leave little of it.
    let zeros = |length: usize| format!("0o{}7", "0".repeat(length - 3));
    assert_eq!(fix_into(&zeros(LONGEST_TEXT), 3), "fixed 3");
    assert_eq!(fix_into(&zeros(LONGEST_TEXT + 1), 3), "1@4096");
}

/// Refusal 21 lies at the buffer's length, and it is the result that must fit.
#[test]
fn buffers_of_the_results_length_and_one_less() {
    for text in ["0o7", "0o10", "0O0017;true", "true", &largest_octal()] {
        let length = fixing(text).len();
        assert_eq!(fix_into(text, length), format!("fixed {length}"));
        assert_eq!(fix_into(text, length + 1), format!("fixed {length}"));
        assert_eq!(fix_into(text, LONGEST_INPUT), format!("fixed {length}"));
        let short_of_it = length - 1;
        let refused = format!("21 buffer {short_of_it}");
        assert_eq!(fix_into(text, short_of_it), refused);
        assert_eq!(fix_into(text, 0), "21 buffer 0");
    }
}

/// Refusals of the whole text come before the buffer's.
#[test]
fn buffer_comes_last() {
    let large = octal_too_large();
    let many = row_ending_in("0o7", MOST_TOKENS + 1);
    let long = format!("{:4097}", "0o7");
    let cases = [
        ("0o7 true true @", "5@14"),
        (&large, "6@0"),
        (&many, "7@1024"),
        (&long, "1@4096"),
    ];
    for (text, wanted) in cases {
        assert_eq!(fix_into(text, 0), wanted, "{text}");
    }
}

#[test]
fn later_bytes_stay_and_a_refusal_changes_none() {
    let mut buffer = *b"xxxxxxxx";
    assert_eq!(fix_octal(b"0o10;0o1", &mut buffer), Answer::Fixed(7));
    assert_eq!(&buffer, b"0x8;0x1x");
    assert_eq!(fix_octal(b"", &mut buffer), Answer::Fixed(0));
    assert_eq!(&buffer, b"0x8;0x1x");
    let large = octal_too_large();
    for text in ["0o2 @", "0o2 0o2 0o2", &large] {
        let answer = fix_octal(text.as_bytes(), &mut buffer);
        assert!(matches!(answer, Answer::Refused { .. }), "{text}");
        assert_eq!(&buffer, b"0x8;0x1x", "{text}");
    }
}
