//! Octal numerals are refused with 22.

mod common;

use common::*;
use desk::reference::tokens::MOST_TOKENS;
use desk::reference::{explain, recheck, summarize, translate, Answer};

#[test]
fn an_octal_numeral_is_22_at_its_first_byte() {
    let cases = [
        ("0o0", "22@0"),
        ("0O0", "22@0"),
        ("0o7", "22@0"),
        ("0O0017", "22@0"),
        (" // remark\n 0o10", "22@12"),
        ("v == 0o1", "22@5"),
        ("-0o1 == v", "22@1"),
        ("0o7 0o7", "22@0"),
        // Whatever stands before it: no grammar is asked yet.
        ("true true 0o7", "22@10"),
        (")) 0o7 ((", "22@3"),
        ("k::0o7", "22@3"),
    ];
    all(reading, cases.to_vec());
    all(judging, cases.to_vec());
    all(printing, cases.to_vec());
}

#[test]
fn every_call_that_reads_a_text_gives_22() {
    let text = b"v == 0o1";
    assert_eq!(reading(text), "22@5");
    assert_eq!(checking(text), "22@5");
    assert_eq!(judging(text), "22@5");
    assert_eq!(short(translate(text, &list(), &mut [])), "22@5");
    assert_eq!(printing(text), "22@5");
    assert_eq!(
        short_explanation(explain(text, &list(), &entry())),
        "nothing 22@5"
    );
    assert_eq!(short(summarize(text, &list())), "22@5");
    let again = recheck(text, &list(), &entry(), Answer::Accepted, &entry());
    assert_eq!(short_recheck(again), "judged 22@5");
}

/// Whatever its size: never 6.
#[test]
fn octal_on_both_sides_of_two_to_the_128() {
    let longer = format!("0O{}", "7".repeat(4000));
    let zeros = format!("0o{}1", "0".repeat(4000));
    for numeral in [largest_octal(), octal_too_large(), longer, zeros] {
        assert_eq!(reading(&numeral), "22@0", "{numeral}");
        assert_eq!(reading(format!("- {numeral}")), "22@2", "{numeral}");
    }
}

/// The whole run is an octal numeral, or it is none.
#[test]
fn ill_formed_octal_stays_5() {
    for run in NO_OCTAL_RUNS {
        assert_eq!(reading(run), "5@0", "{run}");
        assert_eq!(reading(format!("1 == {run}")), "5@5", "{run}");
    }
    // However large it is.
    assert_eq!(reading(format!("{}8", octal_too_large())), "5@0");
    // A blank, a sign or a dot ends the run.
    let cases = [("0o 7", "5@0"), ("0o-7", "5@0"), ("0o7.a", "22@0")];
    all(reading, cases.to_vec());
}

#[test]
fn words_strings_and_remarks_hold_no_octal() {
    let cases = [
        ("o7", "read 1"),
        ("a0o7", "read 1"),
        ("_0o7", "read 1"),
        ("a.o7", "read 1"),
        ("true // 0o7", "read 1"),
        ("// 0o7\ntrue", "read 1"),
        ("ipv4('0o7')", "10@5"),
        ("'0o7'", "8@0"),
        // The remark, or the string, ends before it.
        ("// a\n0o7", "22@5"),
        ("'a'0o7", "22@3"),
        ("'// ' 0o7", "22@6"),
    ];
    all(reading, cases.to_vec());
}

#[test]
fn the_earliest_place_wins() {
    let nines = "9".repeat(40);
    let cases = [
        ("0o7 @".to_string(), "22@0"),
        ("@ 0o7".to_string(), "5@0"),
        ("0o7 0o8".to_string(), "22@0"),
        ("0o8 0o7".to_string(), "5@0"),
        (format!("0o7 {nines}"), "22@0"),
        (format!("{nines} 0o7"), "6@0"),
    ];
    all(reading, cases.to_vec());
}

/// At one place the lower number wins: 5, then 7, then 22.
#[test]
fn octal_as_token_1024_and_1025() {
    for octal in ["0o7", &largest_octal(), &octal_too_large()] {
        assert_eq!(reading(row_ending_in(octal, MOST_TOKENS)), "22@1023");
        assert_eq!(reading(row_ending_in(octal, MOST_TOKENS + 1)), "7@1024");
    }
    assert_eq!(reading(row_ending_in("0o8", MOST_TOKENS)), "5@1023");
    assert_eq!(reading(row_ending_in("0o8", MOST_TOKENS + 1)), "5@1024");
    // An earlier octal numeral is at an earlier place than the token too many.
    let text = format!("0o7{}", row_ending_in("0o7", MOST_TOKENS));
    assert_eq!(reading(text), "22@0");
}
