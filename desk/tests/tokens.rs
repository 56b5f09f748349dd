//! Blanks, words, numerals, strings and symbols: refusals 5, 6 and 7.

mod common;

use common::*;

#[test]
fn whole_text_is_cut_before_the_grammar_is_asked() {
    all(reading, vec![("true true @", "5@10"), (") ( $", "5@4")]);
}

#[test]
fn dots() {
    let cases = [
        ("a.", "5@1"),
        ("a..b", "5@1"),
        ("a.1", "5@1"),
        ("a.b.", "5@3"),
        ("1.a", "5@1"),
        (".a", "5@0"),
        ("a .b", "5@2"),
        ("a. b", "5@1"),
        ("'x'.a", "5@3"),
        ("a.b.c", "read 1"),
    ];
    all(reading, cases.to_vec());
}

#[test]
fn digit_runs_are_one_numeral_or_none() {
    let no_numeral = [
        "12ab", "1_000", "8w255", "0x", "0d", "0b2", "0o8", "0xg", "0b", "0o", "0D",
    ];
    for run in no_numeral {
        assert_eq!(reading(run), "5@0", "{run}");
        assert_eq!(reading(format!("1 == {run}")), "5@5", "{run}");
    }
    // Too long, but no numeral either.
    assert_eq!(reading(format!("0x{}g", "f".repeat(40))), "5@0");
}

#[test]
fn numerals() {
    let cases = [
        ("0d12 == 12", "A"),
        ("0D12 == 12", "A"),
        ("007 == 7", "A"),
        ("0b101 == 0B0101", "A"),
        ("0o17 == 15 && 0O17 == 15", "22@0"),
        ("0xfF == 255 && 0XFf == 255", "A"),
        ("0 == 00", "A"),
    ];
    all(judging, cases.to_vec());
}

#[test]
fn numerals_of_two_to_the_128() {
    let fits = [
        "340282366920938463463374607431768211455".to_string(),
        format!("0x{}", "f".repeat(32)),
        format!("0b{}", "1".repeat(128)),
        format!(
            "0d{}340282366920938463463374607431768211455",
            "0".repeat(500)
        ),
        format!("0x{}{}", "0".repeat(500), "F".repeat(32)),
    ];
    for numeral in fits {
        assert_eq!(reading(&numeral), "read 1", "{numeral}");
    }
    let too_large = [
        "340282366920938463463374607431768211456".to_string(),
        "999999999999999999999999999999999999999".to_string(),
        format!("0x1{}", "0".repeat(32)),
        format!("0b1{}", "0".repeat(128)),
        "9".repeat(4000),
    ];
    for numeral in too_large {
        assert_eq!(reading(&numeral), "6@0", "{numeral}");
        assert_eq!(reading(format!(" -{}", &numeral)), "6@2", "{numeral}");
    }
}

#[test]
fn strings() {
    let cases: Vec<(&[u8], &str)> = vec![
        (b"'", "5@0"),
        (b"ipv4('1.2.3.4", "5@5"),
        (b"ipv4('1.2\n.3.4')", "5@5"),
        (b"ipv4('')", "10@5"),
        (b"ipv4(\"1.2.3.4\")", "5@5"),
        (b"`", "5@0"),
        // A string may hold CR, NUL, bytes above 127, and what looks like a
        // remark; there are no escapes.
        (b"ipv4('\r\0\xff//')", "10@5"),
        (b"ipv4('\\')", "10@5"),
        (b"'a'", "8@0"),
    ];
    all(reading, cases);
}

#[test]
fn blanks_and_remarks() {
    let cases: Vec<(&[u8], &str)> = vec![
        (b" \t\r\ntrue \t\r\n", "read 1"),
        (b"true // rest", "read 1"),
        (b"// first\ntrue", "read 1"),
        (b"true //\r && ( \" ' \xff \0", "read 1"),
        (b"true // a\n && true", "read 3"),
        (b"true //// a\r\n;", "read 1"),
        (b"\x0btrue", "5@0"),
        (b"true\x0c", "5@4"),
        (b"true\0", "5@4"),
        (b"\xef\xbb\xbftrue", "5@0"),
        (b"true\xc2\xa0", "5@4"),
        (b"true / true", "5@5"),
        (b"true /* x */", "5@5"),
        (b"true /", "5@5"),
    ];
    all(reading, cases);
}

#[test]
fn longest_from_the_left() {
    let cases = [
        ("-->", "8@1"),
        ("true !== true", "5@7"),
        ("true === true", "5@7"),
        (":::", "5@2"),
        ("true &&& true", "5@7"),
        ("true => true", "5@5"),
        ("v <-1", "read 4"),
        ("a- >b", "8@1"),
        ("a->b", "read 3"),
        ("--2", "read 3"),
        ("true & true", "5@5"),
        ("true | true", "5@5"),
        ("1 = 1", "5@2"),
        ("v : value", "5@2"),
        ("1<=2", "read 3"),
        ("1< =2", "5@3"),
        ("v@", "5@1"),
    ];
    all(reading, cases.to_vec());
}

#[test]
fn blanks_may_stand_between_any_two_tokens() {
    all(
        judging,
        vec![
            ("v :: value == 1", "A"),
            (":: priority == 10", "A"),
            ("ipv4 // c\n ( '0.0.0.1' ) == 1", "A"),
        ],
    );
}

#[test]
fn words_that_only_look_like_others() {
    all(
        reading,
        vec![
            ("true.x", "read 1"),
            ("ipv4.valid", "read 1"),
            ("mac.a", "read 1"),
            ("True", "read 1"),
        ],
    );
    let keys = "true.x exact 1\nipv4.valid exact 1\nTrue exact 1\nFALSE exact 1";
    let text = "true.x == 1 && ipv4.valid == 1 && True == 1 && FALSE == 1";
    assert_eq!(checking_on(text, keys), "passed");
    assert_eq!(checking("True"), "11@0");
}

/// So many tokens: "true", then joins.
fn tokens(count: usize) -> String {
    let mut text = "true".to_string();
    text.push_str(&"&&true".repeat((count - 1) / 2));
    if count.is_multiple_of(2) {
        text.push(';');
    }
    text
}

#[test]
fn tokens_1024_and_1025() {
    assert_eq!(reading(tokens(1023)), "read 1023");
    assert_eq!(reading(tokens(1024)), "read 1023");
    assert_eq!(reading(tokens(1025)), format!("7@{}", 4 + 511 * 6 + 2));
    assert_eq!(reading("!".repeat(1025)), "7@1024");
}

#[test]
fn five_and_six_win_over_seven_at_one_place() {
    let full = "! ".repeat(1024);
    let place = full.len();
    assert_eq!(reading(format!("{full}!")), format!("7@{place}"));
    assert_eq!(reading(format!("{full}@")), format!("5@{place}"));
    assert_eq!(reading(format!("{full}0x")), format!("5@{place}"));
    let large = "9".repeat(40);
    assert_eq!(reading(format!("{full}{large}")), format!("6@{place}"));
    // Later places do not matter.
    assert_eq!(reading(format!("{full}! @")), format!("7@{place}"));
    // Blanks after the last token are no token.
    assert_eq!(reading(format!("{full} // x")), "9@128");
}

#[test]
fn text_of_4096_and_4097_bytes() {
    let mut text = "true".to_string();
    text.push_str(&" ".repeat(4092));
    assert_eq!(reading(&text), "read 1");
    text.push(' ');
    assert_eq!(reading(&text), "1@4096");
    text.push_str("  @");
    assert_eq!(reading(&text), "1@4096");
}
