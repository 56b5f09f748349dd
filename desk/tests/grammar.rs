//! The ladder, levels and addresses: refusals 8, 9 and 10.

mod common;

use common::*;

#[test]
fn text_ends_too_soon() {
    let cases = [
        ("", "8@0"),
        ("  \n ", "8@4"),
        ("//", "8@2"),
        ("true && // x", "8@12"),
        ("(true", "8@5"),
        ("v::", "8@3"),
        ("::", "8@2"),
        ("!", "8@1"),
        ("ipv4(", "8@5"),
        ("ipv4('1.2.3.4'", "8@14"),
        ("1 ==", "8@4"),
    ];
    all(reading, cases.to_vec());
}

/// The token limit plays no part in what could continue a sentence.
#[test]
fn a_last_opening_token_ends_too_soon() {
    let text = format!("{}(", "true&&".repeat(511));
    assert_eq!(reading(&text), format!("8@{}", text.len()));
}

#[test]
fn names_after_colons() {
    let cases = [
        ("(k)::a", "8@3"),
        ("true::a", "8@4"),
        ("1::a", "8@1"),
        ("k::a::b", "8@4"),
        ("k::a.b", "8@3"),
        ("::a.b", "8@2"),
        ("k::1", "8@3"),
        ("k::true", "read 1"),
        ("k::ipv4", "read 1"),
        ("::mac", "read 1"),
        ("k.a.b::c", "read 1"),
        ("k::ipv4('1.2.3.4')", "8@7"),
        ("ipv4::value", "read 1"),
    ];
    all(reading, cases.to_vec());
    all(checking, vec![("v::true", "12@3"), ("::mac", "12@2")]);
}

#[test]
fn address_words() {
    let cases = [
        ("ipv4 (1)", "8@6"),
        ("ipv4", "read 1"),
        ("ipv6 == 1", "read 3"),
        ("mac", "read 1"),
        ("ipv4.valid('1.2.3.4')", "8@10"),
        ("foo('x')", "8@3"),
        ("v == 'x'", "8@5"),
        ("ipv4()", "8@5"),
        ("ipv4('1.2.3.4' '1.2.3.4')", "8@15"),
        ("ipv4(('1.2.3.4'))", "8@5"),
    ];
    all(reading, cases.to_vec());
    // Even where the list has such a key.
    let keys = "ipv4 exact 32";
    assert_eq!(checking_on("ipv4 == ipv4('1.2.3.4')", keys), "passed");
    assert_eq!(checking_on("ipv4 (1) == 1", keys), "8@6");
}

#[test]
fn semicolons() {
    let cases = [
        ("(true;)", "8@6"),
        ("true;;", "8@5"),
        (";", "8@0"),
        ("; true", "8@0"),
        ("true; // end", "read 1"),
        ("true;true;", "read 3"),
        ("(true;true)", "read 3"),
    ];
    all(reading, cases.to_vec());
}

#[test]
fn operators_that_do_not_chain() {
    let cases = [
        ("1 < 2 < 3", "8@6"),
        ("v == 1 == 1", "8@7"),
        ("true -> false -> true", "8@14"),
        ("(true -> false) -> true", "read 5"),
        ("true -> (false -> true)", "read 5"),
        ("true -> false; true -> false", "read 7"),
        ("(1 < 2) == (2 < 3)", "read 7"),
    ];
    all(reading, cases.to_vec());
}

#[test]
fn what_binds_tighter() {
    let cases = [
        ("true || false && false", "A"),
        ("false && false || true", "A"),
        ("true -> false || true", "A"),
        ("false -> false; false", "V"),
        ("false -> false && false", "A"),
        ("!false == true", "A"),
        ("!(1 == 2)", "A"),
        ("-1 < 0", "A"),
        ("true || true -> false", "V"),
        ("false; true || true", "V"),
    ];
    all(judging, cases.to_vec());
}

#[test]
fn parentheses_make_no_node() {
    let cases = [
        ("((true))", "read 1"),
        ("((v)) == (1)", "read 3"),
        ("v::value == 1", "read 3"),
        ("::priority == 1", "read 3"),
        ("ipv4('1.2.3.4') == 1", "read 3"),
        ("!!true", "read 3"),
        ("a && b || !c -> d; e", "read 10"),
    ];
    all(reading, cases.to_vec());
}

#[test]
fn levels_64_and_65() {
    for opening in ["!", "(", "-"] {
        let open = opening.repeat(64);
        let close = if opening == "(" {
            ")".repeat(64)
        } else {
            String::new()
        };
        let nodes = if opening == "(" { 1 } else { 65 };
        assert_eq!(reading(format!("{open}1{close}")), format!("read {nodes}"));
        assert_eq!(reading(format!("{open}{opening}1{close})")), "9@64");
        // The end, or another 8, comes after.
        assert_eq!(reading(format!("{open}{opening}")), "9@64");
        assert_eq!(reading(&open), "8@64");
        assert_eq!(reading(format!("{open};")), "8@64");
    }
}

#[test]
fn levels_close_again() {
    let deep = format!("{}true", "!".repeat(64));
    assert_eq!(reading(format!("{deep} == {deep}")), "read 131");
    let nested = format!("{}true{}", "(".repeat(64), ")".repeat(64));
    assert_eq!(reading(format!("{nested} && {nested}")), "read 3");
    // A prefix operator's level closes after its operand.
    assert_eq!(
        reading(format!("{}!a == !b{}", "(".repeat(63), ")".repeat(63))),
        "read 5"
    );
    assert_eq!(reading(format!("{}!a == !b", "(".repeat(64))), "9@64");
    // An address's parenthesis opens none.
    let address = format!("{}ipv4('1.2.3.4')", "-".repeat(64));
    assert_eq!(reading(address), "read 65");
}

#[test]
fn order_of_the_stage_is_by_place() {
    assert_eq!(reading(format!("true true {}", "(".repeat(70))), "8@5");
    assert_eq!(reading(format!("{}ipv4('bad')", "(".repeat(65))), "9@64");
    assert_eq!(
        reading(format!("ipv4('bad') == {}", "(".repeat(65))),
        "10@5"
    );
}

#[test]
fn bad_string_of_an_address_that_is_not_closed() {
    let cases = [
        ("ipv4('bad'", "10@5"),
        ("ipv4('bad' 5", "10@5"),
        ("ipv4('1.2.3.4' 5", "8@15"),
    ];
    all(reading, cases.to_vec());
}

fn address(word: &str, contents: &str) -> String {
    reading(format!("{word}('{contents}')"))
}

#[test]
fn ipv4_strings() {
    for good in ["0.0.0.0", "1.2.3.4", "255.255.255.255", "10.0.200.99"] {
        assert_eq!(address("ipv4", good), "read 1", "{good}");
    }
    let bad = [
        "",
        "1",
        "1.2.3",
        "1.2.3.4.5",
        "1.2.3.",
        ".1.2.3",
        "1..2.3",
        "00.0.0.0",
        "01.2.3.4",
        "1.2.3.256",
        "1.2.3.1000",
        " 1.2.3.4",
        "1.2.3.4 ",
        "1.2.3.-4",
        "1.2.3.0x4",
        "a.b.c.d",
        "+1.2.3.4",
        "::",
    ];
    for bad in bad {
        assert_eq!(address("ipv4", bad), "10@5", "{bad}");
    }
}

#[test]
fn ipv6_strings() {
    let good = [
        "::",
        "::1",
        "1::",
        "1:2:3:4:5:6:7:8",
        "1:2:3:4:5:6:7::",
        "::2:3:4:5:6:7:8",
        "1:2:3::5:6:7:8",
        "ABCD:ef01::0001",
        "0:0:0:0:0:0:0:0",
    ];
    for good in good {
        assert_eq!(address("ipv6", good), "read 1", "{good}");
    }
    let bad = [
        "",
        ":",
        ":::",
        "1",
        "1:2:3:4:5:6:7",
        "1:2:3:4:5:6:7:8:9",
        "1:2:3:4:5:6:7:8::",
        "::1:2:3:4:5:6:7:8",
        "1::2::3",
        "12345::",
        "00001::",
        "g::",
        ":1::",
        "::1:",
        "1:::2",
        "::1.2.3.4",
        "::1%eth0",
        "::/64",
        " ::",
        "1: :2",
        "1:2:3:4:5:6:7:",
        ":2:3:4:5:6:7:8",
    ];
    for bad in bad {
        assert_eq!(address("ipv6", bad), "10@5", "{bad}");
    }
}

#[test]
fn mac_strings() {
    for good in ["00:00:00:00:00:00", "0a:1B:2c:3D:4e:5F"] {
        assert_eq!(address("mac", good), "read 1", "{good}");
    }
    let bad = [
        "",
        "0:00:00:00:00:00",
        "000:00:00:00:00:00",
        "00-00-00-00-00-00",
        "000000000000",
        "00:00:00:00:00",
        "00:00:00:00:00:00:00",
        "0g:00:00:00:00:00",
        "00:00:00:00:00:0",
        " 00:00:00:00:00:00",
        "::",
        "00:00:00:00:00:",
    ];
    for bad in bad {
        assert_eq!(address("mac", bad), "10@4", "{bad}");
    }
}

#[test]
fn numbers_of_addresses() {
    let cases = [
        ("ipv4('1.2.3.4') == 0x01020304", "A"),
        ("ipv4('255.255.255.255') == 0xffffffff", "A"),
        ("mac('0a:1B:2c:3D:4e:5F') == 0x0a1b2c3d4e5f", "A"),
        ("ipv6('::') == 0", "A"),
        ("ipv6('::1') == 1", "A"),
        ("ipv6('1::') == 0x00010000000000000000000000000000", "A"),
        (
            "ipv6('1:2:3:4:5:6:7:8') == 0x00010002000300040005000600070008",
            "A",
        ),
        (
            "ipv6('1:2::7:8') == 0x00010002000000000000000000070008",
            "A",
        ),
        (
            "ipv6('1:2:3:4:5:6:7::') == 0x00010002000300040005000600070000",
            "A",
        ),
        (
            "ipv6('::2:3:4:5:6:7:8') == 0x00000002000300040005000600070008",
            "A",
        ),
        ("-ipv4('0.0.0.1') == -1", "A"),
    ];
    all(judging, cases.to_vec());
}
