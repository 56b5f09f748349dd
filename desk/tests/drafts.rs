//! The texts of Pact contracts: the tree that each part becomes, its print, and
//! refusal 21.

mod common;

use common::*;
use desk::reference::calls::LONGEST_TEXT;
use desk::reference::grammar::MOST_LEVELS;
use desk::reference::{pact, Answer};

const USERS: [u64; 4] = [10, 20, 30, 40];

const EQ: u8 = 0x00;
const GT: u8 = 0x04;
const GTE: u8 = 0x08;
const NOT: u8 = 0x40;
const INPUT: u8 = 0x20;
const AND: u8 = 0x80;
const OR: u8 = 0x84;
const XOR: u8 = 0x88;

fn draft(contract: &[u8]) -> String {
    drafting(contract, &USERS, &inputs(4))
}

fn all_drafts(cases: &[(&[u8], &str)]) {
    for (contract, wanted) in cases {
        assert_eq!(draft(contract), *wanted, "{contract:02x?}");
    }
}

fn draft_into(contract: &[u8], length: usize) -> String {
    short(pact(contract, &USERS, &inputs(4), &mut vec![0; length]))
}

/// 000's two examples.
#[test]
fn examples_of_document_000() {
    all_drafts(&[
        (
            &[0x00, 0x10, 0x04, 0x31, 0x48, 0x23],
            "i1 == 10 ; i3 > 20 ; !(i2 >= 40)",
        ),
        (
            &[0x04, 0x01, 0xc0, 0x00, 0x02, 0x84, 0x68, 0x13, 0x08, 0x03],
            "!(i0 > 20 && i0 == 30) || !(i1 >= i3) ; i0 >= 40",
        ),
    ]);
}

#[test]
fn an_empty_contract_gives_true() {
    assert_eq!(draft(&[]), "true");
    assert_eq!(drafting(&[], &[], &[]), "true");
    assert_eq!(draft_into(&[], 4), "drafted 4");
    assert_eq!(draft_into(&[], 3), "21 buffer 3");
    assert_eq!(draft_into(&[], 0), "21 buffer 0");
}

#[test]
fn comparators() {
    all_drafts(&[
        (&[EQ, 0x12], "i1 == 30"),
        (&[GT, 0x12], "i1 > 30"),
        (&[GTE, 0x12], "i1 >= 30"),
        (&[EQ | INPUT, 0x12], "i1 == i2"),
        (&[GT | INPUT, 0x12], "i1 > i2"),
        (&[GTE | INPUT, 0x12], "i1 >= i2"),
        (&[EQ | NOT, 0x12], "!(i1 == 30)"),
        (&[GT | NOT, 0x12], "!(i1 > 30)"),
        (&[GTE | NOT | INPUT, 0x12], "!(i1 >= i2)"),
        (&[EQ | INPUT, 0x00], "i0 == i0"),
    ]);
}

/// Joined from the left, whatever the operators, and NOT is over all that is joined.
#[test]
fn conjunctions_join_from_the_left() {
    let chain = |first: u8, second: u8| draft(&[EQ, 0x00, first, EQ, 0x11, second, EQ, 0x22]);
    let cases = [
        (AND, AND, "i0 == 10 && i1 == 20 && i2 == 30"),
        (OR, OR, "i0 == 10 || i1 == 20 || i2 == 30"),
        (AND, OR, "i0 == 10 && i1 == 20 || i2 == 30"),
        (OR, AND, "(i0 == 10 || i1 == 20) && i2 == 30"),
        (XOR, AND, "(i0 == 10) != (i1 == 20) && i2 == 30"),
        (AND, XOR, "(i0 == 10 && i1 == 20) != (i2 == 30)"),
        (XOR, XOR, "((i0 == 10) != (i1 == 20)) != (i2 == 30)"),
        (AND | NOT, AND, "!(i0 == 10 && i1 == 20) && i2 == 30"),
        (AND, OR | NOT, "!(i0 == 10 && i1 == 20 || i2 == 30)"),
        (XOR | NOT, XOR, "!((i0 == 10) != (i1 == 20)) != (i2 == 30)"),
        (OR | NOT, OR | NOT, "!(!(i0 == 10 || i1 == 20) || i2 == 30)"),
    ];
    for (first, second, wanted) in cases {
        assert_eq!(chain(first, second), wanted);
    }
}

#[test]
fn inverted_operands() {
    all_drafts(&[
        (
            &[EQ | NOT, 0x00, XOR, EQ, 0x11],
            "!(i0 == 10) != (i1 == 20)",
        ),
        (
            &[EQ, 0x00, XOR, EQ | NOT, 0x11],
            "(i0 == 10) != !(i1 == 20)",
        ),
        (
            &[EQ | NOT, 0x00, AND | NOT, EQ | NOT, 0x11],
            "!(!(i0 == 10) && !(i1 == 20))",
        ),
    ]);
}

/// A comparator directly after an assertion begins a clause, in which all starts anew.
#[test]
fn clauses_are_joined_by_semicolons() {
    all_drafts(&[
        (
            &[EQ, 0x00, OR, EQ, 0x11, EQ, 0x22, AND, EQ, 0x33],
            "i0 == 10 || i1 == 20 ; i2 == 30 && i3 == 40",
        ),
        (
            &[EQ, 0x00, EQ, 0x11, EQ, 0x22],
            "i0 == 10 ; i1 == 20 ; i2 == 30",
        ),
        (
            &[EQ, 0x00, OR | NOT, EQ, 0x11, EQ, 0x22],
            "!(i0 == 10 || i1 == 20) ; i2 == 30",
        ),
    ]);
}

/// Names that look like something else stay keys, and numbers are decimal.
#[test]
fn names_and_numbers_as_they_are() {
    let names = list_of("mac exact 64\nipv4 exact 64\ntrue.x exact 64\na.b_1 exact 64");
    let table = [0, u64::MAX, 1 << 63];
    let contract = [EQ, 0x01, XOR, GT | INPUT, 0x12, EQ, 0x22, GTE, 0x30];
    let wanted = "(mac == 18446744073709551615) != (ipv4 > true.x) ; \
                  true.x == 9223372036854775808 ; a.b_1 >= 0";
    assert_eq!(drafting(&contract, &table, &names), wanted);
    let longest = "n".repeat(64);
    let names = list_of(&format!("{longest} exact 64"));
    assert_eq!(
        drafting(&[EQ, 0x00], &[7], &names),
        format!("{longest} == 7")
    );
}

/// So many assertions, each linked to those before it by this conjunction.
fn linked(conjunction: u8, links: usize) -> Vec<u8> {
    let mut contract = vec![EQ, 0x00];
    for _ in 0..links {
        contract.extend([conjunction, EQ, 0x00]);
    }
    contract
}

/// An inverted link takes two levels, an exclusive or takes one.
#[test]
fn texts_of_64_levels_and_more() {
    let levels = |text: &str| {
        let mut open = 0;
        let mut most = 0;
        for byte in text.bytes() {
            match byte {
                b'(' => open += 1,
                b')' => open -= 1,
                _ => {}
            }
            most = most.max(open);
        }
        most
    };
    let nands = draft(&linked(AND | NOT, MOST_LEVELS / 2));
    assert_eq!(2 * levels(&nands), MOST_LEVELS);
    assert_eq!(reading(&nands), "read 163");
    assert_eq!(draft(&linked(AND | NOT, 33)), "21 buffer 4096");
    let xors = draft(&linked(XOR, MOST_LEVELS));
    assert_eq!(levels(&xors), MOST_LEVELS);
    assert_eq!(reading(&xors), "read 259");
    assert_eq!(draft(&linked(XOR, MOST_LEVELS + 1)), "21 buffer 4096");
    // An assertion under NOT as the innermost opens a level more.
    let mut inverted = linked(XOR, MOST_LEVELS);
    inverted[0] |= NOT;
    assert_eq!(draft(&inverted), "21 buffer 4096");
    inverted.truncate(inverted.len() - 3);
    assert!(reading(draft(&inverted)).starts_with("read "));
}

/// A clause of one assertion is three tokens, and each NOT over one adds three.
#[test]
fn texts_of_1024_tokens_and_more() {
    let row = |assertions: usize, inverted: usize| {
        let mut contract = [EQ, 0x00].repeat(assertions);
        for place in 0..inverted {
            contract[2 * place] |= NOT;
        }
        draft(&contract)
    };
    assert!(reading(row(256, 0)).starts_with("read "));
    assert_eq!(row(257, 0), "21 buffer 4096");
    // 254 clauses with three NOTs are exactly 1,024 tokens; 255 with two are one more.
    assert!(reading(row(254, 3)).starts_with("read "));
    assert_eq!(row(255, 2), "21 buffer 4096");
    assert!(reading(draft(&linked(AND, 255))).starts_with("read "));
    assert_eq!(draft(&linked(AND, 256)), "21 buffer 4096");
}

/// Clauses "n == 0" joined by " ; ", of which the last has the name i1.
fn of_bytes(name: usize, clauses: usize, last: usize) -> (Vec<u8>, Vec<u8>) {
    let names = ["a".repeat(name), "b".repeat(last)].map(|name| format!("{name} exact 64\n"));
    let contract = [[EQ, 0x00].repeat(clauses), vec![EQ, 0x10]].concat();
    (contract, list_of(&names.concat()))
}

#[test]
fn texts_of_4096_bytes_and_one_more() {
    // 56 clauses of 64 + 5 + 3 bytes, and the last of 59 + 5.
    let (contract, names) = of_bytes(64, 56, 59);
    assert_eq!(drafting(&contract, &[0], &names).len(), LONGEST_TEXT);
    let into = |length: usize| short(pact(&contract, &[0], &names, &mut vec![0; length]));
    assert_eq!(into(LONGEST_TEXT), "drafted 4096");
    assert_eq!(into(LONGEST_TEXT - 1), "21 buffer 4095");
    assert_eq!(into(9_000), "drafted 4096");
    let (contract, names) = of_bytes(64, 56, 60);
    let mut buffer = vec![0; 9_000];
    let answer = pact(&contract, &[0], &names, &mut buffer);
    assert_eq!(short(answer), "21 buffer 9000");
    assert_eq!(buffer, vec![0; 9_000]);
}

#[test]
fn buffers_of_the_texts_length_and_one_less() {
    for contract in [
        &[][..],
        &[EQ, 0x00],
        &[EQ | NOT, 0x00, XOR, GT | INPUT, 0x12],
    ] {
        let length = draft(contract).len();
        assert_eq!(draft_into(contract, length), format!("drafted {length}"));
        assert_eq!(
            draft_into(contract, length + 1),
            format!("drafted {length}")
        );
        let short_of_it = length - 1;
        let refused = format!("21 buffer {short_of_it}");
        assert_eq!(draft_into(contract, short_of_it), refused);
        assert_eq!(draft_into(contract, 0), "21 buffer 0");
    }
}

#[test]
fn later_bytes_stay_and_a_refusal_changes_none() {
    let mut buffer = *b"xxxxxxxxxx";
    let names = inputs(1);
    assert_eq!(
        pact(&[EQ, 0x00], &[7], &names, &mut buffer),
        Answer::Drafted(7)
    );
    assert_eq!(&buffer, b"i0 == 7xxx");
    assert_eq!(pact(&[], &[], &names, &mut buffer), Answer::Drafted(4));
    assert_eq!(&buffer, b"true= 7xxx");
    let faults: [(&[u8], &[u64], &[u8]); 5] = [
        (&[], &[], &[0; 3]),
        (&[], &[0; 17], &names),
        (&[EQ], &[7], &names),
        (&[EQ, 0x00], &[10_000], &names),
        (&linked(XOR, 65), &[7], &names),
    ];
    for (contract, table, names) in faults {
        let answer = pact(contract, table, names, &mut buffer);
        assert!(matches!(answer, Answer::Refused { .. }), "{contract:?}");
        assert_eq!(&buffer, b"true= 7xxx", "{contract:?}");
    }
}
