//! Prints in house style: their form, refusal 21, and what is true of each.

mod common;

use std::collections::HashSet;

use common::*;
use desk::reference::calls::{text_tree, LONGEST_TEXT};
use desk::reference::numbers::{Base, Literal};
use desk::reference::printing::print_of;
use desk::reference::tokens::tokens;
use desk::reference::tree::{Comparison, Join, Node, What};
use desk::reference::{print, Answer};
use desk::requests::{Call, LONGEST_INPUT};

/// The largest number, and the one above it.
const LARGEST: &str = "340282366920938463463374607431768211455";
const TOO_LARGE: &str = "340282366920938463463374607431768211456";

#[test]
fn one_blank_on_each_side_of_a_binary_operator() {
    let cases = [
        ("a;b", "a ; b"),
        ("a->b", "a -> b"),
        ("a||b", "a || b"),
        ("a&&b", "a && b"),
        ("a==b", "a == b"),
        ("a!=b", "a != b"),
        ("a>b", "a > b"),
        ("a>=b", "a >= b"),
        ("a<b", "a < b"),
        ("a<=b", "a <= b"),
        ("  a\t&&\r\n b // remark", "a && b"),
        ("// remark\n a", "a"),
        ("a;b&&c", "a ; b && c"),
        ("a&&b;c", "a && b ; c"),
    ];
    all(printing, cases.to_vec());
}

#[test]
fn no_blank_elsewhere() {
    let cases = [
        ("- -2", "--2"),
        ("-(-2)", "--2"),
        ("! - ! x", "!-!x"),
        ("1 < - 1", "1 < -1"),
        ("( a ; b ) -> c", "(a ; b) -> c"),
        ("k :: value", "k::value"),
        (":: priority", "::priority"),
        ("k // remark\n::value == 1", "k::value == 1"),
    ];
    all(printing, cases.to_vec());
}

#[test]
fn no_trailing_semicolon() {
    let cases = [("a;", "a"), ("a;b; // end", "a ; b"), ("(a);", "a")];
    all(printing, cases.to_vec());
}

#[test]
fn parentheses_that_the_grammar_needs() {
    for text in [
        "a ; (b ; c)",
        "(a -> b) -> c",
        "a -> (b -> c)",
        "(a ; b) -> c",
        "a -> (b ; c)",
        "(a -> b) || c",
        "a || (b -> c)",
        "a || (b || c)",
        "(a || b) && c",
        "a && (b && c)",
        "a && (b ; c)",
        "(a == b) == c",
        "a == (b == c)",
        "a == (b && c)",
        "!(a == b)",
        "-(a || b)",
        "!(a ; b)",
    ] {
        assert_eq!(printing(text), text);
    }
}

#[test]
fn no_other_parentheses() {
    let cases = [
        ("((a))", "a"),
        ("(a;b);c", "a ; b ; c"),
        ("(a->b);(c->d)", "a -> b ; c -> d"),
        ("(a||b)->(c||d)", "a || b -> c || d"),
        ("(a||b)||c", "a || b || c"),
        ("(a&&b)||(c&&d)", "a && b || c && d"),
        ("(a&&b)&&c", "a && b && c"),
        ("(a==b)&&(c==d)", "a == b && c == d"),
        ("(!a)==(-b)", "!a == -b"),
        ("!(a)", "!a"),
        ("!(!(a))", "!!a"),
        ("((v)::value)", "8@4"),
        ("(v::value)", "v::value"),
    ];
    all(printing, cases.to_vec());
}

#[test]
fn numerals_in_their_base() {
    let cases = [
        ("0", "0"),
        ("000", "0"),
        ("0b0", "0b0"),
        ("0o0", "22@0"),
        ("0x0", "0x0"),
        ("007", "7"),
        ("010", "10"),
        ("0d10", "10"),
        ("0D9", "9"),
        ("0x1F", "0x1f"),
        ("0Xa0", "0xa0"),
        ("0xF0f0f0f0", "0xf0f0f0f0"),
        ("0X0010", "0x10"),
        ("0b101", "0b101"),
        ("0B00", "0b0"),
        ("0o17", "22@0"),
        ("0O010", "22@0"),
        ("-0", "-0"),
        (LARGEST, LARGEST),
        (TOO_LARGE, "6@0"),
    ];
    all(printing, cases.to_vec());
}

/// The largest number in each base, in one case of letters and in the other,
/// with zeros before it and without.
#[test]
fn the_largest_number_in_each_base() {
    let number = u128::MAX;
    let hex = format!("0x{number:x}");
    let binary = format!("0b{number:b}");
    assert_eq!([hex.len(), binary.len()], [34, 130]);
    for print in [hex, binary] {
        let (prefix, digits) = print.split_at(2);
        assert_eq!(printing(&print), print);
        assert_eq!(printing(print.to_uppercase()), print);
        assert_eq!(printing(format!("{prefix}00{digits}")), print);
    }
}

#[test]
fn a_base_tells_trees_apart() {
    let ones = ["1", "0b1", "0x1"];
    for one in ones {
        for other in ones {
            let same = bare_tree(one.as_bytes()) == bare_tree(other.as_bytes());
            assert_eq!(same, one == other, "{one} {other}");
            assert_eq!(printing(one) == printing(other), one == other);
        }
        assert_eq!(judging(format!("{one} == 1")), "A");
    }
}

/// An address is the decimal numeral of its number, in tree and print.
#[test]
fn addresses_in_decimal() {
    let cases = [
        ("ipv4('0.0.0.1')", "1"),
        ("ipv4('0.0.0.16')", "16"),
        ("ipv4 ( '1.2.3.4' )", "16909060"),
        ("mac('00:00:00:00:01:00')", "256"),
        ("ipv6('::')", "0"),
        ("ipv6('f::')", "77884452878022414427957444938301440"),
        ("-ipv4('0.0.0.1')==v", "-1 == v"),
        ("ipv6('ffff:ffff:ffff:ffff:ffff:ffff:ffff:ffff')", LARGEST),
    ];
    all(printing, cases.to_vec());
    assert_eq!(bare_tree(b"ipv4('0.0.0.1')"), bare_tree(b"0d01"));
    assert_ne!(bare_tree(b"ipv4('0.0.0.1')"), bare_tree(b"0x1"));
}

/// Known or unknown, long or short: no key list is asked.
#[test]
fn words_as_they_are_written() {
    let long = "k".repeat(65);
    for text in [
        "true",
        "false",
        "True",
        "a.b.c",
        "true.x",
        "ipv4",
        "a.b::c",
        "k::true",
        "ipv6::mac",
        "::true",
        "::nosuch",
        "_9",
        &long,
    ] {
        assert_eq!(printing(text), text);
    }
}

/// What document 01's key list refuses is printed all the same.
#[test]
fn types_play_no_part() {
    for text in ["d > 3", "!1", "-true", "1 && zz::foo", "true < false"] {
        assert_ne!(checking(text), "passed");
        assert_eq!(printing(text), text);
    }
}

/// A text of n − 2 bytes whose print has n.
fn text_printed_in(length: usize) -> String {
    format!("a&&{}", "k".repeat(length - "a && ".len()))
}

fn print_into(text: &str, length: usize) -> String {
    short(print(text.as_bytes(), &mut vec![0; length]))
}

/// Refusal 21 lies at the buffer's length, whatever the print's is.
#[test]
fn prints_of_4096_and_4097_bytes() {
    let longest = text_printed_in(LONGEST_TEXT);
    assert_eq!(print_into(&longest, 4095), "21 buffer 4095");
    assert_eq!(print_into(&longest, 4096), "printed 4096");
    assert_eq!(print_into(&longest, LONGEST_INPUT), "printed 4096");
    for length in [4097, 4098] {
        let text = text_printed_in(length);
        assert_eq!(print_into(&text, 0), "21 buffer 0");
        assert_eq!(print_into(&text, 4096), "21 buffer 4096");
        assert_eq!(print_into(&text, length), format!("21 buffer {length}"));
        assert_eq!(print_into(&text, LONGEST_INPUT), "21 buffer 65536");
    }
}

/// The text's own limit stays: 4,096 bytes are printed in 2, and 4,097 not.
#[test]
fn texts_of_4096_and_4097_bytes() {
    assert_eq!(print_into(&format!("{:4096}", "!a"), 2), "printed 2");
    assert_eq!(print_into(&format!("{:4097}", "!a"), 2), "1@4096");
}

#[test]
fn buffers_of_the_prints_length_and_one_less() {
    for text in ["a", "a;b", "!(a == b)", "ipv6('f::')"] {
        let length = printing(text).len();
        assert_eq!(print_into(text, length), format!("printed {length}"));
        assert_eq!(print_into(text, length + 1), format!("printed {length}"));
        let short_of_it = length - 1;
        let refused = format!("21 buffer {short_of_it}");
        assert_eq!(print_into(text, short_of_it), refused);
    }
}

#[test]
fn later_bytes_stay_and_a_refusal_changes_none() {
    let mut buffer = *b"xxxxxxxx";
    assert_eq!(print(b"a;b", &mut buffer), Answer::Printed(5));
    assert_eq!(&buffer, b"a ; bxxx");
    for text in ["a;;", "abc && abc", "@", &text_printed_in(4097)] {
        let answer = print(text.as_bytes(), &mut buffer);
        assert!(matches!(answer, Answer::Refused { .. }), "{text}");
        assert_eq!(&buffer, b"a ; bxxx", "{text}");
    }
}

/// 11 bytes are printed in 35.
#[test]
fn prints_far_longer_than_their_texts() {
    let row = |count| vec!["ipv6('f::')"; count].join("&&");
    assert_eq!(printing(row(105)).len(), 105 * 35 + 104 * 4);
    assert_eq!(printing(row(106)), "21 buffer 4096");
    // What the call refuses reads back all the same.
    holds_of_the_print(row(200).as_bytes());
}

#[test]
fn prints_with_1024_tokens() {
    let row = |last: &str| format!("{}{last}", "a&&".repeat(511));
    assert_eq!(printing(row("!a")), format!("{}!a", "a && ".repeat(511)));
    assert_eq!(printing(row("!!a")), "7@1535");
    holds_of_the_print(row("!a").as_bytes());
}

#[test]
fn prints_with_64_levels() {
    let nest = |open: &str, levels: usize| {
        let close = ")".repeat(open.matches('(').count() * levels);
        format!("{}a ; b{close}", open.repeat(levels))
    };
    for (open, most) in [
        ("a ; (", 64),
        ("a && (", 64),
        ("a == !(", 32),
        ("-(a < ", 32),
    ] {
        let deepest = nest(open, most);
        assert_eq!(printing(&deepest), deepest);
        holds_of_the_print(deepest.as_bytes());
        let refused = printing(nest(open, most + 1));
        assert!(refused.starts_with("9@"), "{refused}");
    }
    for sign in ["!", "-"] {
        let tower = format!("{}a", sign.repeat(64));
        assert_eq!(printing(&tower), tower);
        assert_eq!(printing(format!("{sign}{tower}")), "9@64");
    }
}

/// The tree with every place 0.
fn without_places(mut node: Node) -> Node {
    clear_places(&mut node);
    node
}

fn clear_places(node: &mut Node) {
    node.place = 0;
    match &mut node.what {
        What::Bool(_) | What::Number(_) | What::Key(_) => {}
        What::Field { name_place, .. } | What::Attribute { name_place, .. } => *name_place = 0,
        What::Not(inner) | What::Minus(inner) => clear_places(inner),
        What::Compare(_, left, right) | What::Join(_, left, right) => {
            clear_places(left);
            clear_places(right);
        }
    }
}

/// The tree of a text, places aside, if it has one.
fn bare_tree(text: &[u8]) -> Option<Node<'_>> {
    text_tree(text).ok().map(without_places)
}

/// The print without each of its pairs of parentheses in turn.
fn without_one_pair(print: &[u8]) -> Vec<Vec<u8>> {
    let mut open = Vec::new();
    let mut found = Vec::new();
    for (place, &byte) in print.iter().enumerate() {
        match byte {
            b'(' => open.push(place),
            b')' => {
                let start = open.pop().expect("it was opened");
                let mut less = print.to_vec();
                less.remove(place);
                less.remove(start);
                found.push(less);
            }
            _ => {}
        }
    }
    found
}

/// Reading the print gives the tree, and without any pair of its parentheses
/// gives another or none.
fn tells_the_tree(print: &[u8], tree: &Node) {
    let shown = print.escape_ascii();
    assert_eq!(bare_tree(print).as_ref(), Some(tree), "{shown}");
    for less in without_one_pair(print) {
        assert_ne!(bare_tree(&less).as_ref(), Some(tree), "{shown}");
    }
}

/// The laws of a print, for a text that has a tree.
fn holds_of_the_print(text: &[u8]) {
    let shown = text.escape_ascii();
    let tree = text_tree(text).expect("a tree");
    let print = print_of(&tree);
    tells_the_tree(&print, &without_places(tree));
    let again = print_of(&text_tree(&print).expect("a tree"));
    assert_eq!(again, print, "{shown}");
    let count = |text: &[u8]| tokens(text).expect("tokens").len();
    assert!(count(&print) <= count(text), "{shown}");
}

fn node(what: What<'_>) -> Node<'_> {
    Node { place: 0, what }
}

/// All trees with so many operators, over one key and one of the comparisons.
fn trees(operators: usize) -> Vec<Node<'static>> {
    if operators == 0 {
        return vec![node(What::Key(b"a"))];
    }
    let mut found = Vec::new();
    for inner in trees(operators - 1).into_iter().map(Box::new) {
        found.push(node(What::Not(inner.clone())));
        found.push(node(What::Minus(inner)));
    }
    for of_left in 0..operators {
        let rights = trees(operators - 1 - of_left);
        for left in trees(of_left).into_iter().map(Box::new) {
            for right in rights.iter().cloned().map(Box::new) {
                let comparison = What::Compare(Comparison::Less, left.clone(), right.clone());
                found.push(node(comparison));
                for join in Join::ALL {
                    found.push(node(What::Join(join, left.clone(), right.clone())));
                }
            }
        }
    }
    found
}

#[test]
fn all_trees_with_up_to_four_operators() {
    let all: Vec<Node> = (0..=4).flat_map(trees).collect();
    assert_eq!(all.len(), 22_261);
    let mut prints = HashSet::new();
    for tree in &all {
        let print = print_of(tree);
        tells_the_tree(&print, tree);
        assert!(prints.insert(print), "two trees have one print");
    }
}

/// Another text with the same tree: all parentheses that it may have, zeros
/// before numbers, upper case, remarks.
fn roundabout(node: &Node) -> String {
    let words = |bytes: &[u8]| String::from_utf8(bytes.to_vec()).expect("a word");
    match &node.what {
        What::Number(Literal { base, number }) => match base {
            Base::Decimal => format!("(0D0{number})"),
            Base::Binary => format!("(0B0{number:b})"),
            Base::Hex => format!("(0X0{number:X})"),
        },
        What::Field { key, name, .. } => format!("({}\t::\r{})", words(key), words(name)),
        What::Attribute { name, .. } => format!(":: {}", words(name)),
        What::Not(inner) => format!("! ({})", roundabout(inner)),
        What::Minus(inner) => format!("(-{})", roundabout(inner)),
        What::Compare(comparison, left, right) => {
            let (left, right) = (roundabout(left), roundabout(right));
            format!("({left}//)\n{}{right})", comparison.spelling())
        }
        What::Join(join, left, right) => {
            let (left, right) = (roundabout(left), roundabout(right));
            format!("(({left}){}({right}))", join.spelling())
        }
        What::Bool(_) | What::Key(_) => words(&print_of(node)),
    }
}

#[test]
fn laws_of_generated_prints() {
    let (mut printed, mut refused, mut said_otherwise) = (0, 0, 0);
    for index in 0..4_000 {
        let [text, _, before] = generated(Call::Print, 6, index).inputs;
        let Ok(tree) = text_tree(&text) else {
            continue;
        };
        holds_of_the_print(&text);
        let wanted = print_of(&tree);
        let other = roundabout(&tree);
        if let Ok(same) = text_tree(other.as_bytes()) {
            assert_eq!(print_of(&same), wanted, "{other}");
            said_otherwise += 1;
        }
        let mut after = before.clone();
        match print(&text, &mut after) {
            Answer::Printed(length) => {
                assert_eq!(after[..length], wanted);
                assert_eq!(after[length..], before[length..]);
                printed += 1;
            }
            _ => {
                assert_eq!(after, before);
                refused += 1;
            }
        }
    }
    assert!(printed > 1_500, "{printed}");
    assert!(refused > 500, "{refused}");
    assert!(said_otherwise > 2_000, "{said_otherwise}");
}
