//! Explanations: which part or key is named, its piece, and what is true of each.

mod common;

use std::ops::Range;

use common::*;
use desk::reference::calls::{text_tree, LONGEST_TEXT};
use desk::reference::entries::Entry;
use desk::reference::keys::Key;
use desk::reference::parts::{parts, Part, Piece};
use desk::reference::tokens::{tokens, Token};
use desk::reference::tree::{Join, Node, What};
use desk::reference::{explain, judge, Answer, Explanation, Input};
use desk::requests::Call;

/// The parts of a text, as they stand in it.
fn cut(text: &str) -> Vec<&str> {
    let cut = parts(text.as_bytes()).expect("a tree");
    cut.iter()
        .map(|part| std::str::from_utf8(part.piece.bytes).expect("plain text"))
        .collect()
}

#[test]
fn parts_are_cut_outside_parentheses() {
    let cases: [(&str, &[&str]); 12] = [
        ("a", &["a"]),
        ("a;b;c", &["a", "b", "c"]),
        ("(a;b);c", &["(a;b)", "c"]),
        ("(a;b)", &["(a;b)"]),
        ("((a;b);c)", &["((a;b);c)"]),
        ("a;(b;c)", &["a", "(b;c)"]),
        ("(a);(b)", &["(a)", "(b)"]),
        ("!(a;b);(c;d)->e", &["!(a;b)", "(c;d)->e"]),
        ("ipv4('0.0.0.1');b", &["ipv4('0.0.0.1')", "b"]),
        ("a||b;c&&d->e", &["a||b", "c&&d->e"]),
        ("a;", &["a"]),
        ("(a;b);c;", &["(a;b)", "c"]),
    ];
    for (text, wanted) in cases {
        assert_eq!(cut(text), wanted, "{text}");
    }
}

/// From the first token to the last: blanks and remarks around a part are no
/// part of it, those inside are.
#[test]
fn parts_run_from_first_token_to_last() {
    let cases: [(&str, &[&str]); 7] = [
        (" a ; b ", &["a", "b"]),
        ("\ta\r\n;\n( b )\n;\n", &["a", "( b )"]),
        ("// x\na // y\n; // z\nb // end", &["a", "b"]),
        ("a // ;\n; b", &["a", "b"]),
        ("a // (\n; b // )\n", &["a", "b"]),
        ("a // ;\n && // ;\n b ; c", &["a // ;\n && // ;\n b", "c"]),
        ("a;//b;c", &["a"]),
    ];
    for (text, wanted) in cases {
        assert_eq!(cut(text), wanted, "{text}");
    }
}

/// What has no tree has no parts, though a cut could be made.
#[test]
fn a_text_without_a_tree_has_no_parts() {
    for (text, wanted) in [
        ("a;;b", "8@2"),
        (";a", "8@0"),
        ("a;b)", "8@3"),
        ("(a;b", "8@4"),
        ("(a;)", "8@3"),
        ("a;@", "5@2"),
        ("", "8@0"),
    ] {
        let refusal = parts(text.as_bytes()).expect_err("no tree");
        assert_eq!(short(refusal.into()), wanted, "{text}");
    }
}

/// The first false part, not the last; its number counts from 1.
#[test]
fn the_first_false_part_is_named() {
    let cases = [
        ("false", "part 1 @0 0..5"),
        ("false;false", "part 1 @0 0..5"),
        ("true;false", "part 2 @5 5..10"),
        ("true;false;true;false", "part 2 @5 5..10"),
        ("true;true;true;false;", "part 4 @15 15..20"),
        ("v == 1; d == 0x20; v == 0", "part 2 @10 8..17"),
        ("v == 1; ::priority < 10", "part 2 @19 8..23"),
    ];
    all(explaining, cases.to_vec());
}

/// One tree, but not the same parts.
#[test]
fn the_text_tells_the_parts_and_not_its_tree() {
    let (enclosed, plain) = ("(true;false);true", "true;false;true");
    assert_eq!(printing(enclosed), printing(plain));
    let cases = [
        (enclosed, "part 1 @5 0..12"),
        (plain, "part 2 @5 5..10"),
        ("((true;true);false);false", "part 1 @12 0..19"),
        ("true;(true;false);false", "part 2 @10 5..17"),
        ("(true;(false;true))", "part 1 @5 0..19"),
    ];
    all(explaining, cases.to_vec());
}

/// The root is the operator inside the parentheses, else the first token; "::"
/// is no operator.
#[test]
fn places_of_roots() {
    let cases = [
        ("v == 1; ((false; true)) ; false;", "part 2 @15 8..23"),
        ("true;((false))", "part 2 @7 5..14"),
        ("true;(!(true))", "part 2 @6 5..14"),
        ("true;!!!true", "part 2 @5 5..12"),
        ("true;d::mask == 1", "part 2 @13 5..17"),
        ("true;(-1 == v::value) == false", "part 2 @22 5..30"),
        ("true;true&&false&&true", "part 2 @16 5..22"),
        ("true;v==1->false", "part 2 @9 5..16"),
        ("true;(false||(true;false))", "part 2 @11 5..26"),
    ];
    all(explaining, cases.to_vec());
}

#[test]
fn stretches_leave_out_what_stands_around() {
    let cases = [
        (" \t false ", "part 1 @3 3..8"),
        ("true ; // ;\n false // (\n ;", "part 2 @13 13..18"),
        ("// false;\nfalse", "part 1 @10 10..15"),
        ("true;( // )\nfalse\n)", "part 2 @12 5..19"),
        ("true;1//;\n==//;\n2//;\n;false", "part 2 @10 5..17"),
    ];
    all(explaining, cases.to_vec());
}

/// The explanation of an entry, with some of its bytes changed, by document 01's
/// keys and a text that is false of the good entry.
fn explaining_with(changes: &[(usize, u8)]) -> String {
    let mut entry = entry();
    for &(place, byte) in changes {
        entry[place] = byte;
    }
    short_explanation(explain(b"true;false", &list(), &entry))
}

/// Key k has its record at 4 + 36k of the entry and its name at 80k + 16 of the
/// list.
#[test]
fn the_key_of_a_refused_record_is_named() {
    assert_eq!(explaining_with(&[]), "part 2 @5 5..10");
    for (index, wanted) in [
        "key @4 16..17",
        "key @40 96..97",
        "key @76 176..177",
        "key @112 256..257",
        "key @148 336..337",
    ]
    .into_iter()
    .enumerate()
    {
        assert_eq!(explaining_with(&[(4 + 36 * index, 2)]), wanted);
        // Any byte of the record: it is named from its first.
        assert_eq!(explaining_with(&[(4 + 36 * index + 3, 1)]), wanted);
    }
    assert_eq!(explaining_with(&[(40, 2), (112, 2)]), "key @40 96..97");
}

/// 20 at the priority is another refusal; it hides the keys.
#[test]
fn no_key_is_shown_for_a_bad_priority() {
    assert_eq!(explaining_with(&[(0, 0x7f)]), "part 2 @5 5..10");
    assert_eq!(explaining_with(&[(0, 0x80)]), "nothing 20 entry 0");
    assert_eq!(explaining_with(&[(0, 0x80), (4, 2)]), "nothing 20 entry 0");
    let no_keys = |priority| short_explanation(explain(b"false", &[], &[priority, 0, 0, 0]));
    assert_eq!(no_keys(0x7f), "part 1 @0 0..5");
    assert_eq!(no_keys(0x80), "nothing 20 entry 0");
}

/// 32 keys, the first and the last with names of this many bytes.
fn keys_with_names_of(length: usize) -> String {
    let mut names: Vec<String> = (0..Key::MOST).map(|index| format!("k{index}")).collect();
    names[0] = "a".repeat(length);
    names[Key::MOST - 1] = "z".repeat(length);
    let lines = names.iter().map(|name| format!("{name} ternary 8\n"));
    lines.collect()
}

#[test]
fn first_and_last_key_with_names_of_1_and_64_bytes() {
    for length in [1, 64] {
        let list = list_of(&keys_with_names_of(length));
        for (record, start) in [(4, 16), (4 + 36 * 31, 80 * 31 + 16)] {
            let mut entry = vec![0; 4 + 36 * 32];
            assert_eq!(judge(b"true", &list, &entry), Answer::Accepted);
            entry[record] = 2;
            let shown = short_explanation(explain(b"true", &list, &entry));
            assert_eq!(shown, format!("key @{record} {start}..{}", start + length));
        }
    }
}

#[test]
fn nothing_to_show_but_the_own_answer() {
    let long = " ".repeat(4097);
    let cases = [
        ("v == 1; true;", "nothing A"),
        (&*long, "nothing 1@4096"),
        ("false; @", "nothing 5@7"),
        (
            "false; 340282366920938463463374607431768211456",
            "nothing 6@7",
        ),
        ("false;;", "nothing 8@6"),
        ("false; ipv4('bad')", "nothing 10@12"),
        ("false; zz", "nothing 11@7"),
        ("false; v::mask == 1", "nothing 12@10"),
        ("false; 1", "nothing 13@5"),
        ("1", "nothing 14@0"),
    ];
    all(explaining, cases.to_vec());
    let refused = |list: &[u8], entry: &[u8]| short_explanation(explain(b"false", list, entry));
    assert_eq!(refused(&[0; 3], &entry()), "nothing 2 list 3");
    assert_eq!(refused(&[0; 80], &entry()), "nothing 3 list 0");
    let twice = [list(), list()].concat();
    assert_eq!(refused(&twice, &entry()), "nothing 4 list 400");
    assert_eq!(refused(&list(), &entry()[..183]), "nothing 19 entry 183");
    // The length comes before the priority.
    assert_eq!(refused(&list(), &[0xff; 4]), "nothing 19 entry 4");
}

/// `true` in a row, and the last word as given.
fn row(count: usize, last: &str, end: &str) -> String {
    format!("{}{last}{end}", "true;".repeat(count - 1))
}

/// 512 parts need all 1,024 tokens if a ";" trails.
#[test]
fn texts_of_1_and_512_parts() {
    assert_eq!(explaining(row(1, "false", ";")), "part 1 @0 0..5");
    for end in ["", ";"] {
        let text = row(512, "false", end);
        assert_eq!(explaining(text), "part 512 @2555 2555..2560");
    }
    assert_eq!(explaining(row(512, "true", ";")), "nothing A");
    assert_eq!(
        explaining(row(512, "!true", "")),
        "part 512 @2555 2555..2560"
    );
    assert_eq!(explaining(row(512, "!true", ";")), "nothing 7@2560");
    assert_eq!(explaining(row(513, "false", "")), "nothing 7@2560");
    let late = row(511, "true", ";false;");
    assert_eq!(
        explaining(late.replacen("true", "false", 1)),
        "part 1 @0 0..5"
    );
}

/// The end is one past the last byte, so that of the longest text is 4,096.
#[test]
fn parts_that_end_with_the_longest_text() {
    let ending = |last: &str, length: usize| format!("true;{last:>0$}", length - 5);
    for last in ["false", "(true;false)", "1==2"] {
        let stretch = format!("{}..4096", 4096 - last.len());
        let explained = explaining(ending(last, LONGEST_TEXT));
        assert!(explained.ends_with(&stretch), "{last}: {explained}");
        assert!(explained.starts_with("part 2 @"), "{last}: {explained}");
        let longer = ending(last, LONGEST_TEXT + 1);
        assert_eq!(explaining(longer), "nothing 1@4096");
    }
    let trailing = ending("false;", LONGEST_TEXT);
    assert_eq!(explaining(trailing), "part 2 @4090 4090..4095");
    let zeros = format!("true;1=={}", "0".repeat(4096 - 8));
    assert_eq!(explaining(zeros), "part 2 @6 5..4096");
    let all = format!("({:>4094})", "false");
    assert_eq!(explaining(all), "part 1 @4090 0..4096");
}

#[test]
fn parts_with_64_levels() {
    let nest = |levels: usize| {
        let (open, close) = ("(".repeat(levels), ")".repeat(levels));
        format!("true;{open}true;false{close};true")
    };
    assert_eq!(explaining(nest(64)), "part 2 @73 5..143");
    assert_eq!(explaining(nest(65)), "nothing 9@69");
}

/// Printing forgets parentheses round a left ";", and with them the parts.
#[test]
fn the_print_may_have_other_parts() {
    let text = "(true;false);true";
    let print = printing(text);
    assert_eq!(print, "true ; false ; true");
    assert_eq!(explaining(text), "part 1 @5 0..12");
    assert_eq!(explaining(print), "part 2 @7 7..12");
}

/// Is this piece the input's own bytes, where it says that it starts?
fn lies_in(piece: Piece, input: &[u8]) -> bool {
    let own = &input[piece.stretch()];
    std::ptr::eq(piece.bytes, own)
}

#[test]
fn pieces_are_no_copies() {
    let text = b"true; (d == 3) ;".to_vec();
    let (list, entry) = (list(), entry());
    let part = explain(&text, &list, &entry).piece().expect("a part");
    assert_eq!(part.bytes, b"(d == 3)");
    assert!(lies_in(part, &text));
    assert!(!lies_in(part, &text.clone()));
    let mut refused = entry.clone();
    refused[4 + 36] = 2;
    let key = explain(&text, &list, &refused).piece().expect("a key");
    assert_eq!(key.bytes, b"d");
    assert!(lies_in(key, &list));
}

/// The same tree, with its places counted from another byte.
fn moved(mut node: Node, by: usize) -> Node {
    node.place += by;
    node.what = match node.what {
        What::Field {
            key,
            name,
            name_place,
        } => What::Field {
            key,
            name,
            name_place: name_place + by,
        },
        What::Attribute { name, name_place } => What::Attribute {
            name,
            name_place: name_place + by,
        },
        What::Not(inner) => What::Not(Box::new(moved(*inner, by))),
        What::Minus(inner) => What::Minus(Box::new(moved(*inner, by))),
        What::Compare(comparison, left, right) => What::Compare(
            comparison,
            Box::new(moved(*left, by)),
            Box::new(moved(*right, by)),
        ),
        What::Join(join, left, right) => What::Join(
            join,
            Box::new(moved(*left, by)),
            Box::new(moved(*right, by)),
        ),
        leaf @ (What::Bool(_) | What::Number(_) | What::Key(_)) => leaf,
    };
    node
}

/// The stretches of the parts of a good text, found byte by byte. (No string of
/// a good text holds a sign, a parenthesis or a remark.)
fn stretches(text: &[u8]) -> Vec<Range<usize>> {
    let mut found = vec![None];
    let (mut open, mut remark) = (0, false);
    for (place, &byte) in text.iter().enumerate() {
        remark = remark && byte != b'\n' || text[place..].starts_with(b"//");
        match byte {
            _ if remark => continue,
            b' ' | b'\t' | b'\r' | b'\n' => continue,
            b';' if open == 0 => {
                found.push(None);
                continue;
            }
            b'(' => open += 1,
            b')' => open -= 1,
            _ => {}
        }
        let stretch: &mut Option<Range<usize>> = found.last_mut().expect("one at least");
        let start = stretch.as_ref().map_or(place, |stretch| stretch.start);
        *stretch = Some(start..place + 1);
    }
    // Nothing stands after a trailing sign.
    found.into_iter().flatten().collect()
}

/// The laws of the parts of a text that has a tree: they are where a plain look
/// at its bytes finds them; the bytes of each, read alone, are the part; and the
/// text is its parts, joined from the left at the signs between them.
fn holds_of_the_parts(text: &[u8]) {
    let shown = text.escape_ascii();
    let (all, parts) = (tokens(text).expect("tokens"), parts(text).expect("a tree"));
    let found: Vec<_> = parts.iter().map(|part| part.piece.stretch()).collect();
    assert_eq!(found, stretches(text), "{shown}");
    let mut joined: Option<Node> = None;
    for part in parts {
        assert!(lies_in(part.piece, text), "{shown}");
        let alone = text_tree(part.piece.bytes).expect("a tree");
        assert_eq!(moved(alone, part.piece.start), part.tree, "{shown}");
        joined = Some(match joined {
            None => part.tree,
            Some(left) => Node {
                place: last_before(part.piece.start, &all).place,
                what: What::Join(Join::Sequence, Box::new(left), Box::new(part.tree)),
            },
        });
    }
    assert_eq!(joined, text_tree(text).ok(), "{shown}");
}

fn last_before<'a, 't>(place: usize, all: &'a [Token<'t>]) -> &'a Token<'t> {
    let before = all.partition_point(|token| token.end <= place);
    &all[before - 1]
}

#[test]
fn laws_of_generated_parts() {
    let (mut several, mut other_than_the_tree) = (0, 0);
    for index in 0..4_000 {
        let [text, ..] = generated(Call::Explain, 10, index).inputs;
        let Ok(tree) = text_tree(&text) else {
            continue;
        };
        holds_of_the_parts(&text);
        let count = parts(&text).expect("a tree").len();
        several += usize::from(count > 1);
        other_than_the_tree += usize::from(count != left_spine(&tree));
    }
    assert!(several > 1_000, "{several}");
    assert!(other_than_the_tree > 100, "{other_than_the_tree}");
}

/// How many parts the tree alone would suggest.
fn left_spine(tree: &Node) -> usize {
    match &tree.what {
        What::Join(Join::Sequence, left, _) => left_spine(left) + 1,
        _ => 1,
    }
}

/// The laws of an explanation that names a part: the entry is violated, the part
/// is false, and all before it are true. Says whether a later one is false too.
fn holds_of_a_part(number: usize, place: usize, piece: Piece, inputs: &[Vec<u8>; 3]) -> bool {
    let [text, list, entry] = inputs;
    let shown = text.escape_ascii();
    assert_eq!(judge(text, list, entry), Answer::Violated, "{shown}");
    let parts = parts(text).expect("a tree");
    let named = &parts[number - 1];
    assert_eq!((named.tree.place, named.piece), (place, piece), "{shown}");
    let alone = |part: &Part| judge(part.piece.bytes, list, entry);
    for part in &parts[..number - 1] {
        assert_eq!(alone(part), Answer::Accepted, "{shown}");
    }
    assert_eq!(alone(named), Answer::Violated, "{shown}");
    parts[number..]
        .iter()
        .any(|part| alone(part) == Answer::Violated)
}

/// The laws of an explanation that names a key: the entry is refused with 20 at
/// its record, and the piece is its name in the list.
fn holds_of_a_key(place: usize, piece: Piece, inputs: &[Vec<u8>; 3]) {
    let [text, list, entry] = inputs;
    let refused = Answer::Refused {
        number: 20,
        input: Input::Entry,
        offset: place,
    };
    assert_eq!(judge(text, list, entry), refused);
    assert!(lies_in(piece, list));
    let record = piece.start - Key::NAME_START;
    assert_eq!(usize::from(list[record]), piece.bytes.len());
    assert_eq!(record % Key::SIZE, 0);
    assert_eq!(Entry::size(record / Key::SIZE), place);
}

/// Every explanation fits the judgement of its entry, and there is one for every
/// violated entry and every one refused at a key.
#[test]
fn laws_of_generated_explanations() {
    let (mut part_named, mut false_later, mut key_named, mut nothing) = (0, 0, 0, 0);
    for index in 0..4_000 {
        let inputs = generated(Call::Explain, 11, index).inputs;
        let [text, list, entry] = &inputs;
        match explain(text, list, entry) {
            Explanation::Part {
                number,
                place,
                piece,
            } => {
                let later = holds_of_a_part(number, place, piece, &inputs);
                part_named += 1;
                false_later += usize::from(later);
            }
            Explanation::Key { place, piece } => {
                holds_of_a_key(place, piece, &inputs);
                key_named += 1;
            }
            Explanation::Nothing(answer) => {
                assert_eq!(answer, judge(text, list, entry));
                assert!(shows_nothing(answer), "{}", text.escape_ascii());
                nothing += 1;
            }
        }
    }
    assert!(part_named > 1_000, "{part_named}");
    assert!(false_later > 300, "{false_later}");
    assert!(key_named > 300, "{key_named}");
    assert!(nothing > 1_000, "{nothing}");
}

/// Accepted entries and refusals other than 20 at a key record.
fn shows_nothing(answer: Answer) -> bool {
    match answer {
        Answer::Refused {
            number: 20, offset, ..
        } => offset == 0,
        _ => answer != Answer::Violated,
    }
}
