//! Summaries: which keys a text names, the mark for ::priority, and the count.

mod common;

use common::*;
use desk::reference::keys::{find, key_list, Key};
use desk::reference::tokens::{tokens, Shape, Symbol};
use desk::reference::{check, summarize, Answer, Summary};
use desk::requests::Call;

#[test]
fn a_bit_for_each_key_that_is_named() {
    let cases = [
        ("v == 1", "summary 1 0 1"),
        ("d == 1", "summary 2 0 1"),
        ("p == 1", "summary 4 0 1"),
        ("r == 1", "summary 8 0 1"),
        ("o == 1", "summary 16 0 1"),
        ("v == 1; d::mask != 0", "summary 3 0 2"),
        ("::priority < 10 || o == 1", "summary 16 1 1"),
        (
            "v == 1 && d == 1 && p == 1 && r == 1 && o == 1",
            "summary 31 0 5",
        ),
        ("true", "summary 0 0 0"),
        ("1 == 1;", "summary 0 0 0"),
    ];
    all(summarizing, cases.to_vec());
}

/// By a bare key or a field, wherever it stands; twice counts once.
#[test]
fn keys_and_fields_name_a_key() {
    let cases = [
        ("v::value == 1", "summary 1 0 1"),
        ("d::mask == d::value", "summary 2 0 1"),
        ("p::prefix_length < 3", "summary 4 0 1"),
        ("r::low < r::high", "summary 8 0 1"),
        ("v == 1; v == 1; v::value == 1", "summary 1 0 1"),
        ("d == d", "summary 2 0 1"),
        ("d::value == p::value", "summary 6 0 2"),
        ("-v == 1", "summary 1 0 1"),
        ("!(v == 1)", "summary 1 0 1"),
        ("1 == -(-(v))", "summary 1 0 1"),
        ("false -> o == 1", "summary 16 0 1"),
        ("false && (v == 1; true -> (r == 2))", "summary 9 0 2"),
        ("v == 1 // d == 1\n", "summary 1 0 1"),
    ];
    all(summarizing, cases.to_vec());
}

/// It is no key, and a key may be called so.
#[test]
fn the_mark_for_priority() {
    let cases = [
        ("::priority < 10", "summary 0 1 0"),
        ("10 > :: priority", "summary 0 1 0"),
        ("::priority == ::priority", "summary 0 1 0"),
        ("-::priority == 1; v == 1", "summary 1 1 1"),
        ("true -> !(d::value == ::priority)", "summary 2 1 1"),
    ];
    all(summarizing, cases.to_vec());
    let list = list_of("k exact 8\npriority exact 8\n");
    let summary = |text: &str| short(summarize(text.as_bytes(), &list));
    assert_eq!(summary("priority == 1"), "summary 2 0 1");
    assert_eq!(summary("::priority == 1"), "summary 0 1 0");
    assert_eq!(summary("priority == ::priority"), "summary 2 1 1");
}

/// So many keys `k0`, `k1` and so on.
fn many(count: usize) -> Vec<u8> {
    let lines = (0..count).map(|index| format!("k{index} ternary 8\n"));
    list_of(&lines.collect::<String>())
}

fn naming(indices: impl Iterator<Item = usize>) -> String {
    let parts: Vec<String> = indices.map(|index| format!("k{index}==1")).collect();
    parts.join(";")
}

#[test]
fn the_first_and_the_last_of_32_keys() {
    let list = many(Key::MOST);
    let summary = |text: String| short(summarize(text.as_bytes(), &list));
    assert_eq!(summary(naming([0].into_iter())), "summary 1 0 1");
    assert_eq!(summary(naming([30].into_iter())), "summary 1073741824 0 1");
    assert_eq!(summary(naming([31].into_iter())), "summary 2147483648 0 1");
    assert_eq!(summary(naming(0..31)), "summary 2147483647 0 31");
    assert_eq!(summary(naming(1..32)), "summary 4294967294 0 31");
    assert_eq!(summary(naming(0..32)), "summary 4294967295 0 32");
    let all = format!("{};::priority==1", naming(0..32));
    assert_eq!(summary(all), "summary 4294967295 1 32");
    assert_eq!(short(summarize(b"true", &[])), "summary 0 0 0");
}

/// 256 times is as often as the tokens allow.
#[test]
fn a_key_named_often_counts_once() {
    let often = vec!["v==1"; 256].join(";");
    assert_eq!(summarizing(often), "summary 1 0 1");
    assert_eq!(summarizing(vec!["v==1"; 257].join(";")), "7@1280");
}

/// The whole check comes first: a text that could not be judged has no summary.
#[test]
fn refused_texts_and_lists_have_no_summary() {
    let long = " ".repeat(4097);
    let cases = [
        (&*long, "1@4096"),
        ("@", "5@0"),
        ("v == 340282366920938463463374607431768211456", "6@5"),
        ("v ==", "8@4"),
        ("ipv4('x') == v", "10@5"),
        ("zz == 1", "11@0"),
        ("v::mask == 1", "12@3"),
        ("::prio == 1", "12@2"),
        ("d > 3", "13@2"),
        ("v", "14@0"),
    ];
    all(summarizing, cases.to_vec());
    assert_eq!(short(summarize(b"\xff", &[0; 3])), "2 list 3");
    assert_eq!(short(summarize(b"\xff", &[0; 80])), "3 list 0");
    let twice = [list(), list()].concat();
    assert_eq!(short(summarize(b"true", &twice)), "4 list 400");
}

/// What a good text names, found among its words: one after "::" is a field's
/// name or ::priority, one before "(" is an address's, and any other is a key
/// if there is one of that name.
fn found_among_words(text: &[u8], keys: &[Key]) -> Summary {
    let shapes: Vec<Shape> = tokens(text)
        .expect("tokens")
        .iter()
        .map(|token| token.shape)
        .collect();
    let mut summary = Summary::default();
    for (index, &shape) in shapes.iter().enumerate() {
        let Shape::Word(word) = shape else {
            continue;
        };
        let before = index.checked_sub(1).map(|before| shapes[before]);
        let after = shapes.get(index + 1).copied();
        if before == Some(Shape::Symbol(Symbol::Colons)) {
            summary.priority |= word == b"priority";
        } else if after != Some(Shape::Symbol(Symbol::Open)) {
            summary.keys |= find(keys, word).map_or(0, |key| 1 << key);
        }
    }
    summary
}

/// There is a summary exactly for what passes the check; it has a bit for each
/// key that stands in the text, and none beyond the list.
#[test]
fn laws_of_generated_summaries() {
    let (mut passed, mut none, mut full, mut marked) = (0, 0, 0, 0);
    for index in 0..4_000 {
        let [text, list, _] = generated(Call::Summarize, 13, index).inputs;
        let Answer::Summary(summary) = summarize(&text, &list) else {
            assert_eq!(summarize(&text, &list), check(&text, &list));
            continue;
        };
        assert_eq!(check(&text, &list), Answer::Passed);
        let keys = key_list(&list).expect("a good list");
        let shown = text.escape_ascii();
        assert_eq!(summary, found_among_words(&text, &keys), "{shown}");
        assert_eq!(summary.count(), summary.keys.count_ones() as usize);
        assert!(u64::from(summary.keys) < 1 << keys.len(), "{shown}");
        passed += 1;
        none += usize::from(summary.count() == 0);
        full += usize::from(summary.count() == Key::MOST);
        marked += usize::from(summary.priority);
    }
    assert!(passed > 3_000, "{passed}");
    assert!(none > 300, "{none}");
    assert!(full > 80, "{full}");
    assert!(marked > 800, "{marked}");
}
