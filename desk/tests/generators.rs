//! What the generated requests and cases promise.

mod common;

use std::collections::BTreeMap;

use desk::generate::explanations::MOST_PARTS;
use desk::generate::{cases, entries, lists, programs, request, skips, snippets};
use desk::generate::{rng::Rng, SHARES};
use desk::lists::{list_bytes, NamedKey};
use desk::reference::blocks::{all_parts, blocks_of, bytes_needed, BLOCK, MOST_BLOCKS};
use desk::reference::calls::{text_tree, LONGEST_TEXT};
use desk::reference::code::Parts;
use desk::reference::entries::Entry;
use desk::reference::keys::{key_list, Key, Kind};
use desk::reference::parts::{parts, Piece};
use desk::reference::printing::print_of;
use desk::reference::{explain, judge, load, run, summarize, translate};
use desk::reference::{Answer, Explanation, Summary};
use desk::requests::{Call, Request, LONGEST_INPUT};

/// "refused 13", "accepted" and so on, with how often it occurs.
fn counts(requests: impl Iterator<Item = Request>) -> BTreeMap<String, usize> {
    let mut counts = BTreeMap::new();
    for request in requests {
        let line = request.answer_line();
        let words: Vec<&str> = line.split(' ').collect();
        let kind = match words[..] {
            ["refused", number, ..] => format!("refused {number}"),
            _ => words[0].to_string(),
        };
        *counts.entry(kind).or_default() += 1;
    }
    counts
}

#[test]
fn one_seed_gives_one_run() {
    for index in [0, 1, 999] {
        assert_eq!(request(5, index), request(5, index));
        assert_ne!(request(5, index), request(6, index));
        assert_eq!(cases::case(5, index), cases::case(5, index));
    }
}

/// A request is for one of the calls that are compared, or for none at all.
#[test]
fn every_compared_call_occurs_and_no_other() {
    let mut counts = BTreeMap::new();
    for index in 0..30_000 {
        if let Some(call) = Call::from_byte(request(9, index).call) {
            *counts.entry(call.byte()).or_insert(0) += 1;
        }
    }
    let compared: Vec<u8> = SHARES.iter().map(|(call, _)| call.byte()).collect();
    let made: Vec<u8> = counts.keys().copied().collect();
    assert_eq!(made, compared);
    assert!(counts.values().all(|&count| count >= 1_000), "{counts:?}");
}

#[test]
fn every_refusal_occurs_often() {
    let counts = counts((0..52_000).map(|index| request(1, index)));
    for number in 1..=24 {
        let count = counts[&format!("refused {number}")];
        assert!(count >= 60, "refusal {number} occurs {count} times");
    }
    for answer in [
        "read",
        "passed",
        "accepted",
        "violated",
        "translated",
        "loaded",
        "printed",
        "summary",
        "judged",
        "fixed",
        "drafted",
        "agrees",
        "counted",
        "ran",
    ] {
        assert!(counts[answer] >= 1_000, "{answer}: {}", counts[answer]);
    }
    for answer in ["part", "key", "nothing", "reused", "differs"] {
        assert!(counts[answer] >= 500, "{answer}: {}", counts[answer]);
    }
    for answer in ["unknown", "too", "malformed"] {
        assert!(counts.contains_key(answer), "{answer}");
    }
}

#[test]
fn cases_are_mixed_and_mostly_short() {
    let all: Vec<Request> = (0..5_000).map(|index| cases::case(1, index)).collect();
    let short = all.iter().filter(|case| case.inputs[0].len() < 120);
    assert!(short.count() > 4_700);
    let counts = counts(all.into_iter());
    for number in (1..=14).chain([19, 20, 22, 23]) {
        assert!(
            counts.contains_key(&format!("refused {number}")),
            "{number}"
        );
    }
    let settled = counts["accepted"] + counts["violated"];
    assert!((1_400..2_400).contains(&settled), "{settled}");
}

#[test]
fn lines_of_cases() {
    let case = Request::new(Call::Judge, b"true".to_vec(), Vec::new(), vec![0, 0, 0, 9]);
    assert_eq!(cases::line(&case), "74727565 - 00000009 accepted");
    let case = Request::new(Call::Judge, Vec::new(), Vec::new(), Vec::new());
    assert_eq!(cases::line(&case), "- - - refused 8 text 0");
}

#[test]
fn good_lists_and_entries_conform() {
    for index in 0..3_000 {
        let mut rng = Rng::for_item(2, index);
        let keys = lists::good(&mut rng, 6);
        let entry = entries::good(&mut rng, &keys);
        let answer = judge(b"true", &list_bytes(&keys), &entry.to_bytes());
        assert_eq!(answer, Answer::Accepted);
    }
}

/// Ranges of one value, and ranges whose low is just above their high.
#[test]
fn ranges_reach_their_limit() {
    let keys = [NamedKey::new(b"r", Kind::Range, 16)];
    let (mut equal, mut above) = (0, 0);
    for index in 0..3_000 {
        let mut rng = Rng::for_item(8, index);
        let entry = entries::good(&mut rng, &keys);
        let [low, high] = [entry.records[0].first, entry.records[0].second];
        equal += usize::from(low == high && low > 0);
        let damaged = entries::damaged(&mut rng, &keys, &entry);
        if damaged.len() == Entry::size(1) {
            let number = |at: usize| u16::from_be_bytes([damaged[at], damaged[at + 1]]);
            above += usize::from(number(22).checked_sub(number(38)) == Some(1));
        }
    }
    assert!(equal >= 200, "{equal} ranges of one value");
    assert!(above >= 200, "{above} ranges with low just above high");
}

/// Prefixes that end where one word of 32 bits passes into the next, or next to
/// it: with their lowest bit set, and with the bit below it.
#[test]
fn prefixes_reach_the_borders_of_words() {
    let keys = [NamedKey::new(b"p", Kind::Lpm, 128)];
    let mut counts = BTreeMap::new();
    for index in 0..8_000 {
        let mut rng = Rng::for_item(9, index);
        let entry = entries::good(&mut rng, &keys);
        let damaged = entries::damaged(&mut rng, &keys, &entry);
        for bytes in [entry.to_bytes(), damaged] {
            if let Some(border) = lowest_bit_at_border(&bytes) {
                *counts.entry(border).or_insert(0) += 1;
            }
        }
    }
    // Eleven counts of low bits, each conforming and not; 128 low bits conform
    // where no bit is set.
    assert_eq!(counts.len(), 21, "{counts:?}");
    for (border, count) in counts {
        assert!(count >= 5, "{border:?}: {count}");
    }
}

/// The number of low bits that the prefix of the one key leaves, if it is near
/// a border, and whether the lowest bit that is set is the lowest of the prefix
/// rather than the bit below it.
fn lowest_bit_at_border(bytes: &[u8]) -> Option<(u32, bool)> {
    let record: &[u8; 36] = bytes.get(4..)?.try_into().ok()?;
    let first = u128::from_be_bytes(record[4..20].try_into().ok()?);
    let left = 128u32.checked_sub(u32::from(record[1]))?;
    let near_border = left > 30 && [31, 0, 1].contains(&(left % 32));
    let lowest = first.trailing_zeros();
    let conforms = lowest == left && first != 0;
    let breaks = lowest + 1 == left;
    (record[0] == 1 && near_border && (conforms || breaks)).then_some((left, conforms))
}

#[test]
fn good_programs_load() {
    for index in 0..3_000 {
        let mut rng = Rng::for_item(3, index);
        let keys = lists::good(&mut rng, 6);
        let entry = entries::good(&mut rng, &keys);
        let joins = rng.below(10);
        let code = programs::good(&mut rng, &keys, &entry, joins);
        let answer = load(&list_bytes(&keys), &blocks_of(&code, keys.len()));
        assert_eq!(answer, Answer::Loaded(code.len()));
    }
}

/// Both sides of the print's own limit, and of the buffer's.
#[test]
fn prints_reach_their_limits() {
    const OVER: usize = LONGEST_TEXT + 1;
    let mut counts = BTreeMap::new();
    for index in 0..4_000 {
        let [text, _, buffer] = common::generated(Call::Print, 7, index).inputs;
        let Ok(tree) = text_tree(&text) else {
            continue;
        };
        let (length, room) = (print_of(&tree).len(), buffer.len());
        let reached = match (length, room) {
            (LONGEST_TEXT, LONGEST_TEXT..) => "the longest print",
            (OVER, LONGEST_TEXT..) => "a byte over the longest print",
            (OVER.., _) => "a print that is too long",
            _ if room == length => "a buffer just long enough",
            _ if room + 1 == length => "a buffer a byte too short",
            (_, LONGEST_INPUT) => "the longest buffer",
            (_, 0) => "no buffer",
            _ => continue,
        };
        *counts.entry(reached).or_insert(0) += 1;
        assert!(!buffer.contains(&0));
    }
    assert_eq!(counts.len(), 7, "{counts:?}");
    for (reached, count) in counts {
        assert!(count >= 10, "{reached}: {count}");
    }
}

/// Which limit the explanation of this part lies at.
fn limit_of_part(number: usize, piece: Piece, text: &[u8]) -> &'static str {
    let count = parts(text).expect("a tree").len();
    match (number, count) {
        (_, 1) => "the only part",
        (1, MOST_PARTS) => "the first of 512 parts",
        (MOST_PARTS, _) => "the last of 512 parts",
        _ if piece.stretch().end == LONGEST_TEXT => "a part that ends with the longest text",
        _ => "another part",
    }
}

fn limit_of_name(name: Piece) -> &'static str {
    match name.bytes.len() {
        1 => "a name of 1 byte",
        Key::LONGEST_NAME => "a name of 64 bytes",
        _ => "another name",
    }
}

fn limit_of_key(place: usize) -> &'static str {
    match Entry::record_at(place) {
        Some(0) => "the first key",
        Some(index) if index == Key::MOST - 1 => "the last of 32 keys",
        _ => "another key",
    }
}

fn limit_of_refusal(answer: Answer, inputs: &[Vec<u8>; 3]) -> &'static str {
    let [text, list, entry] = inputs;
    let Answer::Refused { number, .. } = answer else {
        return "an accepted entry";
    };
    let signs = text.iter().filter(|&&byte| byte == b';').count();
    match number {
        1 if text.len() == LONGEST_TEXT + 1 => "a byte over the longest text",
        7 if signs >= MOST_PARTS => "a part over the most parts",
        20 => {
            let mut lower = entry.clone();
            lower[0] &= 0x7f;
            match explain(text, list, &lower) {
                Explanation::Key { .. } => "a bad priority that hides a key",
                _ => "a bad priority",
            }
        }
        _ => "another refusal",
    }
}

/// Both sides of the limits of parts and texts, and the ends of names and lists.
#[test]
fn explanations_reach_their_limits() {
    let mut counts = BTreeMap::new();
    let mut reached = |what: &'static str| *counts.entry(what).or_insert(0) += 1;
    for index in 0..6_000 {
        let inputs = common::generated(Call::Explain, 12, index).inputs;
        let [text, list, entry] = &inputs;
        match explain(text, list, entry) {
            Explanation::Part { number, piece, .. } => reached(limit_of_part(number, piece, text)),
            Explanation::Key { place, piece } => {
                reached(limit_of_name(piece));
                reached(limit_of_key(place));
            }
            Explanation::Nothing(answer) => reached(limit_of_refusal(answer, &inputs)),
        }
    }
    assert_eq!(counts.len(), 17, "{counts:?}");
    for (reached, count) in counts {
        assert!(count >= 15, "{reached}: {count}");
    }
}

/// In what two entries that conform differ, for a text that names these keys.
fn difference(summary: Summary, old: &Entry, new: &Entry, keys: &[Key]) -> &'static str {
    let differ: Vec<usize> = (0..keys.len())
        .filter(|&index| old.records[index] != new.records[index])
        .collect();
    let spelled = |index: usize| {
        old.records[index].reading(&keys[index]) == new.records[index].reading(&keys[index])
    };
    match (differ[..].split_first(), old.priority != new.priority) {
        (None, false) => "nothing",
        (None, true) if summary.priority => "a priority that is named",
        (None, true) => "a priority that is not",
        (Some((&one, [])), false) if spelled(one) && summary.names(one) => {
            "a spelling that is named"
        }
        (Some((&one, [])), false) if spelled(one) => "a spelling that is not",
        (Some((&one, [])), false) if summary.names(one) && one == Key::MOST - 1 => "key 31, named",
        (Some((&one, [])), false) if summary.names(one) => "a key that is named",
        (Some((&one, [])), false) if one == Key::MOST - 1 => "key 31, not named",
        (Some((_, [])), false) => "a key that is not",
        _ => "several things",
    }
}

/// Which entries of a change conform.
fn conforming(old: &[u8], new: &[u8], keys: &[Key]) -> Result<(Entry, Entry), &'static str> {
    match (Entry::from_bytes(old, keys), Entry::from_bytes(new, keys)) {
        (Ok(old), Ok(new)) => Ok((old, new)),
        (Err(_), Ok(_)) => Err("an old entry that does not conform"),
        (Ok(_), Err(_)) => Err("a new entry that does not conform"),
        (Err(_), Err(_)) => Err("neither conforms"),
    }
}

/// Every way in which entries may differ, for texts that are good.
#[test]
fn rechecks_reach_their_limits() {
    let mut counts = BTreeMap::new();
    for index in 0..12_000 {
        let request = common::generated(Call::Recheck, 15, index);
        let [text, list, _] = &request.inputs;
        let Answer::Summary(summary) = summarize(text, list) else {
            continue;
        };
        let keys = key_list(list).expect("a good list");
        let reached = match request.change() {
            None => "malformed",
            Some((_, change)) => match conforming(&change.old, &change.new, &keys) {
                Ok((old, new)) => difference(summary, &old, &new, &keys),
                Err(what) => what,
            },
        };
        *counts.entry(reached).or_insert(0) += 1;
    }
    assert_eq!(counts.len(), 14, "{counts:?}");
    for (reached, count) in counts {
        assert!(count >= 15, "{reached}: {count}");
    }
}

/// Whatever is judged from the text is judged alike from its blocks, and from those
/// that were made of it before there were skips, which run to their end.
#[test]
fn translations_mean_what_their_texts_mean() {
    let mut settled = 0;
    for index in 0..6_000 {
        let case = cases::case(4, index);
        let [text, list, entry] = &case.inputs;
        let from_text = judge(text, list, entry);
        let mut buffer = vec![0; MOST_BLOCKS * BLOCK];
        let Answer::Translated(count) = translate(text, list, &mut buffer) else {
            continue;
        };
        let blocks = &buffer[..bytes_needed(count)];
        assert_eq!(load(list, blocks), Answer::Loaded(count));
        assert_eq!(common::without_steps(run(list, blocks, entry)), from_text);
        let code: Vec<Parts> = all_parts(blocks, count).collect();
        let older = skips::without(&code);
        let answer = run(list, &blocks_of(&older, list.len() / Key::SIZE), entry);
        assert_eq!(common::without_steps(answer), from_text);
        if let Answer::Ran(outcome) = answer {
            assert_eq!(outcome.steps, older.len());
        }
        settled += 1;
    }
    assert!(settled > 1_500, "{settled}");
}

#[test]
fn the_marked_scene_is_document_01s() {
    let keys = snippets::marked_keys();
    assert_eq!(list_bytes(&keys), common::list());
    assert_eq!(snippets::marked_entry().to_bytes(), common::entry());
    let lent: Vec<Key> = keys.iter().map(NamedKey::key).collect();
    assert_eq!(lent.len(), 5);
}
