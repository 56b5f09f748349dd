//! Rechecks: when the earlier answer is reused, and what is true of each answer.

mod common;

use common::*;
use desk::changes::Change;
use desk::reference::entries::{Entry, Record};
use desk::reference::keys::{key_list, Key};
use desk::reference::{check, judge, recheck, summarize, Answer, Rechecked, Summary};
use desk::requests::Call;

const A: Answer = Answer::Accepted;
const V: Answer = Answer::Violated;

/// The recheck of document 01's entry, accepted before, against another.
fn to(text: &str, new: &str) -> String {
    rechecking(text, ENTRY, A, new)
}

/// Document 01's entry with one item replaced.
fn with(item: &str, other: &str) -> String {
    assert!(ENTRY.contains(item));
    ENTRY.replace(item, other)
}

#[test]
fn equal_entries_are_reused() {
    for text in ["true", "v == 1", "v == 1; d::mask != 0; ::priority == 10"] {
        assert_eq!(to(text, ENTRY), "reused A", "{text}");
    }
}

/// Each key of document 01: named, it is judged anew; not named, it is not.
#[test]
fn a_record_counts_where_it_is_named() {
    for (text, item, other, named) in [
        ("v == 1", "v 1", "v 0", "judged V"),
        ("d::value == 0x20", "d 0x20", "d 0x30", "judged V"),
        ("p::value == 0xc0", "p 0xc0/2", "p 0x40/2", "judged V"),
        ("r::low == 80", "r 80..443", "r 81..443", "judged V"),
        ("o::mask == 0", "o *", "o 3", "judged V"),
        ("v::value >= 0", "v 1", "v 0", "judged A"),
    ] {
        let new = with(item, other);
        assert_eq!(to(text, &new), named, "{text}: {other}");
        assert_eq!(to("true", &new), "reused A", "{other}");
        assert_eq!(to("::priority == 10", &new), "reused A", "{other}");
    }
    // What the text names besides stays the same.
    let new = with("r 80..443", "r 1..2");
    assert_eq!(to("v == 1; d::mask != 0", &new), "reused A");
    assert_eq!(to("v == 1; r::low != 0", &new), "judged A");
}

/// Any of its 36 bytes: the value, the mask, the high, the prefix length alone.
#[test]
fn every_field_of_a_named_record_counts() {
    for (text, item, other) in [
        ("d::value == 0x20", "d 0x20 &&& 0xf0", "d 0x20 &&& 0xf1"),
        ("r::low == 80", "r 80..443", "r 80..444"),
        ("r::low == 80", "r 80..443", "r 80..32768"),
        ("p::value == 0xc0", "p 0xc0/2", "p 0xc0/3"),
    ] {
        assert_eq!(to(text, &with(item, other)), "judged A", "{other}");
    }
}

/// Absent and spelled out read alike, but are different records.
#[test]
fn absent_against_spelled_out() {
    let spelled = with("o *", "o 0 &&& 0");
    assert_eq!(to("o::mask == 0", &spelled), "judged A");
    assert_eq!(to("v == 1", &spelled), "reused A");
    assert_eq!(rechecking("o::mask == 0", &spelled, A, ENTRY), "judged A");
    assert_eq!(
        rechecking("o::mask == 0", &spelled, A, &spelled),
        "reused A"
    );
}

#[test]
fn the_priority_counts_where_it_is_named() {
    let lower = with("priority 10", "priority 9");
    assert_eq!(to("::priority < 10", &lower), "judged A");
    assert_eq!(to("v == 1; ::priority >= 0", &lower), "judged A");
    assert_eq!(to("v == 1", &lower), "reused A");
    assert_eq!(to("::priority < 10", ENTRY), "reused A");
    let highest = with("priority 10", "priority 2147483647");
    assert_eq!(to("v == 1", &highest), "reused A");
    assert_eq!(to("::priority < 10", &highest), "judged V");
}

/// Whatever it was, it is handed back as it is; and it plays no part elsewhere.
#[test]
fn the_earlier_answer_is_not_looked_at() {
    let refused = |number, offset| {
        let input = desk::reference::Input::Entry;
        Answer::Refused {
            number,
            input,
            offset,
        }
    };
    for (earlier, wanted) in [
        (A, "reused A"),
        (V, "reused V"),
        (refused(20, 0), "reused 20 entry 0"),
        (refused(19, 7), "reused 19 entry 7"),
    ] {
        assert_eq!(rechecking("v == 1", ENTRY, earlier, ENTRY), wanted);
        let new = with("v 1", "v 0");
        assert_eq!(rechecking("v == 1", ENTRY, earlier, &new), "judged V");
    }
}

/// The recheck of bytes by document 01's keys, accepted before.
fn on_bytes(text: &str, old: &[u8], new: &[u8]) -> String {
    short_recheck(recheck(text.as_bytes(), &list(), old, A, new))
}

/// The entry with one byte changed.
fn broken(place: usize, byte: u8) -> Vec<u8> {
    let mut entry = entry();
    entry[place] = byte;
    entry
}

/// An old entry that does not conform is never refused, and never reused.
#[test]
fn the_old_entry_is_never_refused() {
    let good = entry();
    for old in [
        broken(0, 0x80),
        broken(4, 2),
        broken(148 + 3, 1),
        good[..183].to_vec(),
        [&good[..], &[0]].concat(),
        Vec::new(),
    ] {
        assert_eq!(on_bytes("v == 1", &old, &good), "judged A");
        assert_eq!(on_bytes("true", &old, &good), "judged A");
    }
}

/// A new entry that does not conform is refused, though no named record differs,
/// and even where it is the old one.
#[test]
fn the_new_entry_is_refused_as_it_is_judged() {
    let good = entry();
    for (new, wanted) in [
        (broken(0, 0x80), "judged 20 entry 0"),
        (broken(4, 2), "judged 20 entry 4"),
        (broken(148 + 3, 1), "judged 20 entry 148"),
        (good[..183].to_vec(), "judged 19 entry 183"),
        ([&good[..], &[0]].concat(), "judged 19 entry 185"),
        (Vec::new(), "judged 19 entry 0"),
    ] {
        assert_eq!(on_bytes("true", &good, &new), wanted);
        assert_eq!(on_bytes("true", &new, &new), wanted);
        assert_eq!(on_bytes("d > 3", &new, &new), "judged 13@2");
    }
}

#[test]
fn refused_texts_and_lists_are_judged() {
    assert_eq!(to("d > 3", ENTRY), "judged 13@2");
    assert_eq!(to("v", ENTRY), "judged 14@0");
    assert_eq!(to("", ENTRY), "judged 8@0");
    let both = entry();
    let by = |list: &[u8]| short_recheck(recheck(b"true", list, &both, A, &both));
    assert_eq!(by(&[0; 3]), "judged 2 list 3");
    assert_eq!(by(&[0; 80]), "judged 3 list 0");
    assert_eq!(by(&[]), "judged 19 entry 184");
}

/// The last key of 32, and no key at all.
#[test]
fn the_last_of_32_keys_and_none() {
    let lines = (0..Key::MOST).map(|index| format!("k{index} ternary 8\n"));
    let list = list_of(&lines.collect::<String>());
    let old = vec![0; Entry::size(Key::MOST)];
    let mut new = old.clone();
    new[Entry::size(Key::MOST - 1)] = 1;
    let by = |text: &str| short_recheck(recheck(text.as_bytes(), &list, &old, V, &new));
    assert_eq!(by("k31 == 1"), "judged V");
    assert_eq!(by("k30 == 1"), "reused V");
    assert_eq!(by("k0 == 1; k30 == 1"), "reused V");
    assert_eq!(by("k31::mask == 0"), "judged A");
    let bare = |text: &str| short_recheck(recheck(text.as_bytes(), &[], &[0; 4], V, &[0, 0, 0, 1]));
    assert_eq!(bare("true"), "reused V");
    assert_eq!(bare("::priority == 1"), "judged A");
}

/// The third input is cut before the new entry: at its head, or in the old entry.
#[test]
fn changes_in_bytes() {
    let change = Change {
        earlier: 2,
        old: vec![1, 2, 3],
        new: vec![4],
    };
    let bytes = change.to_bytes();
    assert_eq!(bytes, [2, 0, 0, 0, 3, 1, 2, 3, 4]);
    assert_eq!(Change::from_bytes(&bytes), Some(change));
    for length in 0..8 {
        assert_eq!(Change::from_bytes(&bytes[..length]), None, "{length}");
    }
    assert!(Change::from_bytes(&bytes[..8]).is_some_and(|change| change.new.is_empty()));
    assert!(Change::from_bytes(&[9, 0, 0, 0, 0]).is_some());
    assert_eq!(Change::from_bytes(&[9, 0, 0, 0, 1]), None);
    assert_eq!(Change::from_bytes(&[9, 255, 255, 255, 255, 0]), None);
}

/// Both entries conform, and have the same bytes at each key that is named and,
/// if that is named, at the priority.
fn may_reuse(summary: Summary, list: &[u8], old: &[u8], new: &[u8]) -> bool {
    let conforms = |entry: &[u8]| judge(b"true", list, entry) == Answer::Accepted;
    let record = |index: usize| Entry::size(index)..Entry::size(index) + Record::SIZE;
    let keys = key_list(list).expect("a good list").len();
    conforms(old)
        && conforms(new)
        && (0..keys).all(|key| !summary.names(key) || old[record(key)] == new[record(key)])
        && (!summary.priority || old[..4] == new[..4])
}

/// Reused exactly when it may be; and the answer of a recheck is the judgement of
/// the new entry whenever the earlier answer is that of the old one.
#[test]
fn laws_of_generated_rechecks() {
    let (mut reused, mut different, mut judged, mut untrue) = (0, 0, 0, 0);
    for index in 0..6_000 {
        let request = generated(Call::Recheck, 14, index);
        let Some((_, change)) = request.change() else {
            continue;
        };
        let [text, list, _] = &request.inputs;
        let (old, new) = (&change.old, &change.new);
        let fresh = judge(text, list, new);
        let may = match summarize(text, list) {
            Answer::Summary(summary) => may_reuse(summary, list, old, new),
            refused => {
                assert_eq!(refused, check(text, list));
                false
            }
        };
        let earlier = change.earlier_answer();
        let shown = text.escape_ascii();
        let rechecked = recheck(text, list, old, earlier, new);
        if may {
            assert_eq!(rechecked, Rechecked::Reused(earlier), "{shown}");
            reused += 1;
            different += usize::from(old != new);
            untrue += usize::from(earlier != fresh);
        } else {
            assert_eq!(rechecked, Rechecked::Judged(fresh), "{shown}");
            judged += 1;
        }
        let true_answer = judge(text, list, old);
        let rechecked = recheck(text, list, old, true_answer, new);
        assert_eq!(rechecked.answer(), fresh, "{shown}");
    }
    assert!(reused > 1_500, "{reused}");
    assert!(different > 1_000, "{different}");
    assert!(judged > 1_500, "{judged}");
    assert!(untrue > 200, "{untrue}");
}
