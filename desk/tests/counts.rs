//! Counting the entries of a file, as document 02 m asks for it.

mod common;

use common::*;
use desk::reference::counting::{output, MOST_ENTRIES};
use desk::reference::{count, judge, Counts};
use desk::requests::{Call, Request};

/// Readable entries of document 01's keys in bytes, laid end to end.
fn file(entries: &[&str]) -> Vec<u8> {
    entries
        .iter()
        .flat_map(|entry| entry_of(KEYS, entry))
        .collect()
}

/// Entries of no keys: only priorities.
fn priorities(all: &[u32]) -> Vec<u8> {
    all.iter()
        .flat_map(|priority| priority.to_be_bytes())
        .collect()
}

/// The numbers of the parts of a text for document 01's entry.
fn parts_of(text: &str) -> Vec<usize> {
    count(text.as_bytes(), &list(), &entry())
        .expect("a good text")
        .parts
}

#[test]
fn document_02s_example() {
    let entries = [entry(), entry(), vec![0xff; 3]].concat();
    let wanted = "part 1 0\npart 2 2\naccepted 0\nviolated 2\nrefused 0\ncut 3\n";
    assert_eq!(counting("v == 1; ::priority < 10", &entries), wanted);
    let request = Request::new(
        Call::Count,
        b"v == 1; ::priority < 10".to_vec(),
        list(),
        entries,
    );
    assert_eq!(request.answer_line(), "counted 0 2 0 3 0 2");
}

/// The last line stands only where an entry is cut.
#[test]
fn no_cut_no_line() {
    let wanted = "part 1 0\npart 2 2\naccepted 0\nviolated 2\nrefused 0\n";
    let entries = [entry(), entry()].concat();
    assert_eq!(counting("v == 1; ::priority < 10", &entries), wanted);
}

/// M1: each part is counted on its own, not only the first false one.
#[test]
fn parts_count_on_their_own() {
    for (text, wanted) in [
        ("false; false", vec![1, 1]),
        ("false; true; false", vec![1, 0, 1]),
        ("true; true", vec![0, 0]),
        ("::priority == 11; v == 1; ::priority < 10;", vec![1, 0, 1]),
        // A condition that is false for all, and one behind it that rests on it.
        ("v == 0; v == 0 -> false", vec![1, 0]),
    ] {
        assert_eq!(parts_of(text), wanted, "{text}");
    }
}

/// Parts as an explanation knows them: parentheses hide signs, and the last divides
/// nothing.
#[test]
fn parts_go_by_the_text() {
    for (text, wanted) in [
        ("false", vec![1]),
        ("false;", vec![1]),
        ("(true; false); true", vec![1, 0]),
        ("true; (false; true)", vec![0, 1]),
        ("(false; false)", vec![1]),
        ("(false; false);", vec![1]),
        ("((true; false); true); false;", vec![1, 1]),
        ("true; false; true", vec![0, 1, 0]),
        ("true // ; false\n", vec![0]),
        ("true && false; true || false", vec![1, 0]),
    ] {
        assert_eq!(parts_of(text), wanted, "{text}");
    }
}

#[test]
fn entries_are_counted_by_their_judgement() {
    let entries = file(&[
        "priority 1; v 1",
        "priority 10; v 0",
        "priority 10; v 1",
        "priority 3; v 0",
        // Refused: at the priority, and at records.
        "priority 0x80000000; v 1",
        "priority 1",
        "priority 10; v 0; d 1 &&& 2",
    ]);
    let wanted = "part 1 2\npart 2 2\naccepted 1\nviolated 3\nrefused 3\n";
    assert_eq!(counting("v == 1; ::priority < 10", &entries), wanted);
    let wanted = "part 1 0\naccepted 4\nviolated 0\nrefused 3\n";
    assert_eq!(counting("true", &entries), wanted);
    let wanted = "part 1 4\naccepted 0\nviolated 4\nrefused 3\n";
    assert_eq!(counting("false", &entries), wanted);
}

/// A refused entry enters no part, even if each is false whatever the entry says.
#[test]
fn refused_entries_enter_no_part() {
    let entries = file(&["priority 0", "priority 0x80000000; v 1", "v 1; p 1/2"]);
    let wanted = "part 1 0\npart 2 0\naccepted 0\nviolated 0\nrefused 3\n";
    assert_eq!(counting("false; false", &entries), wanted);
}

/// Entries that leave out a key that must be present are refused; a range of one port
/// is not.
#[test]
fn refused_by_the_rules_of_today() {
    let keys = "r range 16 required\nd ternary 8";
    let entries = ["d 1", "r 443..443", "r 2..1", "r 0..65535; d 2"]
        .map(|entry| entry_of(keys, entry))
        .concat();
    let counts = count(b"d::value == 0", &list_of(keys), &entries).expect("a good text");
    let wanted = Counts {
        parts: vec![1],
        accepted: 1,
        violated: 1,
        refused: 2,
        cut: 0,
    };
    assert_eq!(counts, wanted);
}

/// M4: an empty file.
#[test]
fn no_entries() {
    let wanted = "part 1 0\npart 2 0\naccepted 0\nviolated 0\nrefused 0\n";
    assert_eq!(counting("false; v == 1", &[]), wanted);
    assert_eq!(counting_without_keys("false; true", &[]), wanted);
}

/// M4: entries of 4 bytes where there are no keys.
#[test]
fn no_keys() {
    let entries = priorities(&[0, 9, 10, 11, 1 << 31, u32::MAX, (1 << 31) - 1]);
    let wanted = "part 1 3\npart 2 4\naccepted 0\nviolated 5\nrefused 2\n";
    let text = "::priority < 10; ::priority == 10";
    assert_eq!(counting_without_keys(text, &entries), wanted);
    for cut in 1..4 {
        let entries = [&entries[..], &[0; 3][..cut]].concat();
        let wanted = format!("{wanted}cut {cut}\n");
        assert_eq!(counting_without_keys(text, &entries), wanted);
    }
}

/// The cut entry, at whatever place, enters no total, and its length is counted in bytes.
#[test]
fn a_cut_entry_enters_no_total() {
    let size = entry().len();
    for whole in 0..3 {
        let entries = entry().repeat(whole);
        for length in 1..size {
            for byte in [0, 0xff] {
                let entries = [entries.clone(), vec![byte; length]].concat();
                let wanted = format!(
                    "part 1 {whole}\naccepted 0\nviolated {whole}\nrefused 0\ncut {length}\n"
                );
                assert_eq!(counting("false", &entries), wanted);
            }
        }
        // One byte more, and it is a whole one.
        let entries = [entries, vec![0xff; size]].concat();
        let wanted = format!("part 1 {whole}\naccepted 0\nviolated {whole}\nrefused 1\n");
        assert_eq!(counting("false", &entries), wanted);
    }
}

/// M3: a million whole entries are counted, and one more is too many.
#[test]
fn a_million_entries() {
    let text = "::priority < 10; true; false";
    let mut entries = priorities(&[3, 30, 1 << 31, 10]).repeat(MOST_ENTRIES / 4);
    let counted = "part 1 500000\npart 2 0\npart 3 750000\n\
                   accepted 0\nviolated 750000\nrefused 250000\n";
    assert_eq!(counting_without_keys(text, &entries), counted);
    for cut in 1..4 {
        entries.push(0);
        let wanted = format!("{counted}cut {cut}\n");
        assert_eq!(counting_without_keys(text, &entries), wanted);
    }
    for _ in 0..6 {
        // With entry 1,000,001 whole, and with entry 1,000,002 cut or whole.
        entries.push(0);
        assert_eq!(counting_without_keys(text, &entries), "refusal 25\n");
        let refused = count(text.as_bytes(), &[], &entries).expect_err("too many");
        assert_eq!(short(refused.into()), "25 entry 4000000");
    }
}

/// With keys an entry is longer, and so is the most that is counted.
#[test]
fn a_million_entries_with_a_key() {
    const SIZE: usize = 4 + 36;
    let list = list_of("v exact 1");
    let mut entries = vec![0; (MOST_ENTRIES + 1) * SIZE];
    let refused = count(b"true", &list, &entries).expect_err("too many");
    assert_eq!(short(refused.into()), "25 entry 40000000");
    entries.pop();
    // All of them leave out their exact key.
    let wanted = Counts {
        parts: vec![0],
        refused: MOST_ENTRIES,
        cut: SIZE - 1,
        ..Counts::default()
    };
    assert_eq!(count(b"true", &list, &entries), Ok(wanted));
}

/// M2, M7 and R2: a refused list or text gives its number and its offset alone, also
/// where there are too many entries.
#[test]
fn refusals_of_text_and_list_come_first() {
    let too_many = vec![0; (MOST_ENTRIES + 1) * 4];
    let long = " ".repeat(4097);
    let short_list = vec![0; 3];
    let bad_record = [list(), vec![0; 80]].concat();
    let twice = list_of("v exact 1").repeat(2);
    for (text, list, wanted) in [
        (&long[..], &short_list, "refusal 1 4096\n"),
        ("@", &short_list, "refusal 2 3\n"),
        ("@", &bad_record, "refusal 3 400\n"),
        ("@", &twice, "refusal 4 80\n"),
        ("true; @", &list(), "refusal 5 6\n"),
        (
            "v == 0x1ffffffffffffffffffffffffffffffff",
            &list(),
            "refusal 6 5\n",
        ),
        ("", &list(), "refusal 8 0\n"),
        ("true; v == 0o1", &list(), "refusal 22 11\n"),
        ("true; zz", &list(), "refusal 11 6\n"),
        ("true; d::x == 1", &list(), "refusal 12 9\n"),
        ("true; d > 3", &list(), "refusal 13 8\n"),
        ("true; d == 256", &list(), "refusal 23 11\n"),
        ("1", &list(), "refusal 14 0\n"),
        ("true;;", &list(), "refusal 8 5\n"),
    ] {
        for entries in [&[][..], &entry(), &too_many] {
            let counted = count(text.as_bytes(), list, entries);
            assert_eq!(output(&counted), wanted, "{text}");
        }
    }
}

/// M5: an entry of the file gets no 19, though it would by itself.
#[test]
fn entries_are_never_too_short() {
    let entries = [entry(), entry()[..100].to_vec()].concat();
    assert_eq!(short(judge(b"true", &list(), &entries)), "19 entry 284");
    let wanted = "part 1 0\naccepted 1\nviolated 0\nrefused 0\ncut 100\n";
    assert_eq!(counting("true", &entries), wanted);
}

/// As many parts as there may be, each with its own number.
#[test]
fn as_many_parts_as_there_may_be() {
    let entries = priorities(&[1, 2, 1 << 31]);
    for sign in ["", ";"] {
        let words: Vec<String> = (0..512).map(|index| (index % 3 > 0).to_string()).collect();
        let text = words.join(";") + sign;
        let counts = count(text.as_bytes(), &[], &entries).expect("a good text");
        let wanted: Vec<usize> = (0..512)
            .map(|index| 2 * usize::from(index % 3 == 0))
            .collect();
        assert_eq!(counts.parts, wanted);
        assert_eq!(
            (counts.accepted, counts.violated, counts.refused),
            (0, 2, 1)
        );
        let lines = counting_without_keys(&text, &entries);
        assert!(lines.starts_with("part 1 2\npart 2 0\npart 3 0\npart 4 2\n"));
        assert!(
            lines.contains("part 511 2\npart 512 0\naccepted 0\n"),
            "{lines}"
        );
    }
    let text = "true;".repeat(512) + "true";
    assert_eq!(counting_without_keys(text, &entries), "refusal 7 2560\n");
}

/// A part that is false for all, one for some and one for none.
#[test]
fn parts_of_their_own_keys() {
    let entries = file(&["v 0; r 80..443", "v 1; r 80..443", "v 1; r 1..2"]);
    let text = "v == 1; r::low == 80; d::mask == 0; o == 1; ::priority == 0;";
    let wanted = "part 1 1\npart 2 1\npart 3 0\npart 4 3\npart 5 0\n\
                  accepted 0\nviolated 3\nrefused 0\n";
    assert_eq!(counting(text, &entries), wanted);
}
