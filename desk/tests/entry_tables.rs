//! Running the blocks on a whole table of entries.

mod common;

use common::code::{nots, plain, push_bool, skip_on, AND};
use common::*;
use desk::reference::blocks::{all_parts, blocks_of};
use desk::reference::code::Parts;
use desk::reference::{run, Answer, Outcome, Totals};

/// What the answers hold before.
const OLD: u8 = 0x5a;

const ACCEPTED: &str = "priority 1; v 1";
const VIOLATED: &str = "priority 1; v 0";
/// It leaves out its exact key.
const REFUSED: &str = "priority 1";

/// Readable entries of document 01's keys in bytes, laid end to end.
fn table(entries: &[&str]) -> Vec<u8> {
    entries
        .iter()
        .flat_map(|entry| entry_of(KEYS, entry))
        .collect()
}

/// Entries of no keys: only priorities.
fn priorities(all: impl IntoIterator<Item = u32>) -> Vec<u8> {
    all.into_iter().flat_map(u32::to_be_bytes).collect()
}

/// A table by the blocks of a text, with document 01's keys and so many answers.
fn running(text: &str, entries: &[u8], answers: usize) -> (String, Vec<u8>) {
    let list = list();
    running_all(
        &list,
        &translated(text, &list),
        entries,
        &vec![OLD; answers],
    )
}

/// The same words and bytes, to be compared with.
fn says(words: &str, bytes: &[u8]) -> (String, Vec<u8>) {
    (words.to_string(), bytes.to_vec())
}

#[test]
fn a_byte_for_each_entry() {
    let entries = table(&[ACCEPTED, VIOLATED, REFUSED, ACCEPTED]);
    assert_eq!(
        running("v == 1", &entries, 4),
        says("ran 4 12", &[1, 2, 0, 1])
    );
    assert_eq!(running("true", &entries, 4), says("ran 4 3", &[1, 1, 0, 1]));
    assert_eq!(
        running("false", &entries, 4),
        says("ran 4 3", &[2, 2, 0, 2])
    );
}

/// Document 01's entry, alone and again and again.
#[test]
fn document_01s_entry() {
    for count in 1..5 {
        let entries = entry().repeat(count);
        let wanted = format!("ran {count} {}", 4 * count);
        assert_eq!(
            running("v == 1", &entries, count),
            says(&wanted, &vec![1; count])
        );
    }
}

/// The steps are those that a run of each would tell, so that a skip that is taken for
/// one entry and not for another counts.
#[test]
fn steps_are_summed() {
    let entries = table(&[ACCEPTED, VIOLATED, REFUSED, VIOLATED]);
    let text = "v == 1 && ::priority < 10 && true";
    let (list, blocks) = (list(), translated(text, &list()));
    let steps: Vec<usize> = entries
        .chunks(entry().len())
        .map(|bytes| match run(&list, &blocks, bytes) {
            Answer::Ran(outcome) => outcome.steps,
            _ => 0,
        })
        .collect();
    assert_eq!(steps, [12, 6, 0, 6]);
    assert_eq!(running(text, &entries, 4), says("ran 4 24", &[1, 2, 0, 2]));
}

/// Blocks that were made before there were skips run to their end for each.
#[test]
fn older_blocks_run_to_their_end() {
    let entries = table(&[ACCEPTED, VIOLATED, REFUSED]);
    for count in [1, 25, 26, 3_075] {
        let blocks = blocks_of(&nots(count), 5);
        let byte = if count % 2 == 1 { 1 } else { 2 };
        let wanted = says(&format!("ran 3 {}", 2 * count), &[byte, byte, 0]);
        assert_eq!(running_all(&list(), &blocks, &entries, &[OLD; 3]), wanted);
    }
}

/// No value is left from one entry to the next, nor a bool that a skip changed.
#[test]
fn entries_do_not_touch_each_other() {
    // Whether the key is 1; if it is not, the bool becomes true and the end is reached.
    let mut code: Vec<Parts> = all_parts(&translated("v == 1", &list()), 4).collect();
    code.extend([skip_on(false, true, 2), push_bool(0), plain(AND)]);
    let blocks = blocks_of(&code, 5);
    for (one, byte, steps) in [(ACCEPTED, 2, 7), (VIOLATED, 1, 5)] {
        let alone = running_all(&list(), &blocks, &table(&[one]), &[OLD]);
        assert_eq!(alone, says(&format!("ran 1 {steps}"), &[byte]));
    }
    let entries = table(&[ACCEPTED, VIOLATED, VIOLATED, ACCEPTED, REFUSED, ACCEPTED]);
    let all = running_all(&list(), &blocks, &entries, &[OLD; 6]);
    assert_eq!(all, says("ran 6 31", &[2, 1, 1, 2, 0, 2]));
}

/// Nothing to run is no fault, with answers or without.
#[test]
fn no_entries() {
    for answers in [0, 1, 300] {
        let wanted = says("ran 0 0", &vec![OLD; answers]);
        assert_eq!(running("v == 1", &[], answers), wanted);
        let blocks = translated("true", &[]);
        let without_keys = running_all(&[], &blocks, &[], &vec![OLD; answers]);
        assert_eq!(without_keys, wanted);
    }
}

/// Later bytes stay, whatever they are.
#[test]
fn later_bytes_stay() {
    let entries = table(&[ACCEPTED, REFUSED]);
    for more in [1, 2, 100, 70_000] {
        let wanted = [vec![1, 0], vec![OLD; more]].concat();
        assert_eq!(
            running("v == 1", &entries, 2 + more),
            says("ran 2 4", &wanted)
        );
    }
    let blocks = translated("v == 1", &list());
    let old: Vec<u8> = (0..=255).collect();
    let (_, after) = running_all(&list(), &blocks, &entries, &old);
    assert_eq!(after, [&[1, 0], &old[2..]].concat());
}

/// What the bytes were before plays no part.
#[test]
fn earlier_bytes_are_written_over() {
    let entries = table(&[ACCEPTED, VIOLATED, REFUSED]);
    let blocks = translated("v == 1", &list());
    for old in 0..=255 {
        let all = running_all(&list(), &blocks, &entries, &[old; 3]);
        assert_eq!(all, says("ran 3 8", &[1, 2, 0]));
    }
}

/// One byte off any whole number of entries is 19 at the length, as is every other
/// length between; too few answers do not hide it.
#[test]
fn a_cut_entry_is_19() {
    let size = entry().len();
    let all = entry().repeat(3);
    for length in 0..=all.len() {
        let whole = length / size;
        for answers in [0, whole, whole + 1, 5] {
            let answered = running("v == 1", &all[..length], answers);
            let untouched = vec![OLD; answers];
            if length % size > 0 {
                let wanted = format!("19 entry {length}");
                assert_eq!(answered, says(&wanted, &untouched));
            } else if answers < whole {
                assert_eq!(answered, says("15 buffer 0", &untouched));
            } else {
                let wanted = [vec![1; whole], vec![OLD; answers - whole]].concat();
                let words = format!("ran {whole} {}", 4 * whole);
                assert_eq!(answered, says(&words, &wanted));
            }
        }
    }
}

/// The size of an entry goes by the number of keys.
#[test]
fn sizes_of_entries() {
    for keys in [0, 1, 2, 31, 32] {
        let named: String = (0..keys).map(|key| format!("k{key} range 8\n")).collect();
        let (list, size) = (list_of(&named), 4 + 36 * keys);
        let blocks = translated("true", &list);
        for count in [1, 2, 7] {
            let whole = count * size;
            for (length, wanted) in [
                (whole - 1, format!("19 entry {}", whole - 1)),
                (whole, format!("ran {count} {count}")),
                (whole + 1, format!("19 entry {}", whole + 1)),
            ] {
                let (said, _) = running_all(&list, &blocks, &vec![0; length], &[OLD; 7]);
                assert_eq!(said, wanted);
            }
        }
    }
}

/// Fewer answers than entries are 15 at their number; as many are enough.
#[test]
fn too_few_answers_are_15() {
    for count in [1, 2, 3, 40] {
        let entries = entry().repeat(count);
        for answers in 0..count {
            let wanted = format!("15 buffer {answers}");
            assert_eq!(
                running("v == 1", &entries, answers),
                says(&wanted, &vec![OLD; answers])
            );
        }
        let words = format!("ran {count} {}", 4 * count);
        for more in [0, 1, 9] {
            let wanted = [vec![1; count], vec![OLD; more]].concat();
            assert_eq!(
                running("v == 1", &entries, count + more),
                says(&words, &wanted)
            );
        }
    }
}

/// A refused entry needs its byte too.
#[test]
fn refused_entries_need_answers() {
    let entries = table(&[REFUSED, REFUSED]);
    assert_eq!(
        running("v == 1", &entries, 1),
        says("15 buffer 1", &[OLD; 1])
    );
    assert_eq!(running("v == 1", &entries, 2), says("ran 2 0", &[0, 0]));
}

/// A refused entry is a zero and takes no step, at whatever place it breaks which rule;
/// those behind it are run.
#[test]
fn refused_entries_do_not_stop_a_table() {
    for refused in [
        REFUSED,
        "priority 0x80000000; v 1",
        "v 1; d 1 &&& 2",
        "v 1; p 1/2",
        "v 1; r 2..1",
        "v 1; o 3 &&& 7",
    ] {
        let alone = running("v == 1", &table(&[refused]), 1);
        assert_eq!(alone, says("ran 1 0", &[0]), "{refused}");
        for place in 0..4 {
            let mut entries = vec![ACCEPTED, VIOLATED, ACCEPTED];
            entries.insert(place, refused);
            let mut bytes = vec![1, 2, 1];
            bytes.insert(place, 0);
            let all = running("v == 1", &table(&entries), 4);
            assert_eq!(all, says("ran 4 12", &bytes), "{refused}");
        }
    }
}

/// A key that must be present, as for every call with an entry.
#[test]
fn missing_keys_are_refused() {
    let keys = "r range 16 required\nd ternary 8";
    let entries = ["d 1", "r 443..443", "r 2..1", "r 0..65535; d 2"]
        .map(|entry| entry_of(keys, entry))
        .concat();
    let list = list_of(keys);
    let blocks = translated("d::value == 0", &list);
    let all = running_all(&list, &blocks, &entries, &[OLD; 5]);
    assert_eq!(all, says("ran 4 8", &[0, 1, 0, 2, OLD]));
}

/// Entries of 4 bytes where there are no keys, more of them than 16 bits can count.
#[test]
fn many_entries_without_keys() {
    const MANY: usize = 70_000;
    let entries = priorities((0..MANY).map(|index| match index % 3 {
        0 => 9,
        1 => 10,
        _ => 1 << 31,
    }));
    let blocks = translated("::priority < 10", &[]);
    let (said, after) = running_all(&[], &blocks, &entries, &[OLD; MANY + 1]);
    let conforming = MANY - MANY / 3;
    assert_eq!(said, format!("ran {MANY} {}", 3 * conforming));
    for (index, byte) in after.into_iter().enumerate() {
        let wanted = [1, 2, 0][index % 3];
        assert_eq!(byte, if index < MANY { wanted } else { OLD });
    }
    let (said, after) = running_all(&[], &blocks, &entries, &[OLD; MANY - 1]);
    assert_eq!(said, format!("15 buffer {}", MANY - 1));
    assert_eq!(after, [OLD; MANY - 1]);
}

/// The steps are summed modulo 2^64.
#[test]
fn sums_of_64_bits() {
    let ran = |steps: u64| {
        let (accepted, steps) = (true, steps as usize);
        Some(Outcome { accepted, steps })
    };
    let halves = [ran(1 << 63), None, ran(1 << 63)];
    for (outcomes, wanted) in [
        (&[][..], "ran 0 0"),
        (&[None, None], "ran 2 0"),
        (&halves[..2], "ran 2 9223372036854775808"),
        (&halves, "ran 3 0"),
        (&[ran(u64::MAX), None], "ran 2 18446744073709551615"),
        (&[ran(u64::MAX), ran(1)], "ran 2 0"),
        (&[ran(u64::MAX), ran(7), ran(u64::MAX)], "ran 3 5"),
        (&[ran(u64::from(u32::MAX)), ran(1)], "ran 2 4294967296"),
    ] {
        assert_eq!(Totals::of(outcomes).to_string(), wanted);
    }
}
