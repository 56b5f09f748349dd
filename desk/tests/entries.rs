//! Key lists and entries: refusals 2, 3, 4, 19 and 20.

mod common;

use common::*;
use desk::reference::{check, judge};

fn list_check(list: &[u8]) -> String {
    short(check(b"true", list))
}

#[test]
fn list_lengths() {
    assert_eq!(list_check(&[]), "passed");
    assert_eq!(list_check(&list()[..399]), "2 list 399");
    let mut longer = list();
    longer.push(0);
    assert_eq!(list_check(&longer), "2 list 401");
    assert_eq!(list_check(&[0; 1]), "2 list 1");
}

#[test]
fn list_of_32_and_33_keys() {
    let keys = |count: usize| -> Vec<u8> {
        let names = (0..count).map(|i| format!("k{i} exact 8\n"));
        names.flat_map(|line| list_of(&line)).collect()
    };
    assert_eq!(list_check(&keys(32)), "passed");
    assert_eq!(list_check(&keys(33)), "2 list 2640");
}

#[test]
fn every_part_of_a_record() {
    let breakages: [(usize, u8); 16] = [
        (0, 0),
        (0, 2),
        (0, 65),
        (0, 255),
        (1, 5),
        (1, 255),
        (2, 0),
        (2, 129),
        (3, 2),
        (3, 255),
        (4, 1),
        (15, 1),
        (16, b'1'),
        (16, b'.'),
        (17, b'x'),
        (79, 1),
    ];
    for (place, byte) in breakages {
        let mut list = list();
        list[80 + place] = byte;
        assert_eq!(list_check(&list), "3 list 80", "byte {place} is {byte}");
    }
    for width in [1, 128] {
        let mut list = list();
        list[82] = width;
        assert_eq!(list_check(&list), "passed");
    }
}

fn named(name: &str) -> Vec<u8> {
    let mut record = vec![0; 80];
    record[0] = name.len() as u8;
    record[2] = 8;
    record[16..16 + name.len()].copy_from_slice(name.as_bytes());
    record
}

#[test]
fn names() {
    let long = "n".repeat(64);
    for good in [
        "true.x", "ipv4", "priority", "value", "_", "a.b.c", "True", "trues", &long,
    ] {
        assert_eq!(list_check(&named(good)), "passed", "{good}");
    }
    for bad in [
        "true", "false", "a.", ".a", "a..b", "a.1", "1a", "a-b", "a b", "a\n", "é",
    ] {
        assert_eq!(list_check(&named(bad)), "3 list 0", "{bad}");
    }
}

#[test]
fn repeated_names() {
    let mut list = list();
    list.extend_from_slice(&named("d"));
    assert_eq!(list_check(&list), "4 list 400");
    // A bad layout at an earlier record, or at the same one, comes first.
    let mut broken = list.clone();
    broken[401] = 9;
    assert_eq!(list_check(&broken), "3 list 400");
    let mut broken = list.clone();
    broken[321] = 9;
    assert_eq!(list_check(&broken), "3 list 320");
    // A later one does not.
    list.extend_from_slice(&[0; 80]);
    assert_eq!(list_check(&list), "4 list 400");
}

fn judge_true(entry: &[u8]) -> String {
    short(judge(b"true", &list(), entry))
}

#[test]
fn entry_lengths() {
    assert_eq!(judge_true(&entry()), "A");
    assert_eq!(judge_true(&entry()[..183]), "19 entry 183");
    let mut longer = entry();
    longer.push(0);
    assert_eq!(judge_true(&longer), "19 entry 185");
    assert_eq!(judge_true(&[]), "19 entry 0");
    assert_eq!(short(judge(b"true", &[], &[0; 4])), "A");
    assert_eq!(short(judge(b"true", &[], &[0; 5])), "19 entry 5");
}

#[test]
fn priorities() {
    let keys = "t ternary 8";
    let judged = |entry| judging_on("::priority == 2147483647", keys, entry);
    assert_eq!(judged("priority 2147483647"), "A");
    assert_eq!(judged("priority 2147483648"), "20 entry 0");
    // It hides every bad record.
    assert_eq!(judged("priority 2147483648; t 2 &&& 1"), "20 entry 0");
}

/// Each key alone: entries that conform, and entries that do not.
#[test]
fn rules_of_each_kind() {
    let good = [
        ("k exact 8", "k 0"),
        ("k exact 8", "k 255"),
        ("k exact 128", "k 340282366920938463463374607431768211455"),
        ("k ternary 8", "k *"),
        ("k ternary 8", "k 0 &&& 0"),
        ("k ternary 8", "k 0x20 &&& 0xf0"),
        ("k ternary 8", "k 255 &&& 255"),
        ("k ternary 1", "k 1 &&& 1"),
        ("k optional 4", "k *"),
        ("k optional 4", "k 0 &&& 0"),
        ("k optional 4", "k 5 &&& 15"),
        ("k optional 1", "k 0 &&& 1"),
        ("k optional 128", "k 7"),
        ("k lpm 8", "k *"),
        ("k lpm 8", "k 0/0"),
        ("k lpm 8", "k 0xc0/2"),
        ("k lpm 8", "k 0x80/2"),
        ("k lpm 8", "k 255/8"),
        ("k lpm 128", "k ffff::/128"),
        ("k lpm 128", "k 8000::/1"),
        ("k lpm 33", "k 0x100000000/1"),
        ("k lpm 128", "k ::1:0:0/96"),
        ("k lpm 128", "k ::1:0:0:0:0/64"),
        ("k lpm 128", "k 0:1::/32"),
        ("k range 16", "k *"),
        ("k range 16", "k 80..443"),
        ("k range 16", "k 443..443"),
        ("k range 16", "k 0..0"),
        ("k range 16", "k 0..65535"),
        ("k range 16", "k 65535..65535"),
        ("k range 1", "k 0..0"),
        ("k range 1", "k 0..1"),
        ("k range 1", "k 1..1"),
        ("k range 128", "k 340282366920938463463374607431768211455"),
    ];
    for (keys, entry) in good {
        assert_eq!(judging_on("true", keys, entry), "A", "{keys}: {entry}");
    }
    let bad = [
        ("k exact 8", "k *"),
        ("k exact 8", "k 256"),
        ("k exact 127", "k 340282366920938463463374607431768211455"),
        ("k ternary 8", "k 0x21 &&& 0xf0"),
        ("k ternary 8", "k 1 &&& 0"),
        ("k ternary 8", "k 0 &&& 256"),
        ("k ternary 8", "k 256 &&& 256"),
        ("k optional 4", "k 1 &&& 1"),
        ("k optional 4", "k 0 &&& 14"),
        ("k optional 4", "k 5 &&& 0"),
        ("k optional 4", "k 0 &&& 31"),
        ("k lpm 8", "k 0xc0/1"),
        ("k lpm 8", "k 1/0"),
        ("k lpm 8", "k 255/7"),
        ("k lpm 8", "k 0/9"),
        ("k lpm 8", "k 256/8"),
        ("k lpm 128", "k 0/129"),
        ("k lpm 128", "k ::1/127"),
        ("k lpm 33", "k 0x100000000/0"),
        ("k lpm 128", "k ::1:0:0/95"),
        ("k lpm 128", "k ::1:0:0:0:0/63"),
        ("k lpm 128", "k 0:1::/31"),
        ("k range 16", "k 444..443"),
        ("k range 16", "k 1..0"),
        ("k range 16", "k 65535..0"),
        ("k range 16", "k 0..65536"),
        ("k range 16", "k 65536..65536"),
        ("k range 1", "k 1..0"),
        (
            "k range 128",
            "k 340282366920938463463374607431768211455..340282366920938463463374607431768211454",
        ),
    ];
    for (keys, entry) in bad {
        assert_eq!(
            judging_on("true", keys, entry),
            "20 entry 4",
            "{keys}: {entry}"
        );
    }
}

/// Bytes that a kind has no use for must be zero, and so must the reserved
/// ones; an absent key has zeros only.
#[test]
fn unused_bytes_of_a_record() {
    let second = 35;
    let cases: [(&str, &str, usize, u8); 14] = [
        ("k exact 8", "k 1", 1, 1),
        ("k exact 8", "k 1", 2, 1),
        ("k exact 8", "k 1", 3, 1),
        ("k exact 8", "k 1", second, 1),
        ("k ternary 8", "k 1", 1, 8),
        ("k optional 8", "k 1", 1, 8),
        ("k range 8", "k 1..2", 1, 1),
        ("k lpm 8", "k 1", second, 255),
        ("k lpm 8", "k 1", 2, 1),
        ("k ternary 8", "k *", 1, 1),
        ("k ternary 8", "k *", second, 1),
        ("k range 8", "k *", second, 255),
        ("k ternary 8", "k 1", 0, 2),
        ("k ternary 8", "k 1", 0, 255),
    ];
    for (keys, line, place, byte) in cases {
        let mut entry = entry_of(keys, line);
        assert_eq!(short(judge(b"true", &list_of(keys), &entry)), "A");
        entry[4 + place] = byte;
        let answer = short(judge(b"true", &list_of(keys), &entry));
        assert_eq!(answer, "20 entry 4", "{keys}: {line}, byte {place}");
    }
}

#[test]
fn the_earliest_bad_record_is_named() {
    let mut entry = entry();
    entry[4 + 36 * 3] = 7;
    assert_eq!(judge_true(&entry), "20 entry 112");
    entry[4 + 36] = 7;
    assert_eq!(judge_true(&entry), "20 entry 40");
}

#[test]
fn absent_keys_read_as_the_widest_match() {
    let keys = "t ternary 8\no optional 4\np lpm 8\nr range 16";
    let text = "t::value == 0; t::mask == 0; o::value == 0; o::mask == 0; \
                p::value == 0; p::prefix_length == 0; r::low == 0; r::high == -1";
    let spelled_out = "t 0 &&& 0; o 0 &&& 0; p 0/0; r 0..65535";
    assert_eq!(judging_on(text, keys, "priority 0"), "A");
    assert_eq!(judging_on(text, keys, spelled_out), "A");
    // Both numbers 0 is another range than the absent one.
    assert_eq!(judging_on("r::high == 0", keys, "r 0..0"), "A");
}

/// A number meeting a range is the range of that one value, which an entry
/// may hold; 0 to 0 is one of them, and no absent key.
#[test]
fn a_range_of_one_port_equals_it() {
    let judged = |text, entry| judging_on(text, "r range 16", entry);
    for (entry, wanted) in [
        ("r 443..443", "A"),
        ("r 443..444", "V"),
        ("r 442..443", "V"),
        ("r 444..443", "20 entry 4"),
    ] {
        assert_eq!(judged("r == 443", entry), wanted, "{entry}");
    }
    assert_eq!(judged("r == 0", "r 0..0"), "A");
    assert_eq!(judged("r == 0", "r *"), "V");
    assert_eq!(judged("r != r::low", "r 443..443"), "V");
}
