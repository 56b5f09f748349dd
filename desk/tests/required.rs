//! Keys that must be present: the flag of a key record, and entries that leave such
//! a key out.

mod common;

use common::*;
use desk::reference::keys::Key;
use desk::reference::{check, explain, judge, recheck, summarize, translate, Answer};

const A: Answer = Answer::Accepted;
/// Every byte that is no flag.
const NO_FLAGS: std::ops::RangeInclusive<u8> = 2..=255;

/// A key of each kind, and an entry of it that does not match everything.
const KINDS: [(&str, &str); 5] = [
    ("k exact 8", "k 5"),
    ("k ternary 8", "k 5"),
    ("k lpm 8", "k 0x80/1"),
    ("k range 8", "k 5..6"),
    ("k optional 8", "k 5"),
];

/// What spells out that a key is absent, for each kind that may be.
const SPELLED_OUT: [(&str, &str); 4] = [
    ("k ternary 8", "k 0 &&& 0"),
    ("k lpm 8", "k 0/0"),
    ("k range 8", "k 0..255"),
    ("k optional 8", "k 0 &&& 0"),
];

/// Document 01's list with this byte in record 1, that of d.
fn list_with(place: usize, byte: u8) -> Vec<u8> {
    let mut list = list();
    list[Key::SIZE + place] = byte;
    list
}

fn required(key: &str) -> String {
    format!("{key} required")
}

#[test]
fn flags_of_every_kind() {
    for (key, _) in KINDS {
        let mut list = list_of(key);
        assert_eq!(list[Key::FLAG], 0);
        assert_eq!(short(check(b"true", &list)), "passed", "{key}");
        list[Key::FLAG] = 1;
        assert_eq!(list, list_of(&required(key)));
        assert_eq!(short(check(b"true", &list)), "passed", "{key}");
        for byte in NO_FLAGS {
            list[Key::FLAG] = byte;
            assert_eq!(short(check(b"true", &list)), "3 list 0", "{key}: {byte}");
        }
    }
}

/// Whatever the flag is, bytes 4 to 15 are zero.
#[test]
fn the_bytes_after_the_flag_stay_zero() {
    for flag in [0, 1] {
        for place in 4..16 {
            for byte in [1, 128, 255] {
                let mut list = list_with(place, byte);
                list[Key::SIZE + Key::FLAG] = flag;
                let answer = short(check(b"true", &list));
                assert_eq!(answer, "3 list 80", "byte {place} is {byte}");
            }
        }
    }
}

/// 3 before 4 at one record; at two, the earlier.
#[test]
fn a_wrong_flag_beside_a_repeated_name() {
    let twice = [list_of("d lpm 8\nk exact 1"), list_of("d lpm 8")].concat();
    let checked = |record: usize, flag: u8| {
        let mut list = twice.clone();
        list[Key::SIZE * record + Key::FLAG] = flag;
        list.extend_from_slice(&list_with(Key::FLAG, 2)[80..160]);
        short(check(b"true", &list))
    };
    assert_eq!(checked(0, 1), "4 list 160");
    assert_eq!(checked(2, 1), "4 list 160");
    assert_eq!(checked(0, 2), "3 list 0");
    assert_eq!(checked(1, 2), "3 list 80");
    assert_eq!(checked(2, 2), "3 list 160");
}

/// The answers of all calls that take a list, with a good text, good blocks and
/// document 01's entry.
fn every_call(list: &[u8]) -> [String; 8] {
    let text = b"v == 1; d::mask != 0";
    let blocks = translated("v == 1", &common::list());
    [
        short(check(text, list)),
        short(judge(text, list, &entry())),
        short(translate(text, list, &mut [0; 512])),
        loading(list, &blocks),
        running(list, &blocks, &entry()),
        short_explanation(explain(text, list, &entry())),
        short(summarize(text, list)),
        short_recheck(recheck(text, list, &entry(), A, &entry())),
    ]
}

#[test]
fn every_call_reads_the_flag() {
    let before = every_call(&list());
    let good = "passed,A,translated 10,loaded 4,A 4,nothing A,summary 3 0 2,reused A";
    assert_eq!(before.join(","), good);
    // Document 01's entry has all keys but o.
    for index in 0..4 {
        let mut list = list();
        list[Key::SIZE * index + Key::FLAG] = 1;
        assert_eq!(every_call(&list), before, "key {index}");
    }
    let mut refused = ["3 list 80"; 8].map(str::to_string);
    refused[5] = "nothing 3 list 80".to_string();
    refused[7] = "judged 3 list 80".to_string();
    for byte in NO_FLAGS {
        assert_eq!(every_call(&list_with(Key::FLAG, byte)), refused, "{byte}");
    }
    for place in [4, 15] {
        assert_eq!(every_call(&list_with(place, 1)), refused, "byte {place}");
    }
}

/// What takes an entry refuses the one that leaves a required key out; what takes
/// none answers as before.
#[test]
fn every_call_with_an_entry_asks_for_the_key() {
    let mut list = list();
    list[Key::SIZE * 4 + Key::FLAG] = 1;
    let wanted = [
        "passed",
        "20 entry 148",
        "translated 10",
        "loaded 4",
        "20 entry 148",
        "key @148 336..337",
        "summary 3 0 2",
        "judged 20 entry 148",
    ];
    assert_eq!(every_call(&list), wanted);
}

/// Old lists have 0 there.
#[test]
fn a_key_without_the_flag_may_be_absent() {
    for (key, spelled) in SPELLED_OUT {
        assert_eq!(judging_on("true", key, "k *"), "A", "{key}");
        assert_eq!(judging_on("true", key, spelled), "A", "{key}");
    }
}

#[test]
fn a_required_key_must_be_present() {
    for (key, spelled) in SPELLED_OUT {
        let key = required(key);
        assert_eq!(judging_on("true", &key, "k *"), "20 entry 4", "{key}");
        assert_eq!(judging_on("false", &key, "k *"), "20 entry 4", "{key}");
        // A present record that matches everything is allowed all the same.
        assert_eq!(judging_on("true", &key, spelled), "A", "{key}");
        assert_eq!(judging_on("false", &key, spelled), "V", "{key}");
    }
    for (key, given) in KINDS {
        assert_eq!(judging_on("true", &required(key), given), "A", "{key}");
    }
}

/// Spelled out, a required key reads as an absent one that is not required.
#[test]
fn a_required_key_reads_as_others_do() {
    for (key, spelled) in SPELLED_OUT {
        for text in ["k == 0", "k == 5", "k == k", "!(k != k)"] {
            let absent = judging_on(text, key, "k *");
            assert_eq!(judging_on(text, key, spelled), absent, "{key}: {text}");
            let flagged = judging_on(text, &required(key), spelled);
            assert_eq!(flagged, absent, "{key}: {text}");
        }
    }
}

#[test]
fn the_flag_changes_nothing_for_an_exact_key() {
    for key in ["k exact 8", "k exact 8 required"] {
        assert_eq!(judging_on("true", key, "k *"), "20 entry 4", "{key}");
        assert_eq!(judging_on("k == 0", key, "k 0"), "A", "{key}");
        assert_eq!(judging_on("k == 0", key, "k 255"), "V", "{key}");
        assert_eq!(judging_on("true", key, "k 256"), "20 entry 4", "{key}");
    }
}

/// The other rules of a record hold, flag or no flag.
#[test]
fn a_required_record_keeps_its_other_rules() {
    let list = list_of("k lpm 8 required");
    let good = entry_of("k lpm 8", "k 0x80/1");
    assert_eq!(short(judge(b"true", &list, &good)), "A");
    for (place, byte) in [(0, 0), (0, 2), (0, 255), (1, 0), (1, 9), (2, 1), (35, 1)] {
        let mut entry = good.clone();
        entry[4 + place] = byte;
        let answer = short(judge(b"true", &list, &entry));
        assert_eq!(answer, "20 entry 4", "byte {place} is {byte}");
    }
}

#[test]
fn the_first_record_that_is_missing() {
    let keys = "a ternary 8 required\nb lpm 8\nc range 8 required\nd exact 8";
    let cases = [
        ("a 1; c 1; d 1", "A"),
        ("a 1; b 1; c 1; d 1", "A"),
        ("c 1; d 1", "20 entry 4"),
        ("d 1", "20 entry 4"),
        ("priority 1", "20 entry 4"),
        ("a 1; d 1", "20 entry 76"),
        ("a 1; b 1", "20 entry 76"),
        ("a 1; c 1", "20 entry 112"),
        // Another fault that stands earlier comes first, a later one does not.
        ("a 1; b 1/0; d 1", "20 entry 40"),
        ("b 1/0; c 1; d 1", "20 entry 4"),
    ];
    for (entry, wanted) in cases {
        assert_eq!(judging_on("true", keys, entry), wanted, "{entry}");
    }
}

/// At 4 + 36k for every k, where all keys are required.
#[test]
fn each_of_32_keys() {
    let lines = (0..Key::MOST).map(|index| format!("k{index} ternary 8 required\n"));
    let keys = lines.collect::<String>();
    let all: Vec<String> = (0..Key::MOST).map(|index| format!("k{index} 1")).collect();
    assert_eq!(judging_on("true", &keys, &all.join(";")), "A");
    for left_out in 0..Key::MOST {
        let mut given = all.clone();
        given.remove(left_out);
        let wanted = format!("20 entry {}", 4 + 36 * left_out);
        assert_eq!(judging_on("true", &keys, &given.join(";")), wanted);
    }
}

/// It lies earlier, and hides every record; a wrong length comes before both.
#[test]
fn a_bad_priority_and_a_wrong_length_come_first() {
    let keys = "k ternary 8 required";
    let judged = |entry| judging_on("true", keys, entry);
    assert_eq!(judged("priority 2147483647; k 1"), "A");
    assert_eq!(judged("priority 2147483647"), "20 entry 4");
    assert_eq!(judged("priority 2147483648"), "20 entry 0");
    let short_by_one = &entry_of(keys, "priority 2147483648")[..39];
    let answer = judge(b"true", &list_of(keys), short_by_one);
    assert_eq!(short(answer), "19 entry 39");
}

/// A text that is refused is refused before the entry is asked.
#[test]
fn a_bad_text_comes_first() {
    let keys = "k ternary 8 required";
    assert_eq!(judging_on("@", keys, "k *"), "5@0");
    assert_eq!(judging_on("z == 1", keys, "k *"), "11@0");
    assert_eq!(judging_on("1", keys, "k *"), "14@0");
}

#[test]
fn an_explanation_names_the_missing_key() {
    let keys = "port range 16 required\nipv6.dst lpm 128 required";
    let explained = |text: &[u8], entry| {
        let (list, entry) = (list_of(keys), entry_of(keys, entry));
        short_explanation(explain(text, &list, &entry))
    };
    assert_eq!(explained(b"true", "port 1"), "key @40 96..104");
    assert_eq!(explained(b"true", "ipv6.dst 1"), "key @4 16..20");
    // The first of two; whether a text names the key, or would be false, does not count.
    assert_eq!(explained(b"true", "port *"), "key @4 16..20");
    assert_eq!(explained(b"port == 1", "port 1"), "key @40 96..104");
    assert_eq!(explained(b"false", "port 1"), "key @40 96..104");
    let bad_priority = "priority 2147483648; port 1";
    assert_eq!(explained(b"true", bad_priority), "nothing 20 entry 0");
    let spelled = "port 0..65535; ipv6.dst ::/0";
    assert_eq!(explained(b"true", spelled), "nothing A");
    assert_eq!(explained(b"true; false", spelled), "part 2 @6 6..11");
}

/// An old entry that leaves the key out does not conform, so nothing is reused,
/// though the text does not name the key.
#[test]
fn a_recheck_asks_both_entries() {
    let (given, left_out) = ("v 1; d 3", "v 1");
    for (flag, old, new, wanted) in [
        ("", left_out, given, "reused A"),
        ("", given, left_out, "reused A"),
        ("", left_out, left_out, "reused A"),
        (" required", given, given, "reused A"),
        (" required", left_out, given, "judged A"),
        (" required", given, left_out, "judged 20 entry 40"),
        (" required", left_out, left_out, "judged 20 entry 40"),
    ] {
        let keys = format!("v exact 1\nd ternary 8{flag}");
        let (old, new) = (entry_of(&keys, old), entry_of(&keys, new));
        let again = recheck(b"v == 1", &list_of(&keys), &old, A, &new);
        assert_eq!(short_recheck(again), wanted, "{keys}");
    }
}

/// Blocks carry no flags: those of an old list load and run with the new one.
#[test]
fn blocks_are_the_same_with_and_without_flags() {
    let plain = "v exact 1\nd ternary 8\nr range 16";
    let flagged = "v exact 1 required\nd ternary 8 required\nr range 16 required";
    let text = "v == 1 && d::mask == 0 -> r::low < 5";
    let blocks = translated(text, &list_of(plain));
    assert_eq!(translated(text, &list_of(flagged)), blocks);
    let ran = |keys, entry| running(&list_of(keys), &blocks, &entry_of(keys, entry));
    let spelled = "v 1; d 0 &&& 0; r 0..65535";
    assert_eq!(ran(plain, "v 1"), ran(flagged, spelled));
    assert_eq!(ran(plain, spelled), ran(flagged, spelled));
    assert_eq!(ran(flagged, "v 1"), "20 entry 40");
    assert_eq!(ran(flagged, "v 1; d 1"), "20 entry 76");
}
