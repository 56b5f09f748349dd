//! Readable key lists and entries, there and back.

mod common;

use common::*;
use desk::generate::{entries, lists, rng::Rng};
use desk::lists::{list_bytes, NamedKey};
use desk::pack::entries::Rules;
use desk::pack::{entries_from_text, entries_to_text, keys_from_text, keys_to_text};
use desk::reference::keys::{key_list, Key};

fn key_problem(text: &str) -> String {
    keys_from_text(text.as_bytes()).unwrap_err().to_string()
}

fn entry_problem(keys: &str, text: &str) -> String {
    let keys = keys_from_text(keys.as_bytes()).expect("good keys");
    let packed = entries_from_text(text.as_bytes(), &keys, Rules::Kept);
    packed.unwrap_err().to_string()
}

#[test]
fn document_01_list_byte_for_byte() {
    let mut wanted = Vec::new();
    for (name, kind, width) in [
        (b'v', 0, 1),
        (b'd', 1, 8),
        (b'p', 2, 8),
        (b'r', 3, 16),
        (b'o', 4, 4),
    ] {
        let mut record = [0; 80];
        record[0] = 1;
        record[1] = kind;
        record[2] = width;
        record[16] = name;
        wanted.extend_from_slice(&record);
    }
    assert_eq!(list(), wanted);
}

#[test]
fn document_01_entry_byte_for_byte() {
    let mut wanted = vec![0; 4 + 36 * 5];
    wanted[3] = 10;
    // Present, prefix length, first number, second number.
    for (key, prefix_length, first, second) in [
        (0, 0, 1u16, 0u16),
        (1, 0, 0x20, 0xf0),
        (2, 2, 0xc0, 0),
        (3, 0, 80, 443),
    ] {
        let start = 4 + 36 * key;
        wanted[start] = 1;
        wanted[start + 1] = prefix_length;
        wanted[start + 18..start + 20].copy_from_slice(&first.to_be_bytes());
        wanted[start + 34..start + 36].copy_from_slice(&second.to_be_bytes());
    }
    assert_eq!(entry(), wanted);
}

#[test]
fn readable_forms_come_back() {
    let list = list();
    let keys = key_list(&list).expect("good list");
    assert_eq!(keys_to_text(&keys), KEYS);
    assert_eq!(
        entries_to_text(&entry(), &keys).unwrap(),
        format!("{ENTRY}\n")
    );
}

#[test]
fn key_lists_with_remarks_and_blanks() {
    let text = "# the table's keys\n\n  ipv6.dst\tlpm  128  # routes\r\n v exact 1";
    let keys = keys_from_text(text.as_bytes()).unwrap();
    let names: Vec<&[u8]> = keys.iter().map(|key| &key.name[..]).collect();
    assert_eq!(names, [&b"ipv6.dst"[..], b"v"]);
    assert_eq!((keys[0].width, keys[1].width), (128, 1));
    assert!(keys_from_text(b"").unwrap().is_empty());
}

/// The flag of every key, and the word that stands for it.
#[test]
fn required_keys_there_and_back() {
    for kind in ["exact", "ternary", "lpm", "range", "optional"] {
        for width in [1, 128] {
            let free = format!("ipv6.dst {kind} {width}\n");
            let required = format!("ipv6.dst {kind} {width} required\n");
            for (text, flag) in [(free, 0), (required, 1)] {
                let list = list_of(&text);
                assert_eq!(list[Key::FLAG], flag, "{text}");
                assert_eq!(keys_to_text(&key_list(&list).unwrap()), text);
            }
        }
    }
    let text = "a lpm 8 required  # a route\nb lpm 8  # required\n\tc\tlpm\t8\trequired\r\n";
    let keys = keys_from_text(text.as_bytes()).unwrap();
    let flags: Vec<u8> = keys.iter().map(|key| key.presence.byte()).collect();
    assert_eq!(flags, [1, 0, 1]);
    // The word names a key as well as any other.
    let text = "required lpm 8 required\n";
    assert_eq!(keys_to_text(&key_list(&list_of(text)).unwrap()), text);
}

/// A required key that is left out is refused by name, a spelled out one is not.
#[test]
fn required_keys_in_entries() {
    let keys = "v exact 1 required\nipv6.dst lpm 128 required\nr range 16 required\no optional 4";
    let cases = [
        ("v 1", "line 1: ipv6.dst: a required key must be given"),
        (
            "v 1; ipv6.dst *",
            "line 1: ipv6.dst: a required key must be given",
        ),
        (
            "v 1; ipv6.dst ::/0",
            "line 1: r: a required key must be given",
        ),
        ("v 1; r 1", "line 1: ipv6.dst: a required key must be given"),
        (
            "ipv6.dst ::/0; r 1",
            "line 1: v: an exact key must be given",
        ),
        (
            "\nv 1; r *; ipv6.dst ::/0",
            "line 2: r: a required key must be given",
        ),
        (
            "priority 2147483648",
            "line 1: priority 2147483648 is not below 2^31",
        ),
    ];
    for (text, wanted) in cases {
        assert_eq!(entry_problem(keys, text), wanted, "{text}");
    }
    let spelled = "v 1; ipv6.dst ::/0; r 0..65535";
    let named = keys_from_text(keys.as_bytes()).unwrap();
    let packed = entries_from_text(spelled.as_bytes(), &named, Rules::Kept).unwrap();
    let lent: Vec<Key> = named.iter().map(NamedKey::key).collect();
    assert_eq!(
        entries_to_text(&packed, &lent).unwrap(),
        "priority 0; v 1; ipv6.dst 0x0/0; r 0..65535; o *\n"
    );
}

/// An entry that leaves a required key out unpacks by an old list only.
#[test]
fn a_missing_key_does_not_unpack() {
    let unpacked = |keys: &str| {
        let (list, entry) = (list_of(keys), entry_of(keys, "v 1"));
        entries_to_text(&entry, &key_list(&list).unwrap())
    };
    assert_eq!(
        unpacked("v exact 1\nd lpm 8").unwrap(),
        "priority 0; v 1; d *\n"
    );
    assert_eq!(
        unpacked("v exact 1\nd lpm 8 required").unwrap_err(),
        "entry 1: the record of key d breaks its rule"
    );
}

#[test]
fn wrong_key_lists() {
    for (text, line) in [
        ("v exact", 1),
        ("\n\nv exact 1 1", 3),
        ("v required exact 1", 1),
        ("v exact 1 Required", 1),
        ("v exact 1 required required", 1),
        ("v exact 1 required 1", 1),
    ] {
        let wanted = "a line is a name, a kind and a width, and may end in required";
        assert_eq!(
            key_problem(text),
            format!("line {line}: {wanted}"),
            "{text}"
        );
    }
    assert_eq!(
        key_problem("v exact required"),
        "line 1: required is no width from 1 to 128"
    );
    assert_eq!(
        key_problem("v exakt 1"),
        "line 1: exakt is none of exact, ternary, lpm, range, optional"
    );
    assert_eq!(
        key_problem("v exact 0"),
        "line 1: 0 is no width from 1 to 128"
    );
    assert_eq!(
        key_problem("v exact 129"),
        "line 1: 129 is no width from 1 to 128"
    );
    assert_eq!(
        key_problem("v exact x"),
        "line 1: x is no width from 1 to 128"
    );
    assert_eq!(
        key_problem("true exact 1"),
        "line 1: true cannot name a key"
    );
    assert_eq!(
        key_problem("a..b exact 1"),
        "line 1: a..b cannot name a key"
    );
    assert_eq!(
        key_problem("v exact 1\nv lpm 8"),
        "line 2: v is named twice"
    );
    assert!(key_problem(&format!("{} exact 1", "n".repeat(65))).contains("over 64"));
    let many: String = (0..33).map(|i| format!("k{i} exact 1\n")).collect();
    assert_eq!(key_problem(&many), "line 33: a list has at most 32 keys");
    let bytes = keys_from_text(b"v exact 1\n\xff").unwrap_err();
    assert_eq!(bytes.to_string(), "line 2: not readable text");
}

#[test]
fn forms_of_numbers() {
    let keys = "a lpm 32\nb exact 48\nc lpm 128\nd ternary 16\ne range 32";
    let addresses = "a 10.0.0.0/8; b 00:1b:44:11:3a:b7; c fe80::/10; d 0b1010 &&& 0xff; \
                     e 10.0.0.1..10.0.0.9";
    let plain = "a 0x0a000000 / 8; b 0x1b44113ab7; c 0xfe800000000000000000000000000000/10; \
                 d 10 &&& 255; e 167772161 .. 167772169";
    assert_eq!(entry_of(keys, addresses), entry_of(keys, plain));
}

#[test]
fn short_forms() {
    let keys = "d ternary 8\no optional 4\np lpm 8\nr range 8";
    assert_eq!(
        entry_of(keys, "d 1; o 1; p 1; r 1"),
        entry_of(keys, "d 1 &&& 0xff; o 1 &&& 15; p 1/8; r 1..1")
    );
    assert_eq!(
        entry_of(keys, "priority 0"),
        entry_of(keys, "d *; o *; p *; r *;")
    );
    assert_eq!(
        entry_of(keys, "r 1..2; priority 7"),
        entry_of(keys, "priority 7; r 1..2")
    );
}

#[test]
fn a_key_called_priority() {
    let keys = "priority ternary 8";
    let entry = entry_of(keys, "::priority 7; priority 1 &&& 3");
    assert_eq!(
        judging_on(
            "::priority == 7 && priority::mask == 3",
            keys,
            "::priority 7; priority 1 &&& 3"
        ),
        "A"
    );
    let list = list_of(keys);
    let keys = key_list(&list).unwrap();
    let text = entries_to_text(&entry, &keys).unwrap();
    assert_eq!(text, "::priority 7; priority 0x1 &&& 0x3\n");
}

#[test]
fn wrong_entries() {
    let keys = "v exact 1\nd ternary 8\np lpm 8\nr range 16\no optional 4";
    let cases = [
        ("priority 0", "line 1: v: an exact key must be given"),
        ("# x\nv *", "line 2: v: an exact key must be given"),
        ("v 2", "line 1: v: 0x2 does not fit in 1 bits"),
        ("v 1; v 1", "line 1: v is given twice"),
        (
            "v 1; priority 1; priority 1",
            "line 1: priority is given twice",
        ),
        ("v 1; z 1", "line 1: the list has no key z"),
        ("v", "line 1: a number is missing"),
        ("v x", "line 1: x is not a number or an address"),
        ("v 1 1", "line 1: 1 1 is not a number or an address"),
        (
            "v 1; d 0x21 &&& 0xf0",
            "line 1: d: value 0x21 has a bit outside the mask 0xf0",
        ),
        ("v 1; d 1 &&&", "line 1: a number is missing"),
        (
            "v 1; o 0 &&& 1",
            "line 1: o: the mask of an optional key is 0 or all ones",
        ),
        (
            "v 1; p 0xc0/1",
            "line 1: p: value 0xc0 has a bit after its first 1",
        ),
        (
            "v 1; p 0/9",
            "line 1: p: prefix length 9 is over the width 8",
        ),
        ("v 1; p 0/256", "line 1: prefix length 256 is over 128"),
        ("v 1; r 444..443", "line 1: r: low 444 is above high 443"),
        (
            "v 1; r 1..65536",
            "line 1: r: 0x10000 does not fit in 16 bits",
        ),
        (
            "v 1; priority 2147483648",
            "line 1: priority 2147483648 is not below 2^31",
        ),
        (
            "v 1; priority 4294967296",
            "line 1: priority 4294967296 is not below 2^31",
        ),
        (
            "v 340282366920938463463374607431768211456",
            "line 1: 340282366920938463463374607431768211456 is above 2^128 - 1",
        ),
        (
            "v 0o1",
            "line 1: 0o1 is octal; write the number in decimal, binary or hex",
        ),
        ("v 0o8", "line 1: 0o8 is not a number or an address"),
    ];
    for (text, wanted) in cases {
        assert_eq!(entry_problem(keys, text), wanted, "{text}");
    }
}

#[test]
fn wrong_bytes_do_not_unpack() {
    let list = list();
    let keys = key_list(&list).unwrap();
    let problem = |bytes: &[u8]| entries_to_text(bytes, &keys).unwrap_err();
    assert_eq!(problem(&entry()[..100]), "entry 1 is cut: 100 of 184 bytes");
    let mut two = entry();
    two.extend_from_slice(&entry());
    two[184] = 0x80;
    assert_eq!(problem(&two), "entry 2: the priority breaks its rule");
    two[184] = 0;
    two[184 + 4 + 36 + 1] = 1;
    assert_eq!(
        problem(&two),
        "entry 2: the record of key d breaks its rule"
    );
}

/// Random lists and entries come back byte for byte.
#[test]
fn round_trips() {
    for index in 0..2_000 {
        let mut rng = Rng::for_item(11, index);
        let named = lists::good(&mut rng, 8);
        let list = list_bytes(&named);
        let text = keys_to_text(&key_list(&list).unwrap());
        assert_eq!(keys_from_text(text.as_bytes()).unwrap(), named);
        let keys: Vec<Key> = named.iter().map(NamedKey::key).collect();
        let entries: Vec<u8> = (0..3)
            .flat_map(|_| entries::good(&mut rng, &named).to_bytes())
            .collect();
        let text = entries_to_text(&entries, &keys).unwrap();
        let packed = entries_from_text(text.as_bytes(), &named, Rules::Kept);
        assert_eq!(packed.unwrap(), entries, "{text}");
    }
}
