//! What a flag changes and what it does not, for every generated request; and which
//! flags and missing keys the generated requests reach.

mod common;

use std::collections::BTreeMap;

use common::generated;
use desk::reference::entries::{Entry, Record};
use desk::reference::keys::{key_list, Key, Kind, Presence};
use desk::reference::{judge, run, Answer, Input};
use desk::requests::{Call, Request};

/// The calls that take a key list and no entry.
const WITHOUT_ENTRY: [Call; 4] = [Call::Check, Call::Translate, Call::Load, Call::Summarize];
/// The calls that take a key list and one entry, or several.
const WITH_ENTRY: [Call; 6] = [
    Call::Judge,
    Call::Run,
    Call::Explain,
    Call::Recheck,
    Call::Count,
    Call::RunAll,
];

/// More entries of a file are not looked at.
const FEW: usize = 10;

fn list_of(request: &Request) -> &[u8] {
    &request.inputs[request.input(Input::List).expect("a list")]
}

/// The entry of a request; of a change, the old one and the new one; of a file, its whole
/// ones, as far as there are a few.
fn entries_of(request: &Request) -> Vec<Vec<u8>> {
    if let Some((_, change)) = request.change() {
        return vec![change.old, change.new];
    }
    if let Some(entries) = request.entries() {
        let whole = entries.bytes(request).chunks_exact(entries.size);
        return whole.take(FEW).map(<[u8]>::to_vec).collect();
    }
    let index = request.input(Input::Entry);
    index.map_or(Vec::new(), |index| vec![request.inputs[index].clone()])
}

/// The same request with an old list, whose flags are all 0.
fn with_old_list(request: &Request) -> Request {
    let mut old = request.clone();
    let list = old.input(Input::List).expect("a list");
    for record in old.inputs[list].chunks_exact_mut(Key::SIZE) {
        record[Key::FLAG] = match record[Key::FLAG] {
            1 => 0,
            wrong => wrong,
        };
    }
    old
}

/// The keys that an entry of the right length leaves out though their flag is set.
fn missing(entry: &[u8], keys: &[Key]) -> Vec<usize> {
    if entry.len() != Entry::size(keys.len()) {
        return Vec::new();
    }
    (0..keys.len())
        .filter(|&index| keys[index].presence == Presence::Required)
        .filter(|&index| keys[index].kind != Kind::Exact && entry[Entry::size(index)] == 0)
        .collect()
}

/// The answer with the flags, from that with an old list: refused at the first key
/// that is missing, unless a refusal comes before that.
fn with_flags(old: Answer, missing: &[usize]) -> Answer {
    let Some(&first) = missing.first() else {
        return old;
    };
    let place = Entry::size(first);
    match old {
        Answer::Refused { number, .. } if number != 20 => old,
        Answer::Refused { offset, .. } if offset < place => old,
        _ => Answer::Refused {
            number: 20,
            input: Input::Entry,
            offset: place,
        },
    }
}

#[test]
fn flags_count_for_entries_alone() {
    for call in WITHOUT_ENTRY {
        for index in 0..2_000 {
            let request = generated(call, 31, index);
            let line = request.answer_line();
            assert_eq!(with_old_list(&request).answer_line(), line);
        }
    }
}

#[test]
fn flags_count_for_missing_keys_alone() {
    let mut changed = 0;
    for index in 0..4_000 {
        for (call, answer) in [
            (Call::Judge, judge as fn(&_, &_, &_) -> _),
            (Call::Run, run),
        ] {
            let request = generated(call, 32, index);
            let ask = |[first, second, third]: &[Vec<u8>; 3]| answer(first, second, third);
            let (new, old) = (ask(&request.inputs), ask(&with_old_list(&request).inputs));
            let keys = key_list(list_of(&request)).unwrap_or_default();
            let missing = missing(&entries_of(&request)[0], &keys);
            assert_eq!(new, with_flags(old, &missing));
            changed += usize::from(new != old);
        }
    }
    assert!(changed > 60, "{changed}");
}

/// With all keys there, a recheck is what it was; without, nothing is reused.
#[test]
fn flags_forbid_to_reuse() {
    let mut changed = 0;
    for index in 0..6_000 {
        let request = generated(Call::Recheck, 33, index);
        let (new, old) = (request.answer_line(), with_old_list(&request).answer_line());
        let keys = key_list(list_of(&request)).unwrap_or_default();
        let entries = entries_of(&request);
        if entries.iter().all(|entry| missing(entry, &keys).is_empty()) {
            assert_eq!(new, old);
        } else {
            assert!(new.starts_with("judged "), "{new}");
        }
        changed += usize::from(old.starts_with("reused") && new.starts_with("judged"));
    }
    assert!(changed > 60, "{changed}");
}

/// The fault of a list whose only fault is a flag or a byte after one.
fn fault_near_flag(list: &[u8]) -> Option<&'static str> {
    let refusal = key_list(list).err().filter(|refusal| refusal.number == 3)?;
    let mut repaired = list.to_vec();
    let record = &mut repaired[refusal.offset..][..Key::SIZE];
    let (flag, reserved) = (record[Key::FLAG], &record[Key::RESERVED..Key::NAME_START]);
    let fault = match reserved.iter().position(|&byte| byte != 0) {
        None if flag == 2 => "flag 2",
        None if flag == 255 => "flag 255",
        None if flag % 2 == 1 => "a flag with bit 0",
        None => "a flag without bit 0",
        Some(0) => "byte 4",
        Some(11) => "byte 15",
        Some(_) => "a byte between",
    };
    record[Key::FLAG..Key::NAME_START].fill(0);
    key_list(&repaired).is_ok().then_some(fault)
}

fn sort_of_list(list: &[u8]) -> &'static str {
    let Ok(keys) = key_list(list) else {
        return fault_near_flag(list).unwrap_or("another fault");
    };
    let flagged = |key: &&Key| key.presence == Presence::Required;
    match keys.iter().filter(flagged).count() {
        0 => "an old list",
        count if count == keys.len() => "all flagged",
        _ if keys.iter().find(flagged).map(|key| key.kind) == Some(Kind::Exact) => {
            "some flagged, an exact key first"
        }
        _ => "some flagged",
    }
}

/// Lists of every sort for every call, most of them good.
#[test]
fn lists_of_every_sort() {
    for call in WITHOUT_ENTRY.into_iter().chain(WITH_ENTRY) {
        let mut counts = BTreeMap::new();
        for index in 0..20_000 {
            let request = generated(call, 34, index);
            *counts.entry(sort_of_list(list_of(&request))).or_insert(0) += 1;
        }
        let name = call.name();
        assert_eq!(counts.len(), 12, "{name}: {counts:?}");
        assert!(
            counts.values().all(|&count| count >= 3),
            "{name}: {counts:?}"
        );
        for sort in ["an old list", "all flagged", "some flagged"] {
            assert!(counts[sort] > 1_200, "{name}: {counts:?}");
        }
    }
}

/// Does the entry spell out for a flagged key what an absent one reads as?
fn spells_out(entry: &Entry, keys: &[Key]) -> bool {
    let flagged = |key: &Key| key.presence == Presence::Required && key.kind != Kind::Exact;
    let mut all = entry.records.iter().zip(keys);
    all.any(|(record, key)| flagged(key) && *record == Record::ABSENT.reading(key))
}

fn sort_of_entry(entry: &[u8], keys: &[Key]) -> &'static str {
    let missing = missing(entry, keys);
    match (Entry::from_bytes(entry, keys), &missing[..]) {
        (Ok(entry), _) if spells_out(&entry, keys) => "spelled out",
        (Ok(_), _) => "conforming",
        (Err(_), []) => "another fault",
        (Err(refusal), _) if refusal.offset == 0 => "missing, under a bad priority",
        (Err(refusal), &[first, ..]) if refusal.offset != Entry::size(first) => {
            "missing, after another fault"
        }
        (Err(_), [_]) => "missing",
        (Err(_), _) => "several missing",
    }
}

/// Every call with an entry gets entries that leave required keys out, yet most
/// of its entries conform.
#[test]
fn entries_of_every_sort() {
    for call in WITH_ENTRY {
        let mut counts = BTreeMap::new();
        for index in 0..16_000 {
            let request = generated(call, 35, index);
            let Ok(keys) = key_list(list_of(&request)) else {
                continue;
            };
            for entry in entries_of(&request) {
                *counts.entry(sort_of_entry(&entry, &keys)).or_insert(0) += 1;
            }
        }
        let name = call.name();
        assert_eq!(counts.len(), 7, "{name}: {counts:?}");
        assert!(
            counts.values().all(|&count| count >= 4),
            "{name}: {counts:?}"
        );
        assert!(counts["missing"] >= 80, "{name}: {counts:?}");
        let conform = counts["conforming"] + counts["spelled out"];
        let all: usize = counts.values().sum();
        assert!(conform * 3 > all * 2, "{name}: {counts:?}");
    }
}
