//! The tables of `examples/`: the reference answers for each entry what `expected.txt` says, from the text and from its blocks.

mod common;

use std::fs;
use std::path::{Path, PathBuf};

use common::*;
use desk::reference::contracts::clauses;
use desk::reference::entries::Entry;
use desk::reference::keys::key_list;
use desk::reference::{check, judge, pact, recheck, run, Answer, Rechecked};

struct Example {
    text: String,
    list: Vec<u8>,
    entries: Vec<Vec<u8>>,
    expected: Vec<String>,
}

fn folder(name: &str) -> PathBuf {
    let examples = concat!(env!("CARGO_MANIFEST_DIR"), "/../examples");
    Path::new(examples).join(name)
}

fn contents(name: &str, file: &str) -> String {
    let path = folder(name).join(file);
    fs::read_to_string(&path).unwrap_or_else(|error| panic!("{}: {error}", path.display()))
}

/// The entries in a file of an example, whether they conform or not.
fn entries_in(name: &str, file: &str) -> Vec<Vec<u8>> {
    let keys = contents(name, "keys.txt");
    let size = 4 + 36 * (list_of(&keys).len() / 80);
    let packed = entry_of(&keys, &contents(name, file));
    packed.chunks(size).map(<[u8]>::to_vec).collect()
}

fn example(name: &str) -> Example {
    Example {
        text: contents(name, "restriction.p4c"),
        list: list_of(&contents(name, "keys.txt")),
        entries: entries_in(name, "entries.txt"),
        expected: contents(name, "expected.txt")
            .lines()
            .map(str::to_string)
            .collect(),
    }
}

fn answers(example: &Example, ask: impl Fn(&[u8]) -> Answer) -> Vec<String> {
    example
        .entries
        .iter()
        .map(|entry| ask(entry).to_string())
        .collect()
}

fn answers_as_expected(name: &str) {
    let example = example(name);
    let Example {
        text,
        list,
        expected,
        ..
    } = &example;
    assert_eq!(check(text.as_bytes(), list).to_string(), "passed");
    let judged = answers(&example, |entry| judge(text.as_bytes(), list, entry));
    assert_eq!(judged.join("\n"), expected.join("\n"));
    let blocks = translated(text, list);
    let ran = answers(&example, |entry| without_steps(run(list, &blocks, entry)));
    assert_eq!(ran, judged);
    for kind in ["accepted", "violated", "refused 20 "] {
        assert!(
            judged.iter().any(|line| line.starts_with(kind)),
            "no entry is {kind}"
        );
    }
}

#[test]
fn ipv6_routing() {
    answers_as_expected("ipv6-routing");
}

#[test]
fn acl() {
    answers_as_expected("acl");
}

#[test]
fn uplink() {
    answers_as_expected("uplink");
}

#[test]
fn terms() {
    answers_as_expected("terms");
}

/// The text of `terms/` is that of its contract, and each entry gets the answer that the
/// contract itself gives its inputs.
#[test]
fn terms_of_a_contract() {
    let Example {
        text,
        list,
        entries,
        ..
    } = example("terms");
    let contract = fs::read(folder("terms").join("contract")).expect("a contract");
    let table: Vec<u64> = contents("terms", "table.txt")
        .lines()
        .map(|line| line.parse().expect("a number"))
        .collect();
    assert_eq!(drafting(&contract, &table, &list), text);
    let keys = key_list(&list).expect("good keys");
    let clauses = clauses(&contract, keys.len(), table.len()).expect("a good contract");
    let mut conforming = 0;
    for entry in &entries {
        if let Ok(read) = Entry::from_bytes(entry, &keys) {
            let inputs = read.records.iter().map(|record| record.first);
            let inputs: Vec<u64> = inputs.map(|input| input as u64).collect();
            let holds = desk::reference::pact::holds(&clauses, &inputs, &table);
            let wanted = if holds { "A" } else { "V" };
            assert_eq!(short(judge(text.as_bytes(), &list, entry)), wanted);
            conforming += 1;
        }
    }
    assert!(conforming > 10);
    let mut short_buffer = vec![0; text.len() - 1];
    let answer = pact(&contract, &table, &list, &mut short_buffer);
    assert_eq!(short(answer), format!("21 buffer {}", text.len() - 1));
}

/// After a day's edit each entry gets the answer in `rechecked.txt`, the same as by
/// a fresh judgement, and is reused where that says so.
#[test]
fn a_days_edit() {
    let name = "ipv6-routing";
    let Example {
        text,
        list,
        entries,
        ..
    } = example(name);
    let edited = entries_in(name, "edited.txt");
    assert_eq!(edited.len(), entries.len());
    let (mut said, mut reused) = (Vec::new(), 0);
    for (number, (old, new)) in (1..).zip(entries.iter().zip(&edited)) {
        let earlier = judge(text.as_bytes(), &list, old);
        let rechecked = recheck(text.as_bytes(), &list, old, earlier, new);
        let answer = rechecked.answer();
        assert_eq!(answer, judge(text.as_bytes(), &list, new));
        let again = matches!(rechecked, Rechecked::Reused(_));
        reused += usize::from(again);
        let word = answer.to_string();
        let word = word.split(' ').next().expect("a word");
        let how = if again { "reused" } else { "judged" };
        said.push(format!("{word} entry {number}, {how}"));
    }
    let expected = contents(name, "rechecked.txt");
    let lines: Vec<&str> = expected.lines().collect();
    for (said, wanted) in said.iter().zip(&lines) {
        assert_eq!(said, wanted.split(':').next().expect("a line"));
    }
    let counts = format!("{reused} reused, {} judged", edited.len() - reused);
    assert_eq!(lines[edited.len() + 1..], [counts]);
}
