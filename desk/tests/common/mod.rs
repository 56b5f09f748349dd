//! What the tests share: document 01's keys and entry, and short notations.

#![allow(dead_code)]

pub mod code;

use desk::generate::{rng::Rng, scenes::Scene};
use desk::lists::list_bytes;
use desk::pack::entries::Rules;
use desk::pack::{entries_from_text, keys_from_text};
use desk::reference::blocks::{bytes_needed, BLOCK, MOST_BLOCKS};
use desk::reference::calls::LONGEST_TEXT;
use desk::reference::counting::output;
use desk::reference::{check, compare, count, explain, fix_octal, judge, load, pact};
use desk::reference::{print, read, recheck, run, run_all, summarize, translate};
use desk::reference::{Answer, Explanation, Input, Outcome, Rechecked};
use desk::requests::{Call, Request};

pub const KEYS: &str = "v exact 1\nd ternary 8\np lpm 8\nr range 16\no optional 4\n";
pub const ENTRY: &str = "priority 10; v 1; d 0x20 &&& 0xf0; p 0xc0/2; r 80..443; o *";

/// The bytes of a readable key list.
pub fn list_of(keys: &str) -> Vec<u8> {
    list_bytes(&keys_from_text(keys.as_bytes()).expect("good keys"))
}

/// The bytes of a readable entry, whether it conforms or not.
pub fn entry_of(keys: &str, entry: &str) -> Vec<u8> {
    let keys = keys_from_text(keys.as_bytes()).expect("good keys");
    entries_from_text(entry.as_bytes(), &keys, Rules::Ignored).expect("readable entry")
}

/// Document 01's key list.
pub fn list() -> Vec<u8> {
    list_of(KEYS)
}

/// Document 01's entry.
pub fn entry() -> Vec<u8> {
    entry_of(KEYS, ENTRY)
}

/// "A", "V", "A 4" for a run of 4 steps, "passed", "8@5" for a refusal in the
/// text, "19 entry 5" for another, and counts as they are.
pub fn short(answer: Answer) -> String {
    match answer {
        Answer::Accepted => "A".to_string(),
        Answer::Violated => "V".to_string(),
        Answer::Ran(Outcome { steps, .. }) => {
            format!("{} {steps}", short(without_steps(answer)))
        }
        Answer::Refused {
            number,
            input: Input::Text,
            offset,
        } => format!("{number}@{offset}"),
        Answer::Refused {
            number,
            input,
            offset,
        } => format!("{number} {input} {offset}"),
        counted => counted.to_string(),
    }
}

/// The judgement that a run comes to; any other answer as it is.
pub fn without_steps(answer: Answer) -> Answer {
    match answer {
        Answer::Ran(outcome) if outcome.accepted => Answer::Accepted,
        Answer::Ran(_) => Answer::Violated,
        other => other,
    }
}

pub fn reading(text: impl AsRef<[u8]>) -> String {
    short(read(text.as_ref()))
}

pub fn checking(text: impl AsRef<[u8]>) -> String {
    short(check(text.as_ref(), &list()))
}

pub fn checking_on(text: &str, keys: &str) -> String {
    short(check(text.as_bytes(), &list_of(keys)))
}

pub fn judging(text: impl AsRef<[u8]>) -> String {
    short(judge(text.as_ref(), &list(), &entry()))
}

pub fn judging_on(text: &str, keys: &str, entry: &str) -> String {
    let entry = entry_of(keys, entry);
    short(judge(text.as_bytes(), &list_of(keys), &entry))
}

pub fn loading(list: &[u8], blocks: &[u8]) -> String {
    short(load(list, blocks))
}

pub fn running(list: &[u8], blocks: &[u8], entry: &[u8]) -> String {
    short(run(list, blocks, entry))
}

/// What a run of a whole table says, and the answers after it.
pub fn running_all(
    list: &[u8],
    blocks: &[u8],
    entries: &[u8],
    answers: &[u8],
) -> (String, Vec<u8>) {
    let mut after = answers.to_vec();
    let answer = run_all(list, blocks, entries, &mut after);
    (short(answer), after)
}

/// The blocks of a text.
pub fn translated(text: &str, list: &[u8]) -> Vec<u8> {
    let mut buffer = vec![0; MOST_BLOCKS * BLOCK];
    match translate(text.as_bytes(), list, &mut buffer) {
        Answer::Translated(count) => buffer.truncate(bytes_needed(count)),
        refused => panic!("{text}: {refused}"),
    }
    buffer
}

/// Blocks held against a text with document 01's keys.
pub fn comparing(text: impl AsRef<[u8]>, blocks: &[u8]) -> String {
    short(compare(text.as_ref(), &list(), blocks))
}

/// The blocks of one text held against another.
pub fn comparing_texts(text: &str, made_of: &str) -> String {
    comparing(text, &translated(made_of, &list()))
}

/// The print of a text in a buffer that is long enough, or its refusal.
pub fn printing(text: impl AsRef<[u8]>) -> String {
    let mut buffer = vec![0; LONGEST_TEXT];
    match print(text.as_ref(), &mut buffer) {
        Answer::Printed(length) => buffer[..length].escape_ascii().to_string(),
        refused => short(refused),
    }
}

/// The text without octal numerals in a buffer that is long enough, or its refusal.
pub fn fixing(text: impl AsRef<[u8]>) -> String {
    let mut buffer = vec![0; LONGEST_TEXT];
    match fix_octal(text.as_ref(), &mut buffer) {
        Answer::Fixed(length) => String::from_utf8_lossy(&buffer[..length]).into_owned(),
        refused => short(refused),
    }
}

/// Names of inputs, as many as an index can choose from: i0 to i15.
pub fn inputs(count: usize) -> Vec<u8> {
    let keys: String = (0..count).map(|i| format!("i{i} exact 64\n")).collect();
    list_of(&keys)
}

/// The text of a contract in a buffer that is long enough, or its refusal.
pub fn drafting(contract: &[u8], table: &[u64], names: &[u8]) -> String {
    let mut buffer = vec![0; LONGEST_TEXT];
    match pact(contract, table, names, &mut buffer) {
        Answer::Drafted(length) => String::from_utf8_lossy(&buffer[..length]).into_owned(),
        refused => short(refused),
    }
}

/// "part 2 @15 8..23" for number, root's place and stretch, "key @40 96..97" for
/// the record's place and the name's stretch, "nothing A".
pub fn short_explanation(explanation: Explanation) -> String {
    match explanation {
        Explanation::Part {
            number,
            place,
            piece,
        } => format!("part {number} @{place} {:?}", piece.stretch()),
        Explanation::Key { place, piece } => format!("key @{place} {:?}", piece.stretch()),
        Explanation::Nothing(answer) => format!("nothing {}", short(answer)),
    }
}

pub fn explaining(text: impl AsRef<[u8]>) -> String {
    short_explanation(explain(text.as_ref(), &list(), &entry()))
}

/// "summary 3 0 2" for the set, the mark and the count, or a refusal.
pub fn summarizing(text: impl AsRef<[u8]>) -> String {
    short(summarize(text.as_ref(), &list()))
}

/// "reused A", "judged 19 entry 5".
pub fn short_recheck(rechecked: Rechecked) -> String {
    let word = match rechecked {
        Rechecked::Reused(_) => "reused",
        Rechecked::Judged(_) => "judged",
    };
    format!("{word} {}", short(rechecked.answer()))
}

/// The recheck of two readable entries by document 01's keys.
pub fn rechecking(text: &str, old: &str, earlier: Answer, new: &str) -> String {
    let (old, new) = (entry_of(KEYS, old), entry_of(KEYS, new));
    short_recheck(recheck(text.as_bytes(), &list(), &old, earlier, &new))
}

/// What the program `count` writes for entries of document 01's keys, laid end to end.
pub fn counting(text: impl AsRef<[u8]>, entries: &[u8]) -> String {
    output(&count(text.as_ref(), &list(), entries))
}

/// What the program `count` writes for entries of no keys.
pub fn counting_without_keys(text: impl AsRef<[u8]>, entries: &[u8]) -> String {
    output(&count(text.as_ref(), &[], entries))
}

/// 2^128 − 1 in octal, the largest number there is.
pub fn largest_octal() -> String {
    format!("0o3{}", "7".repeat(42))
}

/// 2^128 in octal.
pub fn octal_too_large() -> String {
    format!("0o4{}", "0".repeat(42))
}

/// Runs that are no octal numerals, though they look like some.
pub const NO_OCTAL_RUNS: [&str; 14] = [
    "0o", "0O", "0o8", "0O9", "0o1_", "0o_1", "0o18", "0o7a", "0oo7", "0o0o7", "00o7", "10o7",
    "0x0o7", "0b0o1",
];

/// So many tokens, of which this is the last.
pub fn row_ending_in(last: &str, count: usize) -> String {
    format!("{}{last}", "!".repeat(count - 1))
}

/// Generated request `index` for this call, of the run with this seed.
pub fn generated(call: Call, seed: u64, index: u64) -> Request {
    let mut rng = Rng::for_item(seed, index);
    Scene::new(&mut rng, 8, 7).request(&mut rng, call)
}

/// Holds each text against its wanted answer.
pub fn all<T: AsRef<[u8]>>(ask: fn(T) -> String, cases: Vec<(T, &str)>) {
    for (text, wanted) in cases {
        let shown = text.as_ref().escape_ascii().to_string();
        assert_eq!(ask(text), wanted, "{shown}");
    }
}
