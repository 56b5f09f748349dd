//! Wrong ways to run a whole table: the generated requests tell each of them from the
//! right one.

mod common;

use common::{generated, short};
use desk::reference::answers::Refusal;
use desk::reference::blocks::checked_layout;
use desk::reference::code::Instruction;
use desk::reference::entries::Entry;
use desk::reference::keys::{key_list, Key};
use desk::reference::loading::checked_code;
use desk::reference::running::outcome;
use desk::reference::{run_all, Input, Outcome};
use desk::requests::{Call, Entries, Request};

/// What there is to know of a request to run a table.
#[derive(Clone)]
struct Table {
    /// The length of the code, or the refusal of list or blocks.
    loaded: Result<usize, Refusal>,
    /// What the blocks say of each whole entry, or nothing if they do not load.
    outcomes: Vec<Option<Outcome>>,
    /// How many whole entries there are, by the length of the list.
    whole: usize,
    /// The size of an entry, and the bytes of all.
    size: usize,
    length: usize,
    /// What the answers hold before.
    old: Vec<u8>,
}

/// What is said, and the answers after it.
type Said = (String, Vec<u8>);

type Way = fn(&Table) -> Said;

fn loaded<'l>(list: &'l [u8], blocks: &[u8]) -> Result<(Vec<Instruction>, Vec<Key<'l>>), Refusal> {
    let keys = key_list(list)?;
    let total = checked_layout(blocks, keys.len())?;
    let code = checked_code(blocks, total, &keys)?;
    Ok((code, keys))
}

impl Table {
    /// That of a request that is not malformed.
    fn of(request: &Request) -> Option<Table> {
        let Entries { size, .. } = request.entries()?;
        let [list, blocks, _] = &request.inputs;
        let (_, lent) = request.answers_and_entries()?;
        let entries = lent.entries.chunks_exact(size);
        let whole = entries.len();
        let (loaded, outcomes) = match loaded(list, blocks) {
            Err(refusal) => (Err(refusal), Vec::new()),
            Ok((code, keys)) => {
                let read = entries.map(|bytes| Entry::from_bytes(bytes, &keys).ok());
                let ran = read.map(|entry| Some(outcome(&code, &keys, &entry?)));
                (Ok(code.len()), ran.collect())
            }
        };
        Some(Table {
            loaded,
            outcomes,
            whole,
            size,
            length: lent.entries.len(),
            old: lent.answers,
        })
    }

    fn is_cut(&self) -> bool {
        !self.length.is_multiple_of(self.size)
    }

    fn has_few(&self) -> bool {
        self.old.len() < self.whole
    }

    fn refused(&self, number: u8, input: Input, place: usize) -> Said {
        let refusal = Refusal::new(number, input, place);
        (short(refusal.into()), self.old.clone())
    }

    fn cut(&self) -> Said {
        self.refused(19, Input::Entry, self.length)
    }

    fn few(&self) -> Said {
        self.refused(15, Input::Buffer, self.old.len())
    }

    /// The right refusals; and else these steps, and these answers after.
    fn run(&self, after: impl Fn() -> Vec<u8>, steps: u64) -> Said {
        match self.loaded {
            Err(refusal) => self.refused(refusal.number, refusal.input, refusal.offset),
            Ok(_) if self.is_cut() => self.cut(),
            Ok(_) if self.has_few() => self.few(),
            Ok(_) => (format!("ran {} {steps}", self.whole), after()),
        }
    }

    /// Other bytes at the front of the answers; the steps are right.
    fn with_bytes(&self, change: impl Fn(&mut Vec<u8>)) -> Said {
        let after = || {
            let mut bytes = self.bytes();
            change(&mut bytes);
            self.written(&bytes)
        };
        self.run(after, self.steps())
    }

    /// Other bytes, each by the right one and what it was before.
    fn with_each(&self, change: fn(u8, u8) -> u8) -> Said {
        self.with_bytes(|bytes| {
            for (byte, &old) in bytes.iter_mut().zip(&self.old) {
                *byte = change(*byte, old);
            }
        })
    }

    /// The right bytes with other steps.
    fn with_steps(&self, steps: u64) -> Said {
        self.run(|| self.written(&self.bytes()), steps)
    }

    fn bytes(&self) -> Vec<u8> {
        self.outcomes.iter().map(|&outcome| byte(outcome)).collect()
    }

    /// The answers with these bytes at their front, as far as there is room.
    fn written(&self, bytes: &[u8]) -> Vec<u8> {
        let mut after = self.old.clone();
        for (answer, &byte) in after.iter_mut().zip(bytes) {
            *answer = byte;
        }
        after
    }

    fn steps(&self) -> u64 {
        sum(&self.outcomes)
    }

    /// The entries before the first that is refused.
    fn before_refused(&self) -> &[Option<Outcome>] {
        let mut stretches = self.outcomes.split(Option::is_none);
        stretches.next().unwrap_or_default()
    }

    fn refused_entries(&self) -> usize {
        let refused = self.outcomes.iter().filter(|outcome| outcome.is_none());
        refused.count()
    }

    fn code_length(&self) -> usize {
        self.loaded.unwrap_or(0)
    }
}

fn byte(outcome: Option<Outcome>) -> u8 {
    match outcome {
        None => 0,
        Some(Outcome { accepted: true, .. }) => 1,
        Some(_) => 2,
    }
}

fn sum(outcomes: &[Option<Outcome>]) -> u64 {
    let ran = outcomes.iter().flatten();
    ran.map(|outcome| outcome.steps as u64).sum()
}

fn right(table: &Table) -> Said {
    table.with_steps(table.steps())
}

/// All entries are what the first is.
fn all_as_the_first(table: &Table) -> Said {
    table.with_bytes(|bytes| {
        let first = bytes.first().copied().unwrap_or(0);
        bytes.fill(first);
    })
}

/// The table ends at the first refused entry, whose byte is the last that is written.
fn stops_at_the_first_refused(table: &Table) -> Said {
    let before = table.before_refused();
    let written = table.outcomes.len().min(before.len() + 1);
    let after = || table.written(&table.bytes()[..written]);
    table.run(after, sum(before))
}

/// All entries behind a refused one are refused too.
fn all_refused_behind_one(table: &Table) -> Said {
    let before = table.before_refused();
    let after = || {
        let mut bytes = table.bytes();
        bytes[before.len()..].fill(0);
        table.written(&bytes)
    };
    table.run(after, sum(before))
}

/// The bytes behind those of the entries are cleared, or the first of them is.
fn clears_later_bytes(table: &Table) -> Said {
    table.with_bytes(|bytes| bytes.resize(table.old.len(), 0))
}

fn clears_one_later_byte(table: &Table) -> Said {
    table.with_bytes(|bytes| bytes.push(0))
}

/// The bytes stand at the end of the answers.
fn at_the_end(table: &Table) -> Said {
    let after = || {
        let kept = table.old.len() - table.whole;
        [&table.old[..kept], &table.bytes()].concat()
    };
    table.run(after, table.steps())
}

fn in_the_opposite_order(table: &Table) -> Said {
    table.with_bytes(|bytes| bytes.reverse())
}

/// Nothing is written for the last entry, or for the first.
fn last_left_out(table: &Table) -> Said {
    table.with_bytes(|bytes| {
        bytes.pop();
    })
}

fn first_left_out(table: &Table) -> Said {
    table.with_bytes(|bytes| {
        if let (Some(first), Some(&old)) = (bytes.first_mut(), table.old.first()) {
            *first = old;
        }
    })
}

/// The byte of a refused entry stays as it was.
fn refused_stays(table: &Table) -> Said {
    table.with_each(|byte, old| if byte == 0 { old } else { byte })
}

/// The bits of an answer are added to those that were there.
fn added_to_the_old(table: &Table) -> Said {
    table.with_each(|byte, old| byte | old)
}

fn refused_as_violated(table: &Table) -> Said {
    table.with_each(|byte, _| if byte == 0 { 2 } else { byte })
}

/// A violated entry is a zero, as if the byte were a bool.
fn violated_as_zero(table: &Table) -> Said {
    table.with_each(|byte, _| byte % 2)
}

/// Accepted and violated change places.
fn exchanged(table: &Table) -> Said {
    table.with_each(|byte, _| (3 - byte) % 3)
}

/// A refused entry has the byte of the one before it.
fn refused_as_the_one_before(table: &Table) -> Said {
    table.with_bytes(|bytes| {
        for index in 1..bytes.len() {
            if bytes[index] == 0 {
                bytes[index] = bytes[index - 1];
            }
        }
    })
}

fn steps_of_the_last(table: &Table) -> Said {
    let others = table.outcomes.len().saturating_sub(1);
    table.with_steps(sum(&table.outcomes[others..]))
}

fn steps_but_of_the_first(table: &Table) -> Said {
    let first = table.outcomes.len().min(1);
    table.with_steps(sum(&table.outcomes[first..]))
}

/// The most steps that an entry takes.
fn most_steps(table: &Table) -> Said {
    let ran = table.outcomes.iter().flatten();
    let most = ran.map(|outcome| outcome.steps as u64).max();
    table.with_steps(most.unwrap_or(0))
}

fn steps_of_accepted(table: &Table) -> Said {
    let accepted: Vec<Option<Outcome>> = table
        .outcomes
        .iter()
        .copied()
        .filter(|&outcome| byte(outcome) == 1)
        .collect();
    table.with_steps(sum(&accepted))
}

/// A refused entry takes a step, or as many as the code has instructions.
fn a_step_for_refused(table: &Table) -> Said {
    table.with_steps(table.steps() + table.refused_entries() as u64)
}

fn all_steps_for_refused(table: &Table) -> Said {
    let more = table.refused_entries() * table.code_length();
    table.with_steps(table.steps() + more as u64)
}

/// Every run goes to the end of the code.
fn no_early_stop(table: &Table) -> Said {
    let ran = table.outcomes.len() - table.refused_entries();
    table.with_steps((ran * table.code_length()) as u64)
}

/// The sum has 8 bits, or 16.
fn sum_of_8_bits(table: &Table) -> Said {
    table.with_steps(table.steps() % (1 << 8))
}

fn sum_of_16_bits(table: &Table) -> Said {
    table.with_steps(table.steps() % (1 << 16))
}

/// Only conforming entries are told.
fn refused_not_told(table: &Table) -> Said {
    let (said, after) = right(table);
    let conforming = table.outcomes.len() - table.refused_entries();
    if said.starts_with("ran ") {
        return (format!("ran {conforming} {}", table.steps()), after);
    }
    (said, after)
}

/// Too few answers come before a wrong length.
fn few_before_cut(table: &Table) -> Said {
    if table.loaded.is_ok() && table.has_few() {
        return table.few();
    }
    right(table)
}

/// A wrong length, or too few answers, comes before what is wrong with list and blocks.
fn cut_before_load(table: &Table) -> Said {
    if table.is_cut() {
        return table.cut();
    }
    right(table)
}

fn few_before_load(table: &Table) -> Said {
    if table.has_few() {
        return table.few();
    }
    right(table)
}

/// A wrong length is told where the cut entry begins.
fn cut_at_its_start(table: &Table) -> Said {
    if table.loaded.is_ok() && table.is_cut() {
        return table.refused(19, Input::Entry, table.whole * table.size);
    }
    right(table)
}

/// Too few answers are told at the number that is wanted.
fn few_at_the_wanted(table: &Table) -> Said {
    let (said, after) = right(table);
    if said.starts_with("15 ") {
        return table.refused(15, Input::Buffer, table.whole);
    }
    (said, after)
}

/// A cut entry is passed over.
fn cut_passed_over(table: &Table) -> Said {
    let mut whole = table.clone();
    whole.length = table.whole * table.size;
    right(&whole)
}

/// One answer more than there are entries is wanted.
fn one_answer_more(table: &Table) -> Said {
    let (said, after) = right(table);
    if said.starts_with("ran ") && table.old.len() == table.whole {
        return table.few();
    }
    (said, after)
}

/// One answer fewer than there are entries is enough.
fn one_answer_fewer(table: &Table) -> Said {
    let (said, after) = right(table);
    if said.starts_with("15 ") && table.old.len() + 1 == table.whole {
        let said = format!("ran {} {}", table.whole, table.steps());
        return (said, table.written(&table.bytes()));
    }
    (said, after)
}

/// The answers are written as far as there is room, and then refused.
fn written_before(table: &Table, refusal: &str) -> Said {
    let (said, after) = right(table);
    if said.starts_with(refusal) {
        return (said, table.written(&table.bytes()));
    }
    (said, after)
}

fn written_before_15(table: &Table) -> Said {
    written_before(table, "15 ")
}

fn written_before_19(table: &Table) -> Said {
    written_before(table, "19 ")
}

/// A table without entries is refused as an entry of no bytes is.
fn no_entries_refused(table: &Table) -> Said {
    let (said, after) = right(table);
    if said.starts_with("ran 0 ") {
        return table.cut();
    }
    (said, after)
}

/// A refusal clears the answers.
fn cleared_when_refused(table: &Table) -> Said {
    let (said, mut after) = right(table);
    if !said.starts_with("ran ") {
        after.fill(0);
    }
    (said, after)
}

const WAYS: [(&str, Way); 38] = [
    ("right", right),
    ("all as the first", all_as_the_first),
    ("stops at the first refused", stops_at_the_first_refused),
    ("all refused behind one", all_refused_behind_one),
    ("clears later bytes", clears_later_bytes),
    ("clears one later byte", clears_one_later_byte),
    ("at the end", at_the_end),
    ("in the opposite order", in_the_opposite_order),
    ("last left out", last_left_out),
    ("first left out", first_left_out),
    ("refused stays", refused_stays),
    ("added to the old", added_to_the_old),
    ("refused as violated", refused_as_violated),
    ("violated as zero", violated_as_zero),
    ("exchanged", exchanged),
    ("refused as the one before", refused_as_the_one_before),
    ("steps of the last", steps_of_the_last),
    ("steps but of the first", steps_but_of_the_first),
    ("most steps", most_steps),
    ("steps of accepted", steps_of_accepted),
    ("a step for refused", a_step_for_refused),
    ("all steps for refused", all_steps_for_refused),
    ("no early stop", no_early_stop),
    ("sum of 8 bits", sum_of_8_bits),
    ("sum of 16 bits", sum_of_16_bits),
    ("refused not told", refused_not_told),
    ("few before cut", few_before_cut),
    ("cut before load", cut_before_load),
    ("few before load", few_before_load),
    ("cut at its start", cut_at_its_start),
    ("few at the wanted", few_at_the_wanted),
    ("cut passed over", cut_passed_over),
    ("one answer more", one_answer_more),
    ("one answer fewer", one_answer_fewer),
    ("written before 15", written_before_15),
    ("written before 19", written_before_19),
    ("no entries refused", no_entries_refused),
    ("cleared when refused", cleared_when_refused),
];

/// How often a way must be wrong, of 3,000 times: one that takes two faults at once, or a
/// long run, seldom is.
fn least(way: &str) -> usize {
    match way {
        "sum of 16 bits" => 3,
        "few before cut" => 30,
        _ => 100,
    }
}

#[test]
fn wrong_ways_are_told_from_the_right_one() {
    let mut wrong = [0; WAYS.len()];
    for index in 0..3_000 {
        let request = generated(Call::RunAll, 105, index);
        let Some(table) = Table::of(&request) else {
            continue;
        };
        let (_, lent) = request.answers_and_entries().expect("not malformed");
        let [list, blocks, _] = &request.inputs;
        let mut after = lent.answers;
        let answer = run_all(list, blocks, &lent.entries, &mut after);
        let wanted = (short(answer), after);
        for ((_, way), count) in WAYS.iter().zip(&mut wrong) {
            *count += usize::from(way(&table) != wanted);
        }
    }
    assert_eq!(wrong[0], 0);
    for ((name, _), count) in WAYS.iter().zip(wrong).skip(1) {
        assert!(count >= least(name), "{name}: wrong only {count} times");
    }
}
