//! What is true of every run of a whole table, and what the generated requests reach of it.

mod common;

use std::collections::{BTreeMap, BTreeSet};

use common::{generated, running_all, short};
use desk::entry_tables::AnswersAndEntries;
use desk::generate::blocks::damaged_and_loading;
use desk::generate::rng::Rng;
use desk::reference::blocks::{all_parts, bytes_needed, BLOCK, MOST_BLOCKS};
use desk::reference::code::Parts;
use desk::reference::entries::Entry;
use desk::reference::keys::Key;
use desk::reference::running_all::{ACCEPTED, REFUSED, VIOLATED};
use desk::reference::{count, load, run, run_all, translate, Answer, Totals};
use desk::requests::{Call, LONGEST_INPUT};

/// A generated request to run a table.
struct Asked {
    list: Vec<u8>,
    blocks: Vec<u8>,
    table: AnswersAndEntries,
    /// The bytes of one entry.
    size: usize,
}

/// One that is answered with totals.
struct Ran {
    asked: Asked,
    totals: Totals,
    after: Vec<u8>,
}

impl Asked {
    fn generated(seed: u64, index: u64) -> Option<Asked> {
        let request = generated(Call::RunAll, seed, index);
        let (_, table) = request.answers_and_entries()?;
        let [list, blocks, _] = request.inputs;
        let size = Entry::size(list.len() / Key::SIZE);
        Some(Asked {
            list,
            blocks,
            table,
            size,
        })
    }

    fn entries(&self) -> std::slice::ChunksExact<'_, u8> {
        self.table.entries.chunks_exact(self.size)
    }

    /// What is said of these entries with these answers, and the answers after.
    fn asking(&self, entries: &[u8], answers: &[u8]) -> (Answer, Vec<u8>) {
        let mut after = answers.to_vec();
        let answer = run_all(&self.list, &self.blocks, entries, &mut after);
        (answer, after)
    }

    /// A table that is run, and not one of the few that take long.
    fn ran(self) -> Option<Ran> {
        if self.entries().len() * self.blocks.len() > 60_000_000 {
            return None;
        }
        match self.asking(&self.table.entries, &self.table.answers) {
            (Answer::RanAll(totals), after) => Some(Ran {
                asked: self,
                totals,
                after,
            }),
            _ => None,
        }
    }
}

impl Ran {
    /// All that are run, of so many.
    fn all(seed: u64, count: u64) -> impl Iterator<Item = Ran> {
        (0..count).filter_map(move |index| Asked::generated(seed, index)?.ran())
    }

    fn verdicts(&self) -> &[u8] {
        &self.after[..self.totals.entries]
    }

    /// How many steps entries take that are run by themselves, as far as there are a few.
    fn lengths(&self) -> BTreeSet<usize> {
        let Asked { list, blocks, .. } = &self.asked;
        let few = self.asked.entries().take(40);
        few.filter_map(|entry| match run(list, blocks, entry) {
            Answer::Ran(outcome) => Some(outcome.steps),
            _ => None,
        })
        .collect()
    }
}

/// Byte i is what a run says of entry i; the number of entries and the sum of the steps
/// are told; and later bytes stay.
#[test]
fn every_byte_is_a_run() {
    let mut counts: BTreeMap<u8, usize> = BTreeMap::new();
    for ran in Ran::all(91, 3_000) {
        if ran.totals.entries > 400 {
            continue;
        }
        let Asked {
            list,
            blocks,
            table,
            ..
        } = &ran.asked;
        let mut steps = 0;
        assert_eq!(ran.totals.entries, ran.asked.entries().len());
        for (entry, &byte) in ran.asked.entries().zip(&ran.after) {
            match run(list, blocks, entry) {
                Answer::Ran(outcome) => {
                    assert_eq!(byte, if outcome.accepted { ACCEPTED } else { VIOLATED });
                    steps += outcome.steps;
                }
                refused => {
                    assert!(short(refused).starts_with("20 entry "));
                    assert_eq!(byte, REFUSED);
                }
            }
            *counts.entry(byte).or_default() += 1;
        }
        assert_eq!(ran.totals.steps, steps as u64);
        let later = ran.totals.entries..;
        assert_eq!(ran.after[later.clone()], table.answers[later]);
        assert_eq!(ran.after.len(), table.answers.len());
    }
    assert_eq!(counts.len(), 3, "{counts:?}");
    assert!(counts.values().all(|&count| count > 2_000), "{counts:?}");
}

/// Whatever is wrong with list or blocks is told as `load` tells it; then a wrong length,
/// then too few answers. No refusal changes a byte.
#[test]
fn refusals_have_their_order() {
    let mut counts: BTreeMap<&str, usize> = BTreeMap::new();
    for asked in (0..8_000).filter_map(|index| Asked::generated(92, index)) {
        let AnswersAndEntries { answers, entries } = &asked.table;
        let (answer, after) = asked.asking(entries, answers);
        let cut = !entries.len().is_multiple_of(asked.size);
        let few = answers.len() < asked.entries().len();
        let (told, wanted) = match load(&asked.list, &asked.blocks) {
            Answer::Loaded(_) if cut && few => {
                ("19 over 15", format!("19 entry {}", entries.len()))
            }
            Answer::Loaded(_) if cut => ("19", format!("19 entry {}", entries.len())),
            Answer::Loaded(_) if few => ("15", format!("15 buffer {}", answers.len())),
            Answer::Loaded(_) => ("ran", short(answer)),
            refused if cut && few => ("a load over 19 and 15", short(refused)),
            refused if cut => ("a load over 19", short(refused)),
            refused if few => ("a load over 15", short(refused)),
            refused => ("a load", short(refused)),
        };
        assert_eq!(short(answer), wanted);
        if told == "ran" {
            assert!(matches!(answer, Answer::RanAll(_)));
        } else {
            assert_eq!(after, *answers);
        }
        *counts.entry(told).or_default() += 1;
    }
    assert_eq!(counts.len(), 8, "{counts:?}");
    assert!(counts.values().all(|&count| count >= 10), "{counts:?}");
}

/// Two stretches of whole entries have the bytes of both, one behind the other, and their
/// steps add up.
#[test]
fn stretches_add_up() {
    let mut divided = 0;
    for (index, ran) in Ran::all(93, 3_000).enumerate() {
        let mut rng = Rng::for_item(94, index as u64);
        let front = rng.between(0, ran.totals.entries);
        let (one, other) = ran.asked.table.entries.split_at(front * ran.asked.size);
        let (first, rest) = ran.asked.table.answers.split_at(front);
        let (first_answer, first) = ran.asked.asking(one, first);
        let (rest_answer, rest) = ran.asked.asking(other, rest);
        let (Answer::RanAll(first_totals), Answer::RanAll(rest_totals)) =
            (first_answer, rest_answer)
        else {
            panic!("there is a byte for each");
        };
        assert_eq!([first, rest].concat(), ran.after);
        let entries = first_totals.entries + rest_totals.entries;
        let steps = first_totals.steps + rest_totals.steps;
        assert_eq!(ran.totals, Totals { entries, steps });
        divided += usize::from(first_totals.steps > 0 && rest_totals.steps > 0);
    }
    assert!(divided > 500, "{divided}");
}

/// The entries in another order have the same bytes in that order, and the same steps.
#[test]
fn bytes_go_with_their_entries() {
    let mut turned = 0;
    for ran in Ran::all(95, 2_000) {
        let entries: Vec<&[u8]> = ran.asked.entries().rev().collect();
        let (answer, after) = ran
            .asked
            .asking(&entries.concat(), &ran.asked.table.answers);
        assert_eq!(answer, Answer::RanAll(ran.totals));
        let mut wanted = ran.verdicts().to_vec();
        wanted.reverse();
        assert_eq!(after[..ran.totals.entries], wanted);
        turned += usize::from(wanted != ran.verdicts());
    }
    assert!(turned > 300, "{turned}");
}

/// What the answers were before, and how many are left over, plays no part.
#[test]
fn earlier_answers_play_no_part() {
    for ran in Ran::all(96, 2_000) {
        let verdicts = ran.verdicts();
        for (old, more) in [(0, 0), (0xff, 1), (2, 30)] {
            let answers = vec![old; verdicts.len() + more];
            let (answer, after) = ran.asked.asking(&ran.asked.table.entries, &answers);
            assert_eq!(answer, Answer::RanAll(ran.totals));
            assert_eq!(after, [verdicts, &vec![old; more]].concat());
        }
    }
}

/// A text and its blocks: as many bytes of each sort as a count of the same entries has.
#[test]
fn tables_are_counted_alike() {
    let mut counted = 0;
    for index in 0..2_500 {
        let [text, list, entries] = generated(Call::Count, 97, index).inputs;
        let Ok(counts) = count(&text, &list, &entries) else {
            continue;
        };
        let mut blocks = vec![0; MOST_BLOCKS * BLOCK];
        let Answer::Translated(instructions) = translate(&text, &list, &mut blocks) else {
            panic!("a text that is counted translates");
        };
        blocks.truncate(bytes_needed(instructions));
        let whole = counts.accepted + counts.violated + counts.refused;
        if whole * instructions > 1_000_000 {
            continue;
        }
        let entries = &entries[..entries.len() - counts.cut];
        let (said, after) = running_all(&list, &blocks, entries, &vec![9; whole]);
        assert!(said.starts_with(&format!("ran {whole} ")), "{said}");
        for (byte, number) in [
            (ACCEPTED, counts.accepted),
            (VIOLATED, counts.violated),
            (REFUSED, counts.refused),
        ] {
            assert_eq!(after.iter().filter(|&&it| it == byte).count(), number);
        }
        counted += whole;
    }
    assert!(counted > 10_000, "{counted}");
}

/// Blocks with a bit changed load, and are most often others.
#[test]
fn damage_that_still_loads() {
    let (mut changed, mut told) = (0, 0);
    for ran in Ran::all(98, 1_200) {
        let mut rng = Rng::for_item(99, changed);
        let Asked {
            list,
            blocks,
            table,
            ..
        } = &ran.asked;
        let damaged = damaged_and_loading(&mut rng, list, blocks);
        assert!(matches!(load(list, &damaged), Answer::Loaded(_)));
        changed += u64::from(damaged != *blocks);
        let (_, after) = running_all(list, &damaged, &table.entries, &table.answers);
        told += u64::from(after != ran.after);
    }
    assert!(changed > 500, "{changed}");
    assert!(told > 100, "{told}");
}

/// Of what sort the entries of a request are, and how many they are.
fn sorts_of_entries(asked: &Asked) -> Vec<&'static str> {
    let count = asked.entries().len();
    let keys = asked.list.len() / Key::SIZE;
    let cut = asked.table.entries.len() % asked.size;
    let mut sorts = vec![match count {
        0 => "no entry",
        1 => "one entry",
        2..=9 => "a few entries",
        10..=40 => "some dozen entries",
        _ => "many entries",
    }];
    sorts.push(match keys {
        0 => "no keys",
        Key::MOST => "32 keys",
        _ => "some keys",
    });
    sorts.push(match cut {
        0 => "whole entries",
        1 => "a byte long",
        _ if cut == asked.size - 1 => "a byte short",
        36 => "a record long",
        _ => "cut elsewhere",
    });
    let third = asked.table.to_bytes().len();
    sorts.extend((third == LONGEST_INPUT).then_some("the longest input"));
    sorts.extend((cut > 0 && count == 0).then_some("only a cut entry"));
    sorts
}

/// Of what sort the answers of a request are.
fn sorts_of_answers(asked: &Asked) -> Vec<&'static str> {
    let answers = &asked.table.answers;
    let entries = asked.entries().len();
    let mut sorts = vec![match answers.len() {
        length if length == entries => "as many answers",
        length if length + 1 == entries => "one answer fewer",
        0 => "no answers",
        length if length < entries => "fewer answers",
        length if length == entries + 1 => "one answer more",
        _ => "more answers",
    }];
    let distinct: BTreeSet<&u8> = answers.iter().collect();
    sorts.extend((answers.len() > 3 && distinct.len() == 1).then_some("answers all alike"));
    sorts.extend((distinct.len() > 3).then_some("answers of all sorts"));
    sorts.extend(answers.contains(&0).then_some("a zero among the answers"));
    sorts
}

/// Tables and answers of every sort.
#[test]
fn requests_reach_every_sort() {
    let mut counts: BTreeMap<&str, usize> = BTreeMap::new();
    for asked in (0..6_000).filter_map(|index| Asked::generated(100, index)) {
        for sort in [sorts_of_entries(&asked), sorts_of_answers(&asked)].concat() {
            *counts.entry(sort).or_default() += 1;
        }
    }
    assert_eq!(counts.len(), 5 + 3 + 5 + 2 + 6 + 3, "{counts:#?}");
    for (sort, count) in &counts {
        assert!(*count >= 12, "{sort}: {count}");
    }
    for sort in ["as many answers", "one answer fewer", "one answer more"] {
        assert!(counts[sort] > 300, "{sort}: {}", counts[sort]);
    }
}

/// How the entries of a table come out.
fn sorts_of_verdicts(ran: &Ran) -> Vec<&'static str> {
    let verdicts = ran.verdicts();
    let found: BTreeSet<u8> = verdicts.iter().copied().collect();
    let all: Vec<u8> = found.into_iter().collect();
    let mut sorts = vec![match all[..] {
        [] => "no verdict",
        [REFUSED] => "all refused",
        [ACCEPTED] => "all accepted",
        [VIOLATED] => "all violated",
        [REFUSED, ACCEPTED] => "refused and accepted",
        [REFUSED, VIOLATED] => "refused and violated",
        [ACCEPTED, VIOLATED] => "accepted and violated",
        _ => "all three",
    }];
    let judged = |byte: &u8| *byte != REFUSED;
    let first = verdicts.iter().position(judged);
    let last = verdicts.iter().rposition(judged);
    if let (Some(first), Some(last)) = (first, last) {
        let refused = verdicts[first..last].contains(&REFUSED);
        sorts.extend(refused.then_some("a refused one in the middle"));
        sorts.extend((first > 0).then_some("a refused one first"));
        sorts.extend((last + 1 < verdicts.len()).then_some("a refused one last"));
    }
    sorts
}

/// Of what sort the blocks of a table that is run are, and the steps.
fn sorts_of_steps(ran: &Ran) -> Vec<&'static str> {
    let Answer::Loaded(length) = load(&ran.asked.list, &ran.asked.blocks) else {
        panic!("they ran");
    };
    let mut code = all_parts(&ran.asked.blocks, length);
    let skips = code.any(|parts| parts.operation == Parts::SKIP);
    let mut sorts = vec![if skips { "skips" } else { "no skips" }];
    let steps = ran.lengths();
    sorts.extend((steps.len() > 1).then_some("runs of several lengths"));
    sorts.extend((ran.asked.blocks.len() > BLOCK).then_some("several blocks"));
    let early = steps.first().is_some_and(|&steps| steps < length);
    sorts.extend(early.then_some("a run that stops early"));
    sorts.extend((ran.totals.steps >= 1 << 16).then_some("more steps than 16 bits hold"));
    sorts
}

/// Verdicts and steps of every sort.
#[test]
fn tables_come_out_in_every_way() {
    let mut counts: BTreeMap<&str, usize> = BTreeMap::new();
    for ran in Ran::all(101, 8_000) {
        for sort in [sorts_of_verdicts(&ran), sorts_of_steps(&ran)].concat() {
            *counts.entry(sort).or_default() += 1;
        }
    }
    assert_eq!(counts.len(), 8 + 3 + 6, "{counts:#?}");
    for (sort, count) in &counts {
        assert!(*count >= 8, "{sort}: {count}");
    }
    for sort in [
        "all three",
        "accepted and violated",
        "a refused one in the middle",
        "runs of several lengths",
        "no skips",
        "skips",
    ] {
        assert!(counts[sort] > 300, "{sort}: {}", counts[sort]);
    }
}

/// Every refusal of a list, of blocks, of entries and of answers, and requests that are
/// malformed.
#[test]
fn requests_reach_every_refusal() {
    let mut counts: BTreeMap<String, usize> = BTreeMap::new();
    for index in 0..12_000 {
        let line = generated(Call::RunAll, 102, index).answer_line();
        let words: Vec<&str> = line.split(' ').collect();
        let kind = match words[..] {
            ["refused", number, input, ..] => format!("{number} {input}"),
            _ => words[0].to_string(),
        };
        *counts.entry(kind).or_default() += 1;
    }
    let reached: Vec<&str> = counts.keys().map(String::as_str).collect();
    let wanted = [
        "15 buffer",
        "16 blocks",
        "17 blocks",
        "18 blocks",
        "19 entry",
        "2 list",
        "3 list",
        "4 list",
        "malformed",
        "ran",
    ];
    assert_eq!(reached, wanted, "{counts:?}");
    assert!(counts.values().all(|&count| count >= 60), "{counts:?}");
    assert!((5_000..9_000).contains(&counts["ran"]), "{counts:?}");
}
