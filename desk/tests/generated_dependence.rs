//! What an answer may depend on (document 02, request n), for generated texts and
//! conforming entries: records and a priority that the text does not name change
//! nothing, nor does an absent record that is spelled out; those that it names do.

mod common;

use common::{generated, short, short_explanation};
use desk::generate::entries::{good, good_record};
use desk::generate::rng::Rng;
use desk::generate::scenes::Scene;
use desk::generate::{explanations, rechecks};
use desk::lists::{list_bytes, NamedKey};
use desk::reference::blocks::{bytes_needed, BLOCK, MOST_BLOCKS};
use desk::reference::entries::{Entry, Record};
use desk::reference::keys::key_list;
use desk::reference::{explain, judge, recheck, run, summarize, translate};
use desk::reference::{Answer, Rechecked, Summary};
use desk::requests::Call;

const ITEMS: u64 = 4_000;

/// A text that passes with these keys, what it names, its blocks, and an entry that
/// conforms.
struct Rule {
    text: Vec<u8>,
    keys: Vec<NamedKey>,
    list: Vec<u8>,
    summary: Summary,
    blocks: Vec<u8>,
    entry: Entry,
}

impl Rule {
    /// Where the text that is made for item `index` passes.
    fn generated(seed: u64, index: u64) -> Option<(Rule, Rng)> {
        let mut rng = Rng::for_item(seed, index);
        let scene = Scene::new(&mut rng, 8, 7);
        let text = match rng.below(3) {
            0 => rechecks::text(&mut rng, &scene.keys, &scene.entry),
            1 => explanations::text(&mut rng, &scene.keys, &scene.entry),
            _ => scene.request(&mut rng, Call::Judge).inputs[0].clone(),
        };
        let Scene { keys, entry, .. } = scene;
        let list = list_bytes(&keys);
        let Answer::Summary(summary) = summarize(&text, &list) else {
            return None;
        };
        let mut blocks = vec![0; MOST_BLOCKS * BLOCK];
        let Answer::Translated(count) = translate(&text, &list, &mut blocks) else {
            panic!("a text that passes is translated");
        };
        blocks.truncate(bytes_needed(count));
        let rule = Rule {
            text,
            keys,
            list,
            summary,
            blocks,
            entry,
        };
        Some((rule, rng))
    }

    fn judged(&self, entry: &Entry) -> Answer {
        judge(&self.text, &self.list, &entry.to_bytes())
    }

    /// The judgement, the run with its steps, and what broke.
    fn said(&self, entry: &Entry) -> [String; 3] {
        let bytes = entry.to_bytes();
        [
            short(judge(&self.text, &self.list, &bytes)),
            short(run(&self.list, &self.blocks, &bytes)),
            short_explanation(explain(&self.text, &self.list, &bytes)),
        ]
    }

    fn rechecked(&self, earlier: Answer, new: &Entry) -> Rechecked {
        let (old, new) = (self.entry.to_bytes(), new.to_bytes());
        recheck(&self.text, &self.list, &old, earlier, &new)
    }

    /// Other records for all keys that the text does not name, and another priority
    /// where it does not name that.
    fn others_changed(&self, rng: &mut Rng) -> Entry {
        let mut other = good(rng, &self.keys);
        for index in 0..self.keys.len() {
            if self.summary.names(index) {
                other.records[index] = self.entry.records[index];
            }
        }
        if self.summary.priority {
            other.priority = self.entry.priority;
        }
        other
    }

    /// The indices of the absent records.
    fn absent(&self) -> Vec<usize> {
        let records = self.entry.records.iter().enumerate();
        records
            .filter(|(_, record)| !record.present)
            .map(|(index, _)| index)
            .collect()
    }

    fn spelled_out(&self, among: &[usize]) -> Entry {
        let mut other = self.entry.clone();
        for &index in among {
            other.records[index] = Record::ABSENT.reading(&self.keys[index].key());
        }
        other
    }
}

#[test]
fn what_is_not_named_changes_nothing() {
    let (mut changed, mut violated, mut other_priority) = (0, 0, 0);
    for index in 0..ITEMS {
        let Some((rule, mut rng)) = Rule::generated(71, index) else {
            continue;
        };
        let other = rule.others_changed(&mut rng);
        let shown = rule.text.escape_ascii();
        assert_eq!(rule.said(&other), rule.said(&rule.entry), "{shown}");
        let answer = rule.judged(&rule.entry);
        let again = rule.rechecked(answer, &other);
        assert_eq!(again, Rechecked::Reused(answer), "{shown}");
        let differs = other.records != rule.entry.records;
        changed += usize::from(differs);
        violated += usize::from(differs && answer == Answer::Violated);
        other_priority += usize::from(other.priority != rule.entry.priority);
    }
    assert!(changed > 1_500, "{changed}");
    assert!(violated > 800, "{violated}");
    assert!(other_priority > 1_500, "{other_priority}");
}

#[test]
fn what_is_spelled_out_changes_nothing() {
    let (mut named, mut unnamed) = (0, 0);
    for index in 0..ITEMS {
        let Some((rule, mut rng)) = Rule::generated(72, index) else {
            continue;
        };
        let absent = rule.absent();
        let some: Vec<usize> = absent.iter().copied().filter(|_| rng.one_in(2)).collect();
        for among in [&absent, &some] {
            let other = rule.spelled_out(among);
            let shown = rule.text.escape_ascii();
            assert_eq!(rule.said(&other), rule.said(&rule.entry), "{shown}");
            // A record that is named differs in its bytes, so its entry is judged.
            let answer = rule.judged(&rule.entry);
            let wanted = if among.iter().any(|&index| rule.summary.names(index)) {
                named += 1;
                Rechecked::Judged(answer)
            } else {
                unnamed += usize::from(!among.is_empty());
                Rechecked::Reused(answer)
            };
            assert_eq!(rule.rechecked(answer, &other), wanted, "{shown}");
        }
    }
    assert!(named > 500, "{named}");
    assert!(unnamed > 600, "{unnamed}");
}

/// Whoever made the blocks.
#[test]
fn blocks_from_elsewhere_run_alike_on_what_is_spelled_out() {
    let mut ran = 0;
    for index in 0..ITEMS {
        let [list, blocks, entry] = generated(Call::Run, 73, index).inputs;
        let Ok(keys) = key_list(&list) else {
            continue;
        };
        let Ok(mut other) = Entry::from_bytes(&entry, &keys) else {
            continue;
        };
        for (record, key) in other.records.iter_mut().zip(&keys) {
            *record = record.reading(key);
        }
        let (was, is) = (
            run(&list, &blocks, &entry),
            run(&list, &blocks, &other.to_bytes()),
        );
        assert_eq!(is, was);
        let differs = other.to_bytes() != entry;
        ran += usize::from(differs && matches!(was, Answer::Ran(_)));
    }
    assert!(ran > 400, "{ran}");
}

/// Another record of one key that the text names, or another priority where it names
/// that, sways many a text; so what is said above is not said of nothing.
#[test]
fn what_is_named_sways() {
    let (mut by_record, mut by_priority) = (0, 0);
    for index in 0..ITEMS {
        let Some((rule, mut rng)) = Rule::generated(74, index) else {
            continue;
        };
        let named: Vec<usize> = (0..rule.keys.len())
            .filter(|&index| rule.summary.names(index))
            .collect();
        let mut other = rule.entry.clone();
        if !named.is_empty() {
            let one = rng.pick(&named);
            other.records[one] = good_record(&mut rng, &rule.keys[one]);
            by_record += usize::from(rule.judged(&other) != rule.judged(&rule.entry));
        }
        if rule.summary.priority {
            let priority = good(&mut rng, &rule.keys).priority;
            let other = Entry {
                priority,
                ..rule.entry.clone()
            };
            by_priority += usize::from(rule.judged(&other) != rule.judged(&rule.entry));
        }
    }
    assert!(by_record > 200, "{by_record}");
    assert!(by_priority > 100, "{by_priority}");
}

/// "Refused entries are not covered": a broken record that the text does not name
/// refuses the entry.
#[test]
fn refused_entries_are_not_covered() {
    let text = b"v == 1";
    let (list, entry) = (common::list(), common::entry());
    assert_eq!(judge(text, &list, &entry), Answer::Accepted);
    let mut broken = entry;
    // o with value 5 and mask 7, which is neither 0 nor 15.
    let record = &mut broken[Entry::size(4)..];
    (record[0], record[19], record[35]) = (1, 5, 7);
    assert_eq!(short(judge(text, &list, &broken)), "20 entry 148");
}
