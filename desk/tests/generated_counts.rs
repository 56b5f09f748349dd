//! What is true of every count, and what the generated requests reach of it.

mod common;

use std::collections::{BTreeMap, BTreeSet};

use common::{generated, short};
use desk::generate::explanations::MOST_PARTS;
use desk::generate::rng::Rng;
use desk::reference::counting::output;
use desk::reference::entries::Entry;
use desk::reference::keys::{key_list, Key};
use desk::reference::parts::parts;
use desk::reference::{check, count, explain, judge, Answer, Counts, Explanation};
use desk::requests::{Call, LONGEST_INPUT};

/// A generated request to count that is counted.
struct Counted {
    text: Vec<u8>,
    list: Vec<u8>,
    entries: Vec<u8>,
    /// The bytes of one entry.
    size: usize,
    counts: Counts,
}

impl Counted {
    fn generated(seed: u64, index: u64) -> Option<Counted> {
        let [text, list, entries] = generated(Call::Count, seed, index).inputs;
        let counts = count(&text, &list, &entries).ok()?;
        let size = Entry::size(list.len() / Key::SIZE);
        Some(Counted {
            text,
            list,
            entries,
            size,
            counts,
        })
    }

    fn whole(&self) -> Vec<&[u8]> {
        self.entries.chunks_exact(self.size).collect()
    }

    /// The counts of other entries for the same text and list.
    fn count(&self, entries: &[u8]) -> Counts {
        count(&self.text, &self.list, entries).expect("the text is good")
    }
}

/// The counts of two files, one behind the other.
fn sum(one: &Counts, other: &Counts) -> Counts {
    let parts = one.parts.iter().zip(&other.parts);
    Counts {
        parts: parts.map(|(one, other)| one + other).collect(),
        accepted: one.accepted + other.accepted,
        violated: one.violated + other.violated,
        refused: one.refused + other.refused,
        cut: one.cut + other.cut,
    }
}

#[test]
fn totals_add_up() {
    let mut counted = 0;
    for request in (0..4_000).filter_map(|index| Counted::generated(71, index)) {
        let counts = &request.counts;
        let total = counts.accepted + counts.violated + counts.refused;
        assert_eq!(total, request.whole().len());
        assert_eq!(total * request.size + counts.cut, request.entries.len());
        assert!(counts.cut < request.size);
        let pieces = parts(&request.text).expect("a good text");
        assert_eq!(counts.parts.len(), pieces.len());
        counted += 1;
    }
    assert!(counted > 2_500, "{counted}");
}

/// An entry is violated exactly where some part is false: no part is false more often
/// than that, and all together are at least so often.
#[test]
fn violated_by_parts() {
    let (mut none, mut some, mut several) = (0, 0, 0);
    for request in (0..4_000).filter_map(|index| Counted::generated(72, index)) {
        let Counts {
            parts, violated, ..
        } = &request.counts;
        assert!(parts.iter().all(|part| part <= violated));
        let all: usize = parts.iter().sum();
        assert!(all >= *violated);
        assert_eq!(*violated == 0, parts.iter().all(|&part| part == 0));
        none += usize::from(*violated == 0);
        some += usize::from(*violated > 0);
        several += usize::from(all > *violated);
    }
    let reached = [none, some, several];
    assert!(reached.iter().all(|&count| count > 500), "{reached:?}");
}

/// The totals are the judgements of the entries, one by one, and a part's number is the
/// number of entries that are violated by that part as a text of its own.
#[test]
fn counts_are_judgements() {
    let mut judged = 0;
    for request in (0..1_500).filter_map(|index| Counted::generated(73, index)) {
        if request.entries.len() > LONGEST_INPUT / 4 || request.counts.parts.len() > 40 {
            continue;
        }
        let whole = request.whole();
        let answered = |text: &[u8], wanted: &str| {
            let lines = whole.iter().map(|entry| judge(text, &request.list, entry));
            lines
                .filter(|&line| short(line).starts_with(wanted))
                .count()
        };
        let pieces = parts(&request.text).expect("a good text");
        let wanted = Counts {
            parts: pieces
                .iter()
                .map(|part| answered(part.piece.bytes, "V"))
                .collect(),
            accepted: answered(&request.text, "A"),
            violated: answered(&request.text, "V"),
            refused: answered(&request.text, "20 entry "),
            cut: request.entries.len() % request.size,
        };
        assert_eq!(request.counts, wanted, "{}", request.text.escape_ascii());
        judged += whole.len();
    }
    assert!(judged > 4_000, "{judged}");
}

/// One entry: its judgement; and the first part with a number is the one that an
/// explanation names.
#[test]
fn one_entry_is_its_judgement() {
    let mut counts = BTreeMap::new();
    for request in (0..1_500).filter_map(|index| Counted::generated(74, index)) {
        for entry in request.whole().into_iter().take(4) {
            let found = request.count(entry);
            let totals = [found.accepted, found.violated, found.refused];
            let judged = judge(&request.text, &request.list, entry);
            let wanted = match judged {
                Answer::Accepted => [1, 0, 0],
                Answer::Violated => [0, 1, 0],
                _ => [0, 0, 1],
            };
            assert_eq!(totals, wanted);
            let first = found.parts.iter().position(|&part| part == 1);
            let named = match explain(&request.text, &request.list, entry) {
                Explanation::Part { number, .. } => Some(number - 1),
                _ => None,
            };
            assert_eq!(first, named);
            *counts.entry(totals).or_insert(0) += 1;
        }
    }
    assert_eq!(counts.len(), 3);
    assert!(counts.values().all(|&count| count > 500), "{counts:?}");
}

/// The counts of two stretches of whole entries add up to those of both; the cut entry
/// is in the last.
#[test]
fn stretches_add_up() {
    let mut added = 0;
    for index in 0..4_000 {
        let Some(request) = Counted::generated(75, index) else {
            continue;
        };
        let mut rng = Rng::for_item(76, index);
        let whole = request.whole().len();
        let (front, back) = request
            .entries
            .split_at(rng.between(0, whole) * request.size);
        let (front, back) = (request.count(front), request.count(back));
        assert_eq!(front.cut, 0);
        assert_eq!(sum(&front, &back), request.counts);
        added += usize::from(front.violated > 0 && back.violated > 0);
    }
    assert!(added > 400, "{added}");
}

/// The order of the entries plays no part, nor do the bytes of the cut one.
#[test]
fn order_plays_no_part() {
    let mut changed = 0;
    for request in (0..2_500).filter_map(|index| Counted::generated(77, index)) {
        let mut whole = request.whole();
        whole.reverse();
        let cut = vec![0xff; request.counts.cut];
        let turned = [whole.concat(), cut].concat();
        assert_eq!(request.count(&turned), request.counts);
        changed += usize::from(turned != request.entries);
    }
    assert!(changed > 1_200, "{changed}");
}

/// Text and list are refused as `check` refuses them, and then nothing is counted.
#[test]
fn refusals_are_those_of_a_check() {
    let mut refused = 0;
    for index in 0..4_000 {
        let [text, list, entries] = generated(Call::Count, 78, index).inputs;
        let counted = count(&text, &list, &entries);
        let lines = output(&counted);
        match check(&text, &list) {
            Answer::Passed => assert!(counted.is_ok() && lines.starts_with("part 1 ")),
            Answer::Refused {
                number,
                input,
                offset,
            } => {
                let refusal = counted.expect_err("refused");
                assert_eq!((refusal.number, refusal.input), (number, input));
                assert_eq!(lines, format!("refusal {number} {offset}\n"));
                refused += 1;
            }
            other => panic!("{other}"),
        }
    }
    assert!(refused > 500, "{refused}");
}

/// The lines of the program say what the line of `answers` says.
#[test]
fn lines_tell_the_same() {
    for request in (0..1_000).filter_map(|index| Counted::generated(79, index)) {
        let counts = &request.counts;
        let lines = output(&Ok(counts.clone()));
        let numbers: Vec<&str> = lines
            .lines()
            .filter_map(|line| line.rsplit(' ').next())
            .collect();
        let (parts, totals) = numbers.split_at(counts.parts.len());
        let cut = totals.get(3).unwrap_or(&"0");
        let line = [&["counted"], &totals[..3], &[*cut], parts]
            .concat()
            .join(" ");
        assert_eq!(line, counts.to_string());
        assert_eq!(totals.len(), if counts.cut > 0 { 4 } else { 3 });
        assert!(lines.ends_with('\n'));
    }
}

/// Of what sort the file of a request is.
fn sorts_of_file(request: &Counted) -> Vec<&'static str> {
    let Counts {
        accepted,
        violated,
        refused,
        cut,
        ..
    } = request.counts;
    let whole = accepted + violated + refused;
    let keys = request.list.len() / Key::SIZE;
    let mut sorts = vec![match whole {
        0 if cut == 0 => "an empty file",
        0 => "only a cut entry",
        1 => "one entry",
        2..=9 => "a few entries",
        10..=40 => "some dozen entries",
        _ => "many entries",
    }];
    sorts.push(match keys {
        0 => "no keys",
        Key::MOST => "32 keys",
        _ => "some keys",
    });
    sorts.push(match cut {
        0 => "no cut entry",
        1 => "a cut entry of one byte",
        _ if cut == request.size - 1 => "a cut entry that lacks a byte",
        _ if (cut - cut.min(4)).is_multiple_of(36) && cut >= 4 => "a cut entry of whole records",
        _ => "another cut entry",
    });
    let mixed = [accepted, violated, refused].map(|count| count > 0);
    sorts.extend((mixed == [true; 3]).then_some("all three totals"));
    sorts.extend((whole > 0 && refused == whole).then_some("all refused"));
    sorts.extend((request.entries.len() == LONGEST_INPUT).then_some("the longest file"));
    sorts
}

/// How the parts of a request come out.
fn sorts_of_parts(counts: &Counts) -> Vec<&'static str> {
    let parts = &counts.parts;
    let mut sorts = vec![match parts.len() {
        1 => "one part",
        2..=5 => "a few parts",
        MOST_PARTS => "512 parts",
        _ => "many parts",
    }];
    let some = |part: &usize| *part > 0 && *part < counts.violated;
    sorts.extend(parts.iter().any(some).then_some("a part false for some"));
    let values: BTreeSet<usize> = parts.iter().copied().collect();
    sorts.extend((values.len() > 2).then_some("parts of three numbers"));
    sorts
}

/// Files and parts of every sort.
#[test]
fn requests_reach_every_sort() {
    let mut counts: BTreeMap<&str, usize> = BTreeMap::new();
    for request in (0..6_000).filter_map(|index| Counted::generated(80, index)) {
        let file = sorts_of_file(&request);
        for sort in [file, sorts_of_parts(&request.counts)].concat() {
            *counts.entry(sort).or_default() += 1;
        }
    }
    assert_eq!(counts.len(), 6 + 3 + 5 + 3 + 4 + 2, "{counts:#?}");
    for (sort, count) in &counts {
        assert!(*count >= 12, "{sort}: {count}");
    }
    for sort in ["all three totals", "a part false for some", "a few parts"] {
        assert!(counts[sort] > 300, "{sort}: {}", counts[sort]);
    }
}

/// The rule that an entry breaks, by the first byte of what does.
fn rule(bytes: &[u8], keys: &[Key]) -> Option<&'static str> {
    let place = Entry::from_bytes(bytes, keys).err()?.offset;
    let Some(index) = Entry::record_at(place) else {
        return Some("priority");
    };
    let record = &bytes[place..place + 36];
    Some(match record[0] {
        0 if record[1..].iter().any(|&byte| byte != 0) => "absent, and not zero",
        0 if keys[index].may_be_absent() => "absent",
        0 => "absent, and must not be",
        1 if record[2..4] != [0; 2] => "reserved bytes",
        1 => "rule of its kind, or a number too large",
        _ => "presence",
    })
}

/// Entries that are refused by each rule.
#[test]
fn entries_break_every_rule() {
    let mut counts: BTreeMap<&str, usize> = BTreeMap::new();
    for request in (0..3_000).filter_map(|index| Counted::generated(81, index)) {
        let keys = key_list(&request.list).expect("a good list");
        let whole = request.whole();
        for rule in whole.iter().take(40).filter_map(|entry| rule(entry, &keys)) {
            *counts.entry(rule).or_default() += 1;
        }
    }
    assert_eq!(counts.len(), 6, "{counts:?}");
    assert!(counts.values().all(|&count| count >= 40), "{counts:?}");
}

/// Every refusal of a text and of a list.
#[test]
fn requests_reach_every_refusal() {
    let mut counts: BTreeMap<u8, usize> = BTreeMap::new();
    for index in 0..20_000 {
        let [text, list, entries] = generated(Call::Count, 82, index).inputs;
        if let Err(refusal) = count(&text, &list, &entries) {
            *counts.entry(refusal.number).or_default() += 1;
        }
    }
    let reached: Vec<u8> = counts.keys().copied().collect();
    let wanted: Vec<u8> = (1..=14).chain([22, 23]).collect();
    assert_eq!(reached, wanted, "{counts:?}");
    assert!(counts.values().all(|&count| count >= 15), "{counts:?}");
}
