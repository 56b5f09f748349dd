//! Wrong ways to count: the generated requests tell each of them from the right one.

mod common;

use common::generated;
use desk::reference::calls::text_tree;
use desk::reference::entries::Entry;
use desk::reference::keys::{key_list, Key};
use desk::reference::meaning::holds;
use desk::reference::parts::typed_parts;
use desk::reference::tree::{Join, Node, What};
use desk::reference::types::{typed_text, Typed};
use desk::reference::{count, Counts};
use desk::requests::Call;

/// A good text with its keys and entries.
struct File<'f> {
    text: &'f [u8],
    keys: Vec<Key<'f>>,
    entries: &'f [u8],
}

type Way = fn(&File) -> Counts;

/// What becomes of an entry, by the parts that are false for it.
enum Fate {
    Refused,
    Settled(Vec<bool>),
}

impl File<'_> {
    fn parts(&self) -> Vec<Typed> {
        typed_parts(self.text, &self.keys).expect("a good text")
    }

    fn size(&self) -> usize {
        Entry::size(self.keys.len())
    }

    fn fate(&self, bytes: &[u8], parts: &[Typed]) -> Fate {
        let Ok(entry) = Entry::from_bytes(bytes, &self.keys) else {
            return Fate::Refused;
        };
        let is_false = |part: &Typed| !holds(part, &self.keys, &entry);
        Fate::Settled(parts.iter().map(is_false).collect())
    }

    /// One entry after the other, with the parts that are false for it as this sees them.
    fn counted(&self, parts: &[Typed], entries: &[u8], seen: fn(&mut [bool])) -> Counts {
        let mut counts = Counts {
            parts: vec![0; parts.len()],
            cut: self.entries.len() % self.size(),
            ..Counts::default()
        };
        for bytes in entries.chunks_exact(self.size()) {
            let Fate::Settled(mut all) = self.fate(bytes, parts) else {
                counts.refused += 1;
                continue;
            };
            if all.contains(&true) {
                counts.violated += 1;
            } else {
                counts.accepted += 1;
            }
            seen(&mut all);
            for (part, is_false) in counts.parts.iter_mut().zip(all) {
                *part += usize::from(is_false);
            }
        }
        counts
    }
}

fn as_they_are(_: &mut [bool]) {}

fn right(file: &File) -> Counts {
    file.counted(&file.parts(), file.entries, as_they_are)
}

/// Only the first false part of an entry is counted.
fn first_false_only(file: &File) -> Counts {
    file.counted(&file.parts(), file.entries, |all| {
        let first = all.iter().position(|&is_false| is_false);
        for (index, is_false) in all.iter_mut().enumerate() {
            *is_false = Some(index) == first;
        }
    })
}

/// Only the last one.
fn last_false_only(file: &File) -> Counts {
    file.counted(&file.parts(), file.entries, |all| {
        let last = all.iter().rposition(|&is_false| is_false);
        for (index, is_false) in all.iter_mut().enumerate() {
            *is_false = Some(index) == last;
        }
    })
}

/// Parts are counted where they are true.
fn where_true(file: &File) -> Counts {
    file.counted(&file.parts(), file.entries, |all| {
        for is_false in all {
            *is_false = !*is_false;
        }
    })
}

/// A refused entry is false for every part.
fn refused_in_parts(file: &File) -> Counts {
    let mut counts = right(file);
    for part in &mut counts.parts {
        *part += counts.refused;
    }
    counts
}

/// A refused entry is false for the first part.
fn refused_in_the_first(file: &File) -> Counts {
    let mut counts = right(file);
    counts.parts[0] += counts.refused;
    counts
}

/// A refused entry is violated.
fn refused_as_violated(file: &File) -> Counts {
    let mut counts = right(file);
    counts.violated += std::mem::take(&mut counts.refused);
    counts
}

/// The cut entry is too short, so it is refused.
fn cut_as_refused(file: &File) -> Counts {
    let mut counts = right(file);
    counts.refused += usize::from(counts.cut > 0);
    counts
}

/// The cut entry is judged with zero bytes for those that it lacks.
fn cut_with_zeros(file: &File) -> Counts {
    let mut entries = file.entries.to_vec();
    entries.resize(entries.len().next_multiple_of(file.size()), 0);
    file.counted(&file.parts(), &entries, as_they_are)
}

/// The cut entry is judged with what the entry before it left in the buffer.
fn cut_with_the_one_before(file: &File) -> Counts {
    let (size, mut entries) = (file.size(), file.entries.to_vec());
    while entries.len() > size && !entries.len().is_multiple_of(size) {
        entries.push(entries[entries.len() - size]);
    }
    file.counted(&file.parts(), &entries, as_they_are)
}

/// The last whole entry is left out where none is cut.
fn last_left_out(file: &File) -> Counts {
    let whole = file.entries.len() - file.entries.len() % file.size();
    let fewer = if whole == file.entries.len() {
        whole.saturating_sub(file.size())
    } else {
        whole
    };
    file.counted(&file.parts(), &file.entries[..fewer], as_they_are)
}

/// The parts on the left spine of the tree, which has no parentheses.
fn spine<'n, 't>(node: &'n Node<'t>, wanted: &[Join]) -> Vec<&'n Node<'t>> {
    match &node.what {
        What::Join(join, left, right) if wanted.contains(join) => {
            let mut parts = spine(left, wanted);
            parts.push(right);
            parts
        }
        _ => vec![node],
    }
}

fn by_spine(file: &File, joins: &[Join]) -> Counts {
    let tree = text_tree(file.text).expect("a good text");
    let parts: Vec<Typed> = spine(&tree, joins)
        .into_iter()
        .map(|part| typed_text(part, &file.keys).expect("a good part"))
        .collect();
    file.counted(&parts, file.entries, as_they_are)
}

fn by_the_left_spine(file: &File) -> Counts {
    by_spine(file, &[Join::Sequence])
}

/// "&&" divides parts as ";" does.
fn by_every_and(file: &File) -> Counts {
    by_spine(file, &[Join::Sequence, Join::And])
}

/// All ";" signs divide, those in parentheses too.
fn by_every_sign(file: &File) -> Counts {
    fn leaves<'n, 't>(node: &'n Node<'t>) -> Vec<&'n Node<'t>> {
        match &node.what {
            What::Join(Join::Sequence, left, right) => [leaves(left), leaves(right)].concat(),
            _ => vec![node],
        }
    }
    let tree = text_tree(file.text).expect("a good text");
    let parts: Vec<Typed> = leaves(&tree)
        .into_iter()
        .map(|part| typed_text(part, &file.keys).expect("a good part"))
        .collect();
    file.counted(&parts, file.entries, as_they_are)
}

/// As many are violated as all parts together are false.
fn violated_as_sum(file: &File) -> Counts {
    let mut counts = right(file);
    counts.violated = counts.parts.iter().sum();
    counts
}

/// The cut is how many bytes the last entry lacks.
fn cut_as_missing(file: &File) -> Counts {
    let mut counts = right(file);
    counts.cut = (file.size() - counts.cut) % file.size();
    counts
}

#[test]
fn wrong_ways_are_told_from_the_right_one() {
    let ways: [(&str, Way); 16] = [
        ("right", right),
        ("first false only", first_false_only),
        ("last false only", last_false_only),
        ("where true", where_true),
        ("refused in parts", refused_in_parts),
        ("refused in the first", refused_in_the_first),
        ("refused as violated", refused_as_violated),
        ("cut as refused", cut_as_refused),
        ("cut with zeros", cut_with_zeros),
        ("cut with the one before", cut_with_the_one_before),
        ("last left out", last_left_out),
        ("by the left spine", by_the_left_spine),
        ("by every and", by_every_and),
        ("by every sign", by_every_sign),
        ("violated as sum", violated_as_sum),
        ("cut as missing", cut_as_missing),
    ];
    let mut wrong = [0; 16];
    for index in 0..3_000 {
        let [text, list, entries] = generated(Call::Count, 83, index).inputs;
        let Ok(wanted) = count(&text, &list, &entries) else {
            continue;
        };
        let file = File {
            text: &text,
            keys: key_list(&list).expect("a good list"),
            entries: &entries,
        };
        for ((_, way), count) in ways.iter().zip(&mut wrong) {
            *count += usize::from(way(&file) != wanted);
        }
    }
    assert_eq!(wrong[0], 0);
    for ((name, _), count) in ways.iter().zip(wrong).skip(1) {
        assert!(count >= 100, "{name}: wrong only {count} times");
    }
}
