//! Document 02, request m: "A program reads a key list, a text and a file of entries laid
//! end to end, and writes for each top-level ";" part the number of conforming entries
//! for which it is false, then the totals accepted, violated and refused. The three
//! totals add up to the number of whole entries; a cut last entry enters no total.
//! Beyond 1,000,000 whole entries it writes only "refusal 25" (new); a refused list or
//! text comes before that and gives only "refusal", its number and its offset."
//!
//! Every part is counted on its own, whatever the others say of the entry.

use std::fmt;

use super::answers::{Input, Refusal};
use super::entries::Entry;
use super::keys::Key;
use super::meaning::holds;
use super::types::Typed;

/// As many whole entries are counted.
pub const MOST_ENTRIES: usize = 1_000_000;

/// The number of the refusal of more, the one whose place the program does not write.
const TOO_MANY: u8 = 25;

/// What is counted in a file of entries.
#[derive(Clone, PartialEq, Eq, Debug, Default)]
pub struct Counts {
    /// For each part, the conforming entries for which it is false.
    pub parts: Vec<usize>,
    pub accepted: usize,
    pub violated: usize,
    pub refused: usize,
    /// The bytes of a cut last entry; 0 if none is cut.
    pub cut: usize,
}

/// Refuses more than 1,000,000 whole entries, at the first byte of the first that is
/// too many. The documents give no place: this is where the 1,025th token has its own.
pub fn not_too_many(entries: &[u8], keys: &[Key]) -> Result<(), Refusal> {
    let size = Entry::size(keys.len());
    if entries.len() / size > MOST_ENTRIES {
        return Err(Refusal::new(TOO_MANY, Input::Entry, MOST_ENTRIES * size));
    }
    Ok(())
}

impl Counts {
    /// The counts of a good text, with its parts, over entries laid end to end.
    pub fn of(text: &Typed, parts: &[Typed], keys: &[Key], entries: &[u8]) -> Counts {
        let whole = entries.chunks_exact(Entry::size(keys.len()));
        let cut = whole.remainder().len();
        let read = whole.map(|entry| Entry::from_bytes(entry, keys));
        let conforming = read.clone().filter_map(Result::ok);
        let holding = |tree: &Typed, wanted: bool| {
            let entries = conforming.clone();
            entries
                .filter(|entry| holds(tree, keys, entry) == wanted)
                .count()
        };
        Counts {
            parts: parts.iter().map(|part| holding(part, false)).collect(),
            accepted: holding(text, true),
            violated: holding(text, false),
            refused: read.filter(Result::is_err).count(),
            cut,
        }
    }
}

/// What the program `count` writes: "the whole output is the six lines "part 1 0",
/// "part 2 2", "accepted 0", "violated 2", "refused 0", "cut 3"; the last stands only
/// where an entry is cut."
pub fn output(counted: &Result<Counts, Refusal>) -> String {
    match counted {
        Ok(counts) => counts.lines(),
        Err(refusal) if refusal.number == TOO_MANY => format!("refusal {TOO_MANY}\n"),
        Err(refusal) => format!("refusal {} {}\n", refusal.number, refusal.offset),
    }
}

impl Counts {
    fn lines(&self) -> String {
        let numbered = self.parts.iter().zip(1..);
        let mut lines: Vec<String> = numbered
            .map(|(count, number)| format!("part {number} {count}\n"))
            .collect();
        lines.push(format!("accepted {}\n", self.accepted));
        lines.push(format!("violated {}\n", self.violated));
        lines.push(format!("refused {}\n", self.refused));
        if self.cut > 0 {
            lines.push(format!("cut {}\n", self.cut));
        }
        lines.concat()
    }
}

/// The line of the program `answers`.
impl fmt::Display for Counts {
    fn fmt(&self, out: &mut fmt::Formatter) -> fmt::Result {
        let (accepted, violated) = (self.accepted, self.violated);
        write!(
            out,
            "counted {accepted} {violated} {} {}",
            self.refused, self.cut
        )?;
        for count in &self.parts {
            write!(out, " {count}")?;
        }
        Ok(())
    }
}
