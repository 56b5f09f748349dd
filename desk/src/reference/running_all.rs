//! Beyond document 02: "A controller sends tables, not entries; a switch should load once
//! and judge many." A run of a whole table "loads once, then a byte for each entry laid
//! end to end (accepted, violated, refused 20); later bytes of the answers stay; a wrong
//! length is 19 at its length, too few answer bytes 15." "Byte i is what `run` says of
//! entry i", and "steps are summed".

use std::fmt;

use super::answers::{Input, Refusal};
use super::entries::Entry;
use super::running::Outcome;

/// The bytes for what is said of an entry.
pub const REFUSED: u8 = 0;
pub const ACCEPTED: u8 = 1;
pub const VIOLATED: u8 = 2;

/// What is told of a table besides its bytes.
#[derive(Clone, Copy, PartialEq, Eq, Debug)]
pub struct Totals {
    pub entries: usize,
    /// The steps of all of them, modulo 2^64.
    pub steps: u64,
}

/// The entries laid end to end, none of which may be cut: refusal 19.
pub fn whole_entries(entries: &[u8], keys: usize) -> Result<Vec<&[u8]>, Refusal> {
    let whole = entries.chunks_exact(Entry::size(keys));
    if !whole.remainder().is_empty() {
        return Err(Refusal::new(19, Input::Entry, entries.len()));
    }
    Ok(whole.collect())
}

/// The answers must have a byte for each of so many entries: refusal 15.
pub fn enough_answers(answers: &[u8], entries: usize) -> Result<(), Refusal> {
    if answers.len() < entries {
        return Err(Refusal::new(15, Input::Buffer, answers.len()));
    }
    Ok(())
}

/// The byte for an entry that came to this, or for one that is refused.
pub fn verdict_byte(outcome: Option<Outcome>) -> u8 {
    match outcome {
        Some(outcome) if outcome.accepted => ACCEPTED,
        Some(_) => VIOLATED,
        None => REFUSED,
    }
}

impl Totals {
    /// The totals of a table whose entries came to this; a refused one takes no step.
    pub fn of(outcomes: &[Option<Outcome>]) -> Totals {
        let taken = outcomes.iter().flatten().map(|outcome| outcome.steps);
        Totals {
            entries: outcomes.len(),
            steps: taken.fold(0, |sum, steps| sum.wrapping_add(steps as u64)),
        }
    }
}

/// The line of the program `answers`, without the sum of the answers.
impl fmt::Display for Totals {
    fn fmt(&self, out: &mut fmt::Formatter) -> fmt::Result {
        write!(out, "ran {} {}", self.entries, self.steps)
    }
}
