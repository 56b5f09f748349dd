//! Document 02, request f: "Given the old entry, its earlier answer and the new
//! entry, the recheck reuses that answer exactly when both entries conform, no
//! named record differs and, if marked, the priority is the same; otherwise it
//! judges the new entry, refusals included. It says whether it reused."

use std::fmt;

use super::answers::Answer;
use super::entries::Entry;
use super::keys::Key;
use super::summaries::Summary;

/// What a recheck answers.
#[derive(Clone, Copy, PartialEq, Eq, Debug)]
pub enum Rechecked {
    /// The earlier answer, as it was given.
    Reused(Answer),
    /// The judgement of the new entry.
    Judged(Answer),
}

impl Rechecked {
    /// The judgement that it hands back, reused or not.
    pub fn answer(self) -> Answer {
        match self {
            Rechecked::Reused(answer) | Rechecked::Judged(answer) => answer,
        }
    }
}

/// Does the old entry's answer hold for the new one, by what the text names?
pub fn reuses(summary: Summary, keys: &[Key], old: &[u8], new: &[u8]) -> bool {
    let (Ok(old), Ok(new)) = (Entry::from_bytes(old, keys), Entry::from_bytes(new, keys)) else {
        return false;
    };
    // Absent and spelled out read alike, but as records they differ.
    let named_differs = |index: usize| {
        summary.names(index) && old.records[index].to_bytes() != new.records[index].to_bytes()
    };
    let priority_differs = summary.priority && old.priority != new.priority;
    !(0..keys.len()).any(named_differs) && !priority_differs
}

/// The line of the program `answers`.
impl fmt::Display for Rechecked {
    fn fmt(&self, out: &mut fmt::Formatter) -> fmt::Result {
        match self {
            Rechecked::Reused(answer) => write!(out, "reused {answer}"),
            Rechecked::Judged(answer) => write!(out, "judged {answer}"),
        }
    }
}
