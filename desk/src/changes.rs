//! The third input of a request to recheck: the earlier answer (a byte: 1
//! accepted, 2 violated, any other refused with 20 at entry 0), the length of the
//! old entry in 4 bytes, big-endian, the old entry, and the new entry.

use crate::reference::{Answer, Input};

pub const ACCEPTED: u8 = 1;
pub const VIOLATED: u8 = 2;

/// A change of an entry.
#[derive(Clone, PartialEq, Eq, Debug)]
pub struct Change {
    /// The byte that stands for the earlier answer.
    pub earlier: u8,
    pub old: Vec<u8>,
    pub new: Vec<u8>,
}

impl Change {
    /// What stands before the old entry.
    pub const HEAD: usize = 5;

    /// The change in these bytes, unless they are shorter than what stands before
    /// the old entry, or than the old entry.
    pub fn from_bytes(bytes: &[u8]) -> Option<Change> {
        let (head, entries) = bytes.split_at_checked(Change::HEAD)?;
        let length = u32::from_be_bytes(head[1..].try_into().expect("4 bytes"));
        let (old, new) = entries.split_at_checked(usize::try_from(length).ok()?)?;
        Some(Change {
            earlier: head[0],
            old: old.to_vec(),
            new: new.to_vec(),
        })
    }

    pub fn to_bytes(&self) -> Vec<u8> {
        let length = u32::try_from(self.old.len()).expect("entries are short");
        [
            &[self.earlier],
            &length.to_be_bytes()[..],
            &self.old,
            &self.new,
        ]
        .concat()
    }

    pub fn earlier_answer(&self) -> Answer {
        match self.earlier {
            ACCEPTED => Answer::Accepted,
            VIOLATED => Answer::Violated,
            _ => Answer::Refused {
                number: 20,
                input: Input::Entry,
                offset: 0,
            },
        }
    }
}
