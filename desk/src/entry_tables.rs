//! The third input of a request to run a whole table: how many bytes the answers have, in
//! 4 bytes, big-endian, what they hold before, and the entries laid end to end.

/// The answers that are lent for a table of entries, and the table.
#[derive(Clone, PartialEq, Eq, Debug)]
pub struct AnswersAndEntries {
    pub answers: Vec<u8>,
    pub entries: Vec<u8>,
}

impl AnswersAndEntries {
    /// What stands before the answers.
    pub const HEAD: usize = 4;

    /// The answers and the entries in these bytes, unless they are shorter than what
    /// stands before the answers, or than the answers.
    pub fn from_bytes(bytes: &[u8]) -> Option<AnswersAndEntries> {
        let (head, rest) = bytes.split_at_checked(AnswersAndEntries::HEAD)?;
        let length = u32::from_be_bytes(head.try_into().expect("4 bytes"));
        let (answers, entries) = rest.split_at_checked(usize::try_from(length).ok()?)?;
        Some(AnswersAndEntries {
            answers: answers.to_vec(),
            entries: entries.to_vec(),
        })
    }

    pub fn to_bytes(&self) -> Vec<u8> {
        let length = u32::try_from(self.answers.len()).expect("answers are short");
        [&length.to_be_bytes()[..], &self.answers, &self.entries].concat()
    }

    /// Where the entries begin in the input.
    pub fn entries_start(&self) -> usize {
        AnswersAndEntries::HEAD + self.answers.len()
    }
}
