//! Tables of entries with the answers that are lent for them: entries as files have them,
//! now and then a byte short, a byte long, or cut anywhere; and answers of as many bytes
//! as there are entries, of one byte less, or of more.

use super::files::{cut_entry, whole};
use super::rng::Rng;
use super::{buffers, damage};
use crate::entry_tables::AnswersAndEntries;
use crate::lists::{list_bytes, NamedKey};
use crate::reference::entries::{Entry, Record};
use crate::reference::run_all;
use crate::reference::running_all::{ACCEPTED, VIOLATED};
use crate::requests::LONGEST_INPUT;

/// What a request has room for besides the length of the answers.
const ROOM: usize = LONGEST_INPUT - AnswersAndEntries::HEAD;

/// A table of entries for these keys, of which most are like this one, with answers.
pub fn table(rng: &mut Rng, keys: &[NamedKey], entry: &Entry) -> AnswersAndEntries {
    let size = Entry::size(keys.len());
    // Each entry needs a byte of the answers too.
    let mut entries = whole(rng, keys, entry, ROOM / (size + 1));
    if rng.one_in(9) {
        spoil_length(rng, keys, entry, &mut entries);
    }
    let answers = buffers::for_answers(rng, entries.len() / size, ROOM - entries.len());
    AnswersAndEntries { answers, entries }
}

/// Makes the entries no whole number of them, or nearly so.
fn spoil_length(rng: &mut Rng, keys: &[NamedKey], entry: &Entry, entries: &mut Vec<u8>) {
    match rng.below(6) {
        0..=2 => damage::cut_or_extend(rng, entries),
        3 => entries.truncate(rng.below(entries.len() + 1)),
        // As if there were a key more.
        4 => entries.extend([0; Record::SIZE]),
        _ => entries.extend(cut_entry(rng, keys, entry)),
    }
    entries.truncate(ROOM);
}

/// Do the blocks accept some of the whole entries, and are others violated?
pub fn tell_apart(keys: &[NamedKey], blocks: &[u8], entries: &[u8]) -> bool {
    let count = entries.len() / Entry::size(keys.len());
    let whole = &entries[..count * Entry::size(keys.len())];
    let mut answers = vec![0; count];
    run_all(&list_bytes(keys), blocks, whole, &mut answers);
    answers.contains(&ACCEPTED) && answers.contains(&VIOLATED)
}

/// The third input of a run of a table with its length, or that of the answers, near a
/// limit.
pub fn malformed(rng: &mut Rng, table: &AnswersAndEntries) -> Vec<u8> {
    let mut bytes = table.to_bytes();
    let start = table.entries_start();
    let all = u32::try_from(bytes.len() - AnswersAndEntries::HEAD).expect("tables are short");
    let head = ..AnswersAndEntries::HEAD;
    match rng.below(6) {
        0 => bytes.truncate(rng.below(AnswersAndEntries::HEAD + 1)),
        1 => bytes.truncate(start),
        2 => bytes.truncate(start - 1),
        // All of it is answers, or one byte more is.
        3 => bytes[head].copy_from_slice(&all.to_be_bytes()),
        4 => bytes[head].copy_from_slice(&(all + 1).to_be_bytes()),
        _ => bytes[0] = rng.pick(&[1, 128, 255]),
    }
    bytes
}
