//! Document 02, request c: "For a violated entry, name the first false part
//! between top-level ";" signs, those outside parentheses, by its number from 1
//! and its root's place. For an entry refused with 20 at a key record, name the
//! key instead. The reason is handed back as the piece itself: a stretch of the
//! restriction text or the name in the key list, no copy." "Accepted entries and
//! other refusals get "nothing to show" and their own answer."

use std::fmt;

use super::answers::Answer;
use super::entries::Entry;
use super::keys::{key_list, Key};
use super::meaning::holds;
use super::parts::{parts, Piece};
use super::types::typed_text;

/// What broke: why an entry is violated or refused, if that can be shown.
#[derive(Clone, Copy, PartialEq, Eq, Debug)]
pub enum Explanation<'t, 'l> {
    /// The first false part: its number from 1, its root's place in the text and
    /// its stretch of the text.
    Part {
        number: usize,
        place: usize,
        piece: Piece<'t>,
    },
    /// The key whose record is refused with 20: the record's place in the entry
    /// and the key's name in the list.
    Key { place: usize, piece: Piece<'l> },
    /// Nothing to show, and the entry's own answer.
    Nothing(Answer),
}

impl<'a> Explanation<'a, 'a> {
    /// The piece of the text or of the list, if one is shown.
    pub fn piece(&self) -> Option<Piece<'a>> {
        match *self {
            Explanation::Part { piece, .. } | Explanation::Key { piece, .. } => Some(piece),
            Explanation::Nothing(_) => None,
        }
    }
}

/// The first part of a good text that is false of a conforming entry.
pub fn first_false_part<'t, 'l>(
    text: &'t [u8],
    list: &[u8],
    entry: &[u8],
) -> Option<Explanation<'t, 'l>> {
    let keys = key_list(list).ok()?;
    let entry = Entry::from_bytes(entry, &keys).ok()?;
    for (part, number) in parts(text).ok()?.iter().zip(1..) {
        let typed = typed_text(&part.tree, &keys).ok()?;
        if !holds(&typed, &keys, &entry) {
            return Some(Explanation::Part {
                number,
                place: part.tree.place,
                piece: part.piece,
            });
        }
    }
    None
}

/// The key of a good list whose record begins at this place of an entry; none at
/// the priority.
pub fn key_of_record<'t, 'l>(place: usize, list: &'l [u8]) -> Option<Explanation<'t, 'l>> {
    let index = Entry::record_at(place)?;
    let name = Piece {
        start: index * Key::SIZE + Key::NAME_START,
        bytes: key_list(list).ok()?.get(index)?.name,
    };
    Some(Explanation::Key { place, piece: name })
}

/// The line of the program `answers`, without the sum of the piece.
impl fmt::Display for Explanation<'_, '_> {
    fn fmt(&self, out: &mut fmt::Formatter) -> fmt::Result {
        match self {
            Explanation::Part {
                number,
                place,
                piece,
            } => write!(out, "part {number} at {place} {piece}"),
            Explanation::Key { place, piece } => write!(out, "key at {place} {piece}"),
            Explanation::Nothing(answer) => write!(out, "nothing {answer}"),
        }
    }
}
