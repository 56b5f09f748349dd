//! Document 01, "Key list and entry": "A key list is 0 to 32 records of 80
//! bytes. Byte 0: name length, 1 to 64. Byte 1: kind [...]. Byte 2: width W, 1
//! to 128. Bytes 3 to 15 zero. Bytes 16 to 79: the name, a key by 004's grammar
//! and neither "true" nor "false", then zeros." Refusals 2, 3 and 4.
//!
//! Document 02, request i: "Byte 3 of a key record becomes a flag, 0 or 1; with 1
//! the key must be present, and its absence is number 20. Other values are number
//! 3. Old lists have 0 there and read as before." Bytes 4 to 15 stay zero. Request k,
//! of the names of a contract's inputs: "2 to 4 as before, and a record of another kind
//! or width, or a 17th, is number 3 at it."

use super::answers::{Input, Refusal};
use super::pact::MOST_INDICES;
use super::types::Type;
use super::words::word_length;

#[derive(Clone, Copy, PartialEq, Eq, Debug)]
pub enum Kind {
    Exact,
    Ternary,
    Lpm,
    Range,
    Optional,
}

impl Kind {
    /// All kinds; each stands at the index that its byte names.
    pub const ALL: [Kind; 5] = [
        Kind::Exact,
        Kind::Ternary,
        Kind::Lpm,
        Kind::Range,
        Kind::Optional,
    ];

    pub fn from_byte(byte: u8) -> Option<Kind> {
        Kind::ALL.get(usize::from(byte)).copied()
    }

    pub fn byte(self) -> u8 {
        self as u8
    }

    pub fn name(self) -> &'static str {
        match self {
            Kind::Exact => "exact",
            Kind::Ternary => "ternary",
            Kind::Lpm => "lpm",
            Kind::Range => "range",
            Kind::Optional => "optional",
        }
    }
}

/// The flag of a key: what the list asks of every entry.
#[derive(Clone, Copy, PartialEq, Eq, Debug)]
pub enum Presence {
    /// Nothing: an entry may leave the key out, as far as its kind allows that.
    Free,
    /// The key must be present.
    Required,
}

impl Presence {
    /// Both flags; each stands at the index that its byte names.
    pub const ALL: [Presence; 2] = [Presence::Free, Presence::Required];

    pub fn from_byte(byte: u8) -> Option<Presence> {
        Presence::ALL.get(usize::from(byte)).copied()
    }

    pub fn byte(self) -> u8 {
        self as u8
    }
}

/// One good record of a key list.
#[derive(Clone, Copy, PartialEq, Eq, Debug)]
pub struct Key<'l> {
    pub name: &'l [u8],
    pub kind: Kind,
    pub width: u8,
    pub presence: Presence,
}

impl<'l> Key<'l> {
    pub const SIZE: usize = 80;
    /// The byte of the flag.
    pub const FLAG: usize = 3;
    /// The first of the bytes that are zero in every record.
    pub const RESERVED: usize = 4;
    pub const NAME_START: usize = 16;
    pub const LONGEST_NAME: usize = 64;
    pub const WIDEST: u8 = 128;
    pub const MOST: usize = 32;

    /// The key that a record of 80 bytes describes, if it keeps its layout.
    pub fn from_record(record: &'l [u8]) -> Option<Key<'l>> {
        let length = usize::from(record[0]);
        let kind = Kind::from_byte(record[1])?;
        let width = record[2];
        let presence = Presence::from_byte(record[Key::FLAG])?;
        if !(1..=Key::LONGEST_NAME).contains(&length) || !(1..=Key::WIDEST).contains(&width) {
            return None;
        }
        let (name, rest) = record[Key::NAME_START..].split_at(length);
        let reserved = &record[Key::RESERVED..Key::NAME_START];
        if !is_key_name(name) || !all_zero(reserved) || !all_zero(rest) {
            return None;
        }
        Some(Key {
            name,
            kind,
            width,
            presence,
        })
    }

    /// The record of 80 bytes that describes this key.
    pub fn to_record(&self) -> [u8; Key::SIZE] {
        let mut record = [0; Key::SIZE];
        record[0] = u8::try_from(self.name.len()).expect("names are short");
        record[1] = self.kind.byte();
        record[2] = self.width;
        record[Key::FLAG] = self.presence.byte();
        record[Key::NAME_START..Key::NAME_START + self.name.len()].copy_from_slice(self.name);
        record
    }

    /// May an entry leave this key out? An exact key it may not, flag or no flag.
    pub fn may_be_absent(&self) -> bool {
        self.kind != Kind::Exact && self.presence == Presence::Free
    }

    /// The type of the bare key.
    pub fn bare_type(&self) -> Type {
        match self.kind {
            Kind::Exact => Type::Bits(self.width),
            kind => Type::Match(kind, self.width),
        }
    }
}

/// May a key be called this? (The length is not looked at.)
pub fn is_key_name(name: &[u8]) -> bool {
    !name.is_empty() && word_length(name) == name.len() && name != b"true" && name != b"false"
}

pub fn all_zero(bytes: &[u8]) -> bool {
    bytes.iter().all(|&byte| byte == 0)
}

/// The index of the key of this name.
pub fn find(keys: &[Key], name: &[u8]) -> Option<usize> {
    keys.iter().position(|key| key.name == name)
}

/// The keys of a list: stage 2, then stage 3 and 4.
pub fn key_list(list: &[u8]) -> Result<Vec<Key<'_>>, Refusal> {
    listed(list, |_, _| true)
}

/// The names of a contract's inputs, with the stages of a list.
pub fn name_list(list: &[u8]) -> Result<Vec<Key<'_>>, Refusal> {
    listed(list, |index, key| {
        key.kind == Kind::Exact && key.width == NAME_WIDTH && index < MOST_INDICES
    })
}

/// "all exact keys of width 64"
pub const NAME_WIDTH: u8 = 64;

/// The keys of a list; a record that may not stand at its index is number 3 as well.
fn listed(list: &[u8], may_stand: fn(usize, &Key) -> bool) -> Result<Vec<Key<'_>>, Refusal> {
    if !list.len().is_multiple_of(Key::SIZE) || list.len() > Key::MOST * Key::SIZE {
        return Err(Refusal::new(2, Input::List, list.len()));
    }
    let mut keys = Vec::new();
    for (index, record) in list.chunks(Key::SIZE).enumerate() {
        let place = index * Key::SIZE;
        let Some(key) = Key::from_record(record).filter(|key| may_stand(index, key)) else {
            return Err(Refusal::new(3, Input::List, place));
        };
        if find(&keys, key.name).is_some() {
            return Err(Refusal::new(4, Input::List, place));
        }
        keys.push(key);
    }
    Ok(keys)
}
