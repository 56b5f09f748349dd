//! Document 01, "Key list and entry": "An entry for n keys has exactly 4 + 36n
//! bytes, numbers big-endian. Bytes 0 to 3: priority, below 2^31. Each key's
//! record: byte 0 present (0 or 1); byte 1 prefix length; bytes 2, 3 zero; 16
//! bytes first number (value or low); 16 bytes second number (mask or high).
//! Fields a kind lacks are zero. Numbers are below 2^W." Refusals 19 and 20.
//! Document 02, request i: where the key's flag is 1, "the key must be present, and
//! its absence is number 20."

use super::answers::{Input, Refusal};
use super::keys::{all_zero, Key, Kind};
use super::numbers::{all_ones, lowest_bits};

/// An entry that conforms to its key list.
#[derive(Clone, PartialEq, Eq, Debug)]
pub struct Entry {
    pub priority: u32,
    pub records: Vec<Record>,
}

/// A key's record, its fields as they stand in the bytes.
#[derive(Clone, Copy, PartialEq, Eq, Debug)]
pub struct Record {
    pub present: bool,
    pub prefix_length: u8,
    pub first: u128,
    pub second: u128,
}

impl Entry {
    pub const PRIORITY_SIZE: usize = 4;
    pub const PRIORITY_LIMIT: u32 = 1 << 31;

    pub fn size(keys: usize) -> usize {
        Entry::PRIORITY_SIZE + keys * Record::SIZE
    }

    /// The index of the record at this place; none at the priority.
    pub fn record_at(place: usize) -> Option<usize> {
        let beyond = place.checked_sub(Entry::PRIORITY_SIZE)?;
        Some(beyond / Record::SIZE)
    }

    /// The entry that these bytes hold: stage 19, then stage 20.
    pub fn from_bytes(bytes: &[u8], keys: &[Key]) -> Result<Entry, Refusal> {
        if bytes.len() != Entry::size(keys.len()) {
            return Err(Refusal::new(19, Input::Entry, bytes.len()));
        }
        let (head, rest) = bytes.split_at(Entry::PRIORITY_SIZE);
        let priority = u32::from_be_bytes(head.try_into().expect("4 bytes"));
        if priority >= Entry::PRIORITY_LIMIT {
            return Err(Refusal::new(20, Input::Entry, 0));
        }
        let mut records = Vec::new();
        for (index, key) in keys.iter().enumerate() {
            let start = index * Record::SIZE;
            let Some(record) = Record::from_bytes(&rest[start..start + Record::SIZE], key) else {
                let place = Entry::PRIORITY_SIZE + start;
                return Err(Refusal::new(20, Input::Entry, place));
            };
            records.push(record);
        }
        Ok(Entry { priority, records })
    }

    pub fn to_bytes(&self) -> Vec<u8> {
        let mut bytes = self.priority.to_be_bytes().to_vec();
        for record in &self.records {
            bytes.extend_from_slice(&record.to_bytes());
        }
        bytes
    }
}

impl Record {
    pub const SIZE: usize = 36;

    pub const ABSENT: Record = Record {
        present: false,
        prefix_length: 0,
        first: 0,
        second: 0,
    };

    /// The record in 36 bytes, if it keeps every rule for this key.
    pub fn from_bytes(bytes: &[u8], key: &Key) -> Option<Record> {
        let present = match bytes[0] {
            0 => false,
            1 => true,
            _ => return None,
        };
        if !all_zero(&bytes[2..4]) {
            return None;
        }
        let record = Record {
            present,
            prefix_length: bytes[1],
            first: u128::from_be_bytes(bytes[4..20].try_into().expect("16 bytes")),
            second: u128::from_be_bytes(bytes[20..36].try_into().expect("16 bytes")),
        };
        record.conforms(key).then_some(record)
    }

    pub fn to_bytes(self) -> [u8; Record::SIZE] {
        let mut bytes = [0; Record::SIZE];
        bytes[0] = u8::from(self.present);
        bytes[1] = self.prefix_length;
        bytes[4..20].copy_from_slice(&self.first.to_be_bytes());
        bytes[20..36].copy_from_slice(&self.second.to_be_bytes());
        bytes
    }

    /// "An absent key has 35 zero bytes after byte 0 and may not be exact", nor may
    /// it be one that must be present. "A present record that spells these out is
    /// allowed", whatever the flag.
    pub fn conforms(&self, key: &Key) -> bool {
        if !self.present {
            return *self == Record::ABSENT && key.may_be_absent();
        }
        let largest = all_ones(key.width);
        self.first <= largest && self.second <= largest && self.keeps_kind_rule(key)
    }

    fn keeps_kind_rule(&self, key: &Key) -> bool {
        let no_prefix = self.prefix_length == 0;
        let inside_mask = self.first & !self.second == 0;
        match key.kind {
            Kind::Exact => no_prefix && self.second == 0,
            Kind::Ternary => no_prefix && inside_mask,
            Kind::Optional => {
                let whole_mask = self.second == 0 || self.second == all_ones(key.width);
                no_prefix && inside_mask && whole_mask
            }
            Kind::Lpm => {
                self.second == 0
                    && self.prefix_length <= key.width
                    && low_bits_zero(self.first, key.width - self.prefix_length)
            }
            // Document 02 b: "low be no greater than high".
            Kind::Range => no_prefix && self.first <= self.second,
        }
    }

    /// What the record reads as: an absent one "reads as value 0 with mask 0,
    /// prefix length 0, or low 0 with high 2^W − 1".
    pub fn reading(&self, key: &Key) -> Record {
        if self.present {
            return *self;
        }
        let second = match key.kind {
            Kind::Range => all_ones(key.width),
            _ => 0,
        };
        Record {
            present: true,
            second,
            ..Record::ABSENT
        }
    }
}

fn low_bits_zero(number: u128, count: u8) -> bool {
    count == 0 || lowest_bits(number, count) == 0
}
