//! Key lists under construction: keys that own their names.

use crate::reference::keys::{Key, Kind, Presence};

#[derive(Clone, PartialEq, Eq, Debug)]
pub struct NamedKey {
    pub name: Vec<u8>,
    pub kind: Kind,
    pub width: u8,
    pub presence: Presence,
}

impl NamedKey {
    /// A key that entries may leave out, as far as its kind allows that.
    pub fn new(name: &[u8], kind: Kind, width: u8) -> NamedKey {
        NamedKey {
            name: name.to_vec(),
            kind,
            width,
            presence: Presence::Free,
        }
    }

    /// The same key with this flag.
    pub fn with(self, presence: Presence) -> NamedKey {
        NamedKey { presence, ..self }
    }

    /// The same key, with its name lent.
    pub fn key(&self) -> Key<'_> {
        Key {
            name: &self.name,
            kind: self.kind,
            width: self.width,
            presence: self.presence,
        }
    }
}

/// The bytes of a key list.
pub fn list_bytes(keys: &[NamedKey]) -> Vec<u8> {
    keys.iter().flat_map(|key| key.key().to_record()).collect()
}
