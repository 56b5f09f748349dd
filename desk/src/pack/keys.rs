//! Readable key lists.

use super::lines::{lines, Problem};
use crate::lists::NamedKey;
use crate::reference::keys::{is_key_name, Key, Kind, Presence};

/// The word after the width of a key that no entry may leave out.
const REQUIRED: &str = "required";

/// The keys that a readable list names.
pub fn keys_from_text(text: &[u8]) -> Result<Vec<NamedKey>, Problem> {
    let mut keys: Vec<NamedKey> = Vec::new();
    for line in lines(text) {
        let (line, content) = line?;
        let key = key_from_line(content)
            .and_then(|key| fits_after(&keys, key))
            .map_err(|what| Problem { line, what })?;
        keys.push(key);
    }
    Ok(keys)
}

fn key_from_line(content: &str) -> Result<NamedKey, String> {
    let words: Vec<&str> = content.split_whitespace().collect();
    let (name, kind, width, presence) = match words[..] {
        [name, kind, width] => (name, kind, width, Presence::Free),
        [name, kind, width, REQUIRED] => (name, kind, width, Presence::Required),
        _ => {
            return Err(format!(
                "a line is a name, a kind and a width, and may end in {REQUIRED}"
            ))
        }
    };
    if !is_key_name(name.as_bytes()) {
        return Err(format!("{name} cannot name a key"));
    }
    if name.len() > Key::LONGEST_NAME {
        return Err(format!("{name} has {} bytes, over 64", name.len()));
    }
    let Some(kind) = Kind::ALL.into_iter().find(|k| k.name() == kind) else {
        return Err(format!(
            "{kind} is none of exact, ternary, lpm, range, optional"
        ));
    };
    match width.parse() {
        Ok(width) if (1..=Key::WIDEST).contains(&width) => {
            Ok(NamedKey::new(name.as_bytes(), kind, width).with(presence))
        }
        _ => Err(format!("{width} is no width from 1 to 128")),
    }
}

fn fits_after(keys: &[NamedKey], key: NamedKey) -> Result<NamedKey, String> {
    if keys.iter().any(|earlier| earlier.name == key.name) {
        let name = String::from_utf8_lossy(&key.name);
        return Err(format!("{name} is named twice"));
    }
    if keys.len() == Key::MOST {
        return Err("a list has at most 32 keys".to_string());
    }
    Ok(key)
}

/// The readable list of these keys.
pub fn keys_to_text(keys: &[Key]) -> String {
    keys.iter().map(key_to_line).collect()
}

fn key_to_line(key: &Key) -> String {
    let name = String::from_utf8_lossy(key.name);
    let key_alone = format!("{name} {} {}", key.kind.name(), key.width);
    match key.presence {
        Presence::Free => format!("{key_alone}\n"),
        Presence::Required => format!("{key_alone} {REQUIRED}\n"),
    }
}
