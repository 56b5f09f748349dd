//! Readable entries.

use super::lines::{lines, Problem};
use super::numbers::number;
use crate::lists::NamedKey;
use crate::reference::entries::{Entry, Record};
use crate::reference::keys::{Key, Kind};
use crate::reference::numbers::all_ones;

/// Must the entries conform to their key list?
#[derive(Clone, Copy, PartialEq, Eq)]
pub enum Rules {
    Kept,
    /// Whatever the bytes can hold is packed.
    Ignored,
}

/// The bytes of readable entries, end to end.
pub fn entries_from_text(text: &[u8], keys: &[NamedKey], rules: Rules) -> Result<Vec<u8>, Problem> {
    let mut bytes = Vec::new();
    for line in lines(text) {
        let (line, content) = line?;
        let entry = entry_from_line(content, keys)
            .and_then(|entry| match rules {
                Rules::Kept => conforming(entry, keys),
                Rules::Ignored => Ok(entry),
            })
            .map_err(|what| Problem { line, what })?;
        bytes.extend_from_slice(&entry.to_bytes());
    }
    Ok(bytes)
}

/// The entry as the line says it, whether it conforms or not.
fn entry_from_line(content: &str, keys: &[NamedKey]) -> Result<Entry, String> {
    let mut priority = None;
    let mut records = vec![None; keys.len()];
    for item in content.split(';').map(str::trim) {
        if item.is_empty() {
            continue;
        }
        let (name, value) = item.split_once(char::is_whitespace).unwrap_or((item, ""));
        let index = keys.iter().position(|key| key.name == name.as_bytes());
        let again = match index {
            Some(index) => {
                let record = record_from_text(value.trim(), &keys[index])?;
                records[index].replace(record).is_some()
            }
            None if name == "priority" || name == "::priority" => priority
                .replace(priority_from_text(value.trim())?)
                .is_some(),
            None => return Err(format!("the list has no key {name}")),
        };
        if again {
            return Err(format!("{name} is given twice"));
        }
    }
    Ok(Entry {
        priority: priority.unwrap_or(0),
        records: records
            .into_iter()
            .map(|record| record.unwrap_or(Record::ABSENT))
            .collect(),
    })
}

fn priority_from_text(text: &str) -> Result<u32, String> {
    let number = number(text)?;
    u32::try_from(number).map_err(|_| format!("priority {number} is not below 2^31"))
}

fn record_from_text(text: &str, key: &NamedKey) -> Result<Record, String> {
    if text == "*" {
        return Ok(Record::ABSENT);
    }
    let mut record = Record {
        present: true,
        ..Record::ABSENT
    };
    match key.kind {
        Kind::Exact => record.first = number(text)?,
        Kind::Ternary | Kind::Optional => {
            let (value, mask) = in_two(text, "&&&");
            record.first = number(value)?;
            record.second = mask.map_or(Ok(all_ones(key.width)), number)?;
        }
        Kind::Lpm => {
            let (value, length) = in_two(text, "/");
            record.first = number(value)?;
            record.prefix_length = length.map_or(Ok(key.width), prefix_length)?;
        }
        Kind::Range => {
            let (low, high) = in_two(text, "..");
            record.first = number(low)?;
            record.second = high.map_or(Ok(record.first), number)?;
        }
    }
    Ok(record)
}

fn in_two<'t>(text: &'t str, separator: &str) -> (&'t str, Option<&'t str>) {
    match text.split_once(separator) {
        Some((before, after)) => (before.trim(), Some(after.trim())),
        None => (text, None),
    }
}

fn prefix_length(text: &str) -> Result<u8, String> {
    let number = number(text)?;
    u8::try_from(number).map_err(|_| format!("prefix length {number} is over 128"))
}

/// The entry itself if it conforms, else what is wrong with it in words.
fn conforming(entry: Entry, keys: &[NamedKey]) -> Result<Entry, String> {
    if entry.priority >= Entry::PRIORITY_LIMIT {
        return Err(format!("priority {} is not below 2^31", entry.priority));
    }
    for (record, key) in entry.records.iter().zip(keys) {
        if !record.conforms(&key.key()) {
            let name = String::from_utf8_lossy(&key.name);
            return Err(format!("{name}: {}", broken_rule(record, key)));
        }
    }
    Ok(entry)
}

fn broken_rule(record: &Record, key: &NamedKey) -> String {
    let largest = all_ones(key.width);
    if !record.present {
        return match key.kind {
            Kind::Exact => "an exact key must be given".to_string(),
            _ => "a required key must be given".to_string(),
        };
    }
    for number in [record.first, record.second] {
        if number > largest {
            return format!("{number:#x} does not fit in {} bits", key.width);
        }
    }
    match key.kind {
        Kind::Exact => "an exact key has a value only".to_string(),
        Kind::Ternary | Kind::Optional if record.first & !record.second != 0 => format!(
            "value {:#x} has a bit outside the mask {:#x}",
            record.first, record.second
        ),
        Kind::Ternary | Kind::Optional => {
            "the mask of an optional key is 0 or all ones".to_string()
        }
        Kind::Lpm if record.prefix_length > key.width => format!(
            "prefix length {} is over the width {}",
            record.prefix_length, key.width
        ),
        Kind::Lpm => format!(
            "value {:#x} has a bit after its first {}",
            record.first, record.prefix_length
        ),
        Kind::Range => format!("low {} is above high {}", record.first, record.second),
    }
}

/// The readable form of entries that lie end to end; a line each.
pub fn entries_to_text(bytes: &[u8], keys: &[Key]) -> Result<String, String> {
    let size = Entry::size(keys.len());
    let mut text = String::new();
    for (index, part) in bytes.chunks(size).enumerate() {
        let number = index + 1;
        if part.len() < size {
            let length = part.len();
            return Err(format!("entry {number} is cut: {length} of {size} bytes"));
        }
        let entry = Entry::from_bytes(part, keys).map_err(|refusal| {
            let what = part_name(refusal.offset, keys);
            format!("entry {number}: {what} breaks its rule")
        })?;
        text.push_str(&entry_to_text(&entry, keys));
        text.push('\n');
    }
    Ok(text)
}

fn part_name(offset: usize, keys: &[Key]) -> String {
    match offset.checked_sub(Entry::PRIORITY_SIZE) {
        None => "the priority".to_string(),
        Some(rest) => {
            let name = keys[rest / Record::SIZE].name;
            format!("the record of key {}", String::from_utf8_lossy(name))
        }
    }
}

/// The readable form of one entry, without an end of line.
pub fn entry_to_text(entry: &Entry, keys: &[Key]) -> String {
    let taken = keys.iter().any(|key| key.name == b"priority");
    let word = if taken { "::priority" } else { "priority" };
    let mut text = format!("{word} {}", entry.priority);
    for (record, key) in entry.records.iter().zip(keys) {
        let name = String::from_utf8_lossy(key.name);
        text.push_str(&format!("; {name} {}", record_to_text(record, key)));
    }
    text
}

fn record_to_text(record: &Record, key: &Key) -> String {
    let (first, second) = (record.first, record.second);
    if !record.present {
        return "*".to_string();
    }
    match key.kind {
        Kind::Exact => plain(first, key.width),
        Kind::Optional if second == all_ones(key.width) => format!("{first:#x}"),
        Kind::Ternary | Kind::Optional => format!("{first:#x} &&& {second:#x}"),
        Kind::Lpm => format!("{first:#x}/{}", record.prefix_length),
        Kind::Range => format!("{}..{}", plain(first, key.width), plain(second, key.width)),
    }
}

/// Decimal where people count (ports, flags), hex where they read bits.
fn plain(number: u128, width: u8) -> String {
    if width <= 16 {
        number.to_string()
    } else {
        format!("{number:#x}")
    }
}
