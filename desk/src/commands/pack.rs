//! The commands `pack` and `unpack`.

use std::io::{self, Write};
use std::path::Path;

use super::out::write_file;
use super::{contents, wrong, Trouble};
use crate::lists::{list_bytes, NamedKey};
use crate::pack::entries::Rules;
use crate::pack::{entries_from_text, entries_to_text, keys_from_text, keys_to_text, Problem};
use crate::reference::entries::Entry;
use crate::reference::keys::{key_list, Key};

/// What is packed or unpacked, and how much of it: "5 keys".
struct Load {
    bytes: Vec<u8>,
    count: String,
}

impl Load {
    fn of_keys(bytes: Vec<u8>, keys: usize) -> Load {
        let plural = if keys == 1 { "" } else { "s" };
        let count = format!("{keys} key{plural}");
        Load { bytes, count }
    }

    fn of_entries(bytes: Vec<u8>, entries: usize) -> Load {
        let plural = if entries == 1 { "y" } else { "ies" };
        let count = format!("{entries} entr{plural}");
        Load { bytes, count }
    }
}

pub fn pack(rest: &[String]) -> Result<(), Trouble> {
    let words: Vec<&str> = rest.iter().map(String::as_str).collect();
    let (load, out) = match words[..] {
        ["keys", file, ref out @ ..] => (packed_keys(file)?, out),
        ["entries", "--any", keys, file, ref out @ ..] => {
            (packed_entries(keys, file, Rules::Ignored)?, out)
        }
        ["entries", keys, file, ref out @ ..] => (packed_entries(keys, file, Rules::Kept)?, out),
        _ => return Err(Trouble::Usage("pack what?".to_string())),
    };
    deliver("packed", &load, out)
}

pub fn unpack(rest: &[String]) -> Result<(), Trouble> {
    let words: Vec<&str> = rest.iter().map(String::as_str).collect();
    let (load, out) = match words[..] {
        ["keys", file, ref out @ ..] => (unpacked_keys(file)?, out),
        ["entries", keys, file, ref out @ ..] => (unpacked_entries(keys, file)?, out),
        _ => return Err(Trouble::Usage("unpack what?".to_string())),
    };
    deliver("unpacked", &load, out)
}

/// Into the file that is named, which is told; or to standard output where
/// none is.
fn deliver(done: &str, load: &Load, out: &[&str]) -> Result<(), Trouble> {
    match out {
        [] => io::stdout().lock().write_all(&load.bytes)?,
        [file] => {
            write_file(Path::new(file), &load.bytes)
                .map_err(|error| Trouble::Wrong(format!("cannot write {file}: {error}")))?;
            println!("{done} {}: {file}", load.count);
        }
        [_, extra, ..] => return Err(Trouble::Usage(format!("{extra}: not expected"))),
    }
    Ok(())
}

fn packed_keys(file: &str) -> Result<Load, Trouble> {
    let keys = named_keys(file)?;
    Ok(Load::of_keys(list_bytes(&keys), keys.len()))
}

fn packed_entries(keys: &str, file: &str, rules: Rules) -> Result<Load, Trouble> {
    let keys = named_keys(keys)?;
    let bytes = entries_from_text(&contents(file)?, &keys, rules)
        .map_err(|problem| at_line(file, &problem))?;
    let entries = bytes.len() / Entry::size(keys.len());
    Ok(Load::of_entries(bytes, entries))
}

fn unpacked_entries(keys: &str, file: &str) -> Result<Load, Trouble> {
    let named = named_keys(keys)?;
    let keys: Vec<Key> = named.iter().map(NamedKey::key).collect();
    let bytes = contents(file)?;
    let text = entries_to_text(&bytes, &keys).map_err(|what| wrong(file, &what))?;
    let entries = bytes.len() / Entry::size(keys.len());
    Ok(Load::of_entries(text.into_bytes(), entries))
}

fn named_keys(file: &str) -> Result<Vec<NamedKey>, Trouble> {
    keys_from_text(&contents(file)?).map_err(|problem| at_line(file, &problem))
}

fn unpacked_keys(file: &str) -> Result<Load, Trouble> {
    let list = contents(file)?;
    let keys = key_list(&list).map_err(|refusal| {
        let what = match refusal.number {
            2 => "its length is no multiple of 80, or over 2,560",
            3 => "this record breaks its layout",
            _ => "this record repeats an earlier name",
        };
        let offset = refusal.offset;
        wrong(
            file,
            &format!("byte {offset}: {what} (refusal {})", refusal.number),
        )
    })?;
    Ok(Load::of_keys(keys_to_text(&keys).into_bytes(), keys.len()))
}

fn at_line(file: &str, problem: &Problem) -> Trouble {
    Trouble::Wrong(format!("{file}:{}: {}", problem.line, problem.what))
}
