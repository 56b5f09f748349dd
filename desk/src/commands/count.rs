//! The command `count`: what the program of that name writes for three files.

use std::io::{self, Write};

use super::{contents, Trouble};
use crate::reference::count;
use crate::reference::counting::output;

/// Text, key list and entries are files, the last two in bytes.
pub fn print(rest: &[String]) -> Result<(), Trouble> {
    let [text, keys, entries] = rest else {
        let wanted = "give a text, a key list and entries";
        return Err(Trouble::Usage(wanted.to_string()));
    };
    let counted = count(&contents(text)?, &contents(keys)?, &contents(entries)?);
    Ok(io::stdout().lock().write_all(output(&counted).as_bytes())?)
}
