//! Files that are written whole or not at all.

use std::ffi::OsString;
use std::fs::{self, File, OpenOptions};
use std::io::{self, ErrorKind, Write};
use std::path::{Path, PathBuf};

/// Writes a file. Where that fails, what stood under its name stays as it was,
/// or nothing does.
///
/// The bytes go to a file beside it, which takes its name once they are all
/// there. A link or a device must stay what it is, so what a link leads to, and
/// a device, is written in place.
pub fn write_file(path: &Path, bytes: &[u8]) -> io::Result<()> {
    match fs::symlink_metadata(path) {
        Ok(there) if !there.is_file() => write_in_place(path, bytes),
        Ok(_) => {
            // One that may not be written may not be replaced either.
            OpenOptions::new().append(true).open(path)?;
            replace(path, bytes)
        }
        Err(error) if error.kind() == ErrorKind::NotFound => replace(path, bytes),
        Err(error) => Err(error),
    }
}

fn replace(path: &Path, bytes: &[u8]) -> io::Result<()> {
    let part = part_of(path);
    let file = OpenOptions::new()
        .write(true)
        .create_new(true)
        .open(&part)?;
    let done = fill(file, bytes).and_then(|()| fs::rename(&part, path));
    if done.is_err() {
        // Why it was not written matters more than why this fails.
        let _ = fs::remove_file(&part);
    }
    done
}

fn fill(mut file: File, bytes: &[u8]) -> io::Result<()> {
    file.write_all(bytes)?;
    file.sync_all()
}

fn write_in_place(path: &Path, bytes: &[u8]) -> io::Result<()> {
    let mut file = File::create(path)?;
    let done = file.write_all(bytes);
    if done.is_err() {
        // Rather nothing than half of it. A device cannot be cut, nor need it.
        let _ = file.set_len(0);
    }
    done
}

/// The name of the file beside it.
fn part_of(path: &Path) -> PathBuf {
    let mut name = OsString::from(path);
    name.push(".part");
    PathBuf::from(name)
}
