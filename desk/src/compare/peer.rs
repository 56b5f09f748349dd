//! The other program: started, fed with requests, and its lines collected.

use std::io::{self, Read, Write};
use std::process::{Command, ExitStatus, Stdio};
use std::thread;

use crate::requests::Request;

pub struct Peer {
    pub program: String,
    pub arguments: Vec<String>,
}

/// What the other program wrote, and how it ended.
pub struct Run {
    pub lines: Vec<String>,
    pub status: ExitStatus,
}

/// Do the other program's own messages go through?
#[derive(Clone, Copy, PartialEq, Eq)]
pub enum Messages {
    Shown,
    Dropped,
}

impl Peer {
    /// Starts the program once and gives it these requests, then the tail.
    pub fn run(&self, requests: &[Request], tail: &[u8], messages: Messages) -> io::Result<Run> {
        let mut child = Command::new(&self.program)
            .args(&self.arguments)
            .stdin(Stdio::piped())
            .stdout(Stdio::piped())
            .stderr(match messages {
                Messages::Shown => Stdio::inherit(),
                Messages::Dropped => Stdio::null(),
            })
            .spawn()?;
        let mut to_child = child.stdin.take().expect("piped");
        let mut from_child = child.stdout.take().expect("piped");
        let mut bytes = Vec::new();
        for request in requests {
            request.write(&mut bytes)?;
        }
        bytes.extend_from_slice(tail);
        // A thread of its own: the program may write before it has read all. If
        // it stops reading, the lines that are missing will tell.
        let feeding = thread::spawn(move || {
            let _ = to_child.write_all(&bytes);
        });
        let mut output = Vec::new();
        from_child.read_to_end(&mut output)?;
        let status = child.wait()?;
        feeding.join().expect("feeding does not panic");
        Ok(Run {
            lines: lines_of(&output),
            status,
        })
    }
}

/// The lines of an output. A last line without its end is kept with a mark, so
/// that it is never taken for a good one.
fn lines_of(output: &[u8]) -> Vec<String> {
    let text = String::from_utf8_lossy(output);
    let mut lines: Vec<String> = text.split('\n').map(str::to_string).collect();
    let last = lines.pop().expect("a split gives at least one part");
    if !last.is_empty() {
        lines.push(format!("{last} (line not ended)"));
    }
    lines
}
