//! Lines of readable input, and what can be wrong with one.

use std::fmt;

/// What is wrong, and in which line, counted from 1.
#[derive(Clone, PartialEq, Eq, Debug)]
pub struct Problem {
    pub line: usize,
    pub what: String,
}

impl fmt::Display for Problem {
    fn fmt(&self, out: &mut fmt::Formatter) -> fmt::Result {
        write!(out, "line {}: {}", self.line, self.what)
    }
}

/// The lines that hold something, with their numbers, without remarks.
pub fn lines(text: &[u8]) -> impl Iterator<Item = Result<(usize, &str), Problem>> {
    text.split(|&byte| byte == b'\n')
        .enumerate()
        .map(|(index, line)| {
            let number = index + 1;
            let line = std::str::from_utf8(line).map_err(|_| Problem {
                line: number,
                what: "not readable text".to_string(),
            })?;
            let content = line.split('#').next().unwrap_or("");
            Ok((number, content.trim()))
        })
        .filter(|line| !matches!(line, Ok((_, ""))))
}
