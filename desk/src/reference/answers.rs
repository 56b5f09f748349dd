//! Document 01, "Refusal numbers": "A refusal's place says which input it lies
//! in (text, key list, entry, blocks, buffer) and a byte offset." Document 02, request
//! k: "Places may now lie in the contract or the number table."

use std::fmt;

use super::running::Outcome;
use super::running_all::Totals;
use super::summaries::Summary;

/// The input that a refusal's place lies in.
#[derive(Clone, Copy, PartialEq, Eq, Debug)]
pub enum Input {
    Text,
    List,
    Entry,
    Blocks,
    Buffer,
    Contract,
    /// An offset in it counts numbers.
    Table,
}

/// A refusal on its way up through the stages.
#[derive(Clone, Copy, PartialEq, Eq, Debug)]
pub struct Refusal {
    pub number: u8,
    pub input: Input,
    pub offset: usize,
}

/// What a call answers.
#[derive(Clone, Copy, PartialEq, Eq, Debug)]
pub enum Answer {
    /// The text was read; its tree has this many nodes.
    Read(usize),
    /// The text has good types.
    Passed,
    /// The entry is accepted, or violated, by a judgement.
    Accepted,
    Violated,
    /// The blocks ran: the entry is accepted or violated, after so many steps.
    Ran(Outcome),
    /// The text was translated into this many instructions.
    Translated(usize),
    /// The blocks load; they hold this many instructions.
    Loaded(usize),
    /// The text was printed in this many bytes.
    Printed(usize),
    /// What the text names.
    Summary(Summary),
    /// The text was copied without octal numerals, in this many bytes.
    Fixed(usize),
    /// The contract was made into a text of this many bytes.
    Drafted(usize),
    /// The blocks are the translation of the text's parts in some order, or they load
    /// and do not fit.
    Agrees,
    Differs,
    /// The blocks ran on a table of so many entries, in so many steps.
    RanAll(Totals),
    Refused {
        number: u8,
        input: Input,
        offset: usize,
    },
}

impl Refusal {
    pub fn new(number: u8, input: Input, offset: usize) -> Self {
        Refusal {
            number,
            input,
            offset,
        }
    }

    pub fn text(number: u8, offset: usize) -> Self {
        Refusal::new(number, Input::Text, offset)
    }
}

impl From<Refusal> for Answer {
    fn from(refusal: Refusal) -> Self {
        Answer::Refused {
            number: refusal.number,
            input: refusal.input,
            offset: refusal.offset,
        }
    }
}

impl From<Result<Answer, Refusal>> for Answer {
    fn from(result: Result<Answer, Refusal>) -> Self {
        result.unwrap_or_else(Answer::from)
    }
}

impl fmt::Display for Input {
    fn fmt(&self, out: &mut fmt::Formatter) -> fmt::Result {
        out.write_str(match self {
            Input::Text => "text",
            Input::List => "list",
            Input::Entry => "entry",
            Input::Blocks => "blocks",
            Input::Buffer => "buffer",
            Input::Contract => "contract",
            Input::Table => "table",
        })
    }
}

/// The line of the program `answers`, without the sum that a call with a
/// buffer adds.
impl fmt::Display for Answer {
    fn fmt(&self, out: &mut fmt::Formatter) -> fmt::Result {
        match self {
            Answer::Read(nodes) => write!(out, "read {nodes}"),
            Answer::Passed => out.write_str("passed"),
            Answer::Accepted => out.write_str("accepted"),
            Answer::Violated => out.write_str("violated"),
            Answer::Ran(outcome) => write!(out, "{outcome}"),
            Answer::Translated(count) => write!(out, "translated {count}"),
            Answer::Loaded(count) => write!(out, "loaded {count}"),
            Answer::Printed(length) => write!(out, "printed {length}"),
            Answer::Summary(summary) => write!(out, "summary {summary}"),
            Answer::Fixed(length) => write!(out, "fixed {length}"),
            Answer::Drafted(length) => write!(out, "drafted {length}"),
            Answer::Agrees => out.write_str("agrees"),
            Answer::Differs => out.write_str("differs"),
            Answer::RanAll(totals) => write!(out, "{totals}"),
            Answer::Refused {
                number,
                input,
                offset,
            } => write!(out, "refused {number} {input} {offset}"),
        }
    }
}
