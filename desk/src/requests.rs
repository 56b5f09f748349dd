//! Requests and answer lines of the program `answers`.
//!
//! A request is one byte for the call (1 read, 2 check, 3 judge, 4 translate,
//! 5 load, 6 run, 7 print, 8 explain, 9 summarize, 10 recheck, 11 fix_octal, 12 pact,
//! 13 compare, 14 count, 15 run_all) and three inputs, each a 4-byte big-endian length
//! and its bytes. Each request gets one line. The line of a run ends in the steps that it
//! took. For a call that is lent a buffer, the third input is what the buffer holds before,
//! and the line ends in the sum of what it holds after. The line of an explanation ends in
//! the sum of the piece that it shows. The third input of a count is entries laid end to
//! end. That of a recheck is a change, the earlier answer with both entries, that of a pact
//! is a table of numbers with a buffer, and that of a run of all entries is the answers
//! with them, whose sum ends the line; one that is too short for that is `malformed`.

use std::io::{self, Read, Write};

use crate::changes::Change;
use crate::entry_tables::AnswersAndEntries;
use crate::reference::entries::Entry;
use crate::reference::keys::Key;
use crate::reference::{self, Answer, Explanation, Input};
use crate::tables::TableAndBuffer;

pub const LONGEST_INPUT: usize = 65_536;

/// The calls, each at the index of its byte less one.
#[derive(Clone, Copy, PartialEq, Eq, Debug)]
pub enum Call {
    Read,
    Check,
    Judge,
    Translate,
    Load,
    Run,
    Print,
    Explain,
    Summarize,
    Recheck,
    FixOctal,
    Pact,
    Compare,
    Count,
    RunAll,
}

/// What an input is to a call.
#[derive(Clone, Copy, PartialEq, Eq, Debug)]
pub enum Lent {
    One(Input),
    /// The earlier answer, the old entry and the new one in one.
    Change,
    /// The number table and the buffer in one.
    TableAndBuffer,
    /// Entries laid end to end.
    Entries,
    /// The answers and entries laid end to end in one.
    AnswersAndEntries,
}

impl Call {
    pub const ALL: [Call; 15] = [
        Call::Read,
        Call::Check,
        Call::Judge,
        Call::Translate,
        Call::Load,
        Call::Run,
        Call::Print,
        Call::Explain,
        Call::Summarize,
        Call::Recheck,
        Call::FixOctal,
        Call::Pact,
        Call::Compare,
        Call::Count,
        Call::RunAll,
    ];

    pub fn from_byte(byte: u8) -> Option<Call> {
        Call::ALL.get(usize::from(byte).checked_sub(1)?).copied()
    }

    pub fn byte(self) -> u8 {
        self as u8 + 1
    }

    pub fn name(self) -> &'static str {
        match self {
            Call::Read => "read",
            Call::Check => "check",
            Call::Judge => "judge",
            Call::Translate => "translate",
            Call::Load => "load",
            Call::Run => "run",
            Call::Print => "print",
            Call::Explain => "explain",
            Call::Summarize => "summarize",
            Call::Recheck => "recheck",
            Call::FixOctal => "fix_octal",
            Call::Pact => "pact",
            Call::Compare => "compare",
            Call::Count => "count",
            Call::RunAll => "run_all",
        }
    }

    /// What its three inputs are; one that is nothing is passed over.
    pub fn inputs(self) -> [Option<Lent>; 3] {
        use Input::*;
        let one = |input| Some(Lent::One(input));
        match self {
            Call::Read => [one(Text), None, None],
            Call::Check | Call::Summarize => [one(Text), one(List), None],
            Call::Judge | Call::Explain => [one(Text), one(List), one(Entry)],
            Call::Translate => [one(Text), one(List), one(Buffer)],
            Call::Load => [one(List), one(Blocks), None],
            Call::Run => [one(List), one(Blocks), one(Entry)],
            Call::Print | Call::FixOctal => [one(Text), None, one(Buffer)],
            Call::Recheck => [one(Text), one(List), Some(Lent::Change)],
            Call::Pact => [one(Contract), one(List), Some(Lent::TableAndBuffer)],
            Call::Compare => [one(Text), one(List), one(Blocks)],
            Call::Count => [one(Text), one(List), Some(Lent::Entries)],
            Call::RunAll => [one(List), one(Blocks), Some(Lent::AnswersAndEntries)],
        }
    }
}

#[derive(Clone, PartialEq, Eq, Debug)]
pub struct Request {
    pub call: u8,
    pub inputs: [Vec<u8>; 3],
}

/// Where a request has entries laid end to end: the index of the input, the place in it
/// where they begin, and the size of each by the length of the key list.
pub struct Entries {
    pub input: usize,
    pub start: usize,
    pub size: usize,
}

impl Entries {
    pub fn bytes<'r>(&self, request: &'r Request) -> &'r [u8] {
        &request.inputs[self.input][self.start..]
    }
}

/// What stands next on an input of requests.
pub enum Next {
    Request(Request),
    /// A whole request with an input over the limit.
    TooLong,
    /// The input ends inside a request.
    Cut,
    End,
}

impl Request {
    pub fn new(call: Call, first: Vec<u8>, second: Vec<u8>, third: Vec<u8>) -> Request {
        Request {
            call: call.byte(),
            inputs: [first, second, third],
        }
    }

    pub fn write(&self, out: &mut impl Write) -> io::Result<()> {
        out.write_all(&[self.call])?;
        for input in &self.inputs {
            let length = u32::try_from(input.len()).expect("inputs are short");
            out.write_all(&length.to_be_bytes())?;
            out.write_all(input)?;
        }
        Ok(())
    }

    /// The reference's line for this request, without its end of line.
    pub fn answer_line(&self) -> String {
        if self.inputs.iter().any(|input| input.len() > LONGEST_INPUT) {
            return "too long".to_string();
        }
        let [first, second, third] = &self.inputs;
        let Some(call) = Call::from_byte(self.call) else {
            return "unknown".to_string();
        };
        let mut buffer = third.clone();
        let answer = match call {
            Call::Read => reference::read(first),
            Call::Check => reference::check(first, second),
            Call::Judge => reference::judge(first, second, third),
            Call::Translate => reference::translate(first, second, &mut buffer),
            Call::Load => reference::load(first, second),
            Call::Run => reference::run(first, second, third),
            Call::Print => reference::print(first, &mut buffer),
            Call::Explain => return explanation_line(reference::explain(first, second, third)),
            Call::Summarize => reference::summarize(first, second),
            Call::Recheck => return recheck_line(first, second, third),
            Call::FixOctal => reference::fix_octal(first, &mut buffer),
            Call::Pact => return pact_line(first, second, third),
            Call::Compare => reference::compare(first, second, third),
            Call::Count => return count_line(first, second, third),
            Call::RunAll => return run_all_line(first, second, third),
        };
        if self.input(Input::Buffer).is_some() {
            format!("{answer} {}", adler32(&buffer))
        } else {
            answer.to_string()
        }
    }

    /// The index of the input that is this to the call.
    pub fn input(&self, wanted: Input) -> Option<usize> {
        self.lent(Lent::One(wanted))
    }

    fn lent(&self, wanted: Lent) -> Option<usize> {
        let inputs = Call::from_byte(self.call)?.inputs();
        inputs.iter().position(|&input| input == Some(wanted))
    }

    /// The index of the input that is a change, and the change, if it is whole.
    pub fn change(&self) -> Option<(usize, Change)> {
        let index = self.lent(Lent::Change)?;
        Some((index, Change::from_bytes(&self.inputs[index])?))
    }

    /// The index of the input that is a table with a buffer, and both, if it is whole.
    pub fn table_and_buffer(&self) -> Option<(usize, TableAndBuffer)> {
        let index = self.lent(Lent::TableAndBuffer)?;
        Some((index, TableAndBuffer::from_bytes(&self.inputs[index])?))
    }

    /// The index of the input that is answers with entries, and both, if it is whole.
    pub fn answers_and_entries(&self) -> Option<(usize, AnswersAndEntries)> {
        let index = self.lent(Lent::AnswersAndEntries)?;
        Some((index, AnswersAndEntries::from_bytes(&self.inputs[index])?))
    }

    /// Where the request has entries laid end to end, whether the list is good or not.
    pub fn entries(&self) -> Option<Entries> {
        let (input, start) = match self.answers_and_entries() {
            Some((input, lent)) => (input, lent.entries_start()),
            None => (self.lent(Lent::Entries)?, 0),
        };
        let keys = self.inputs[self.input(Input::List)?].len() / Key::SIZE;
        let size = Entry::size(keys);
        Some(Entries { input, start, size })
    }
}

fn explanation_line(explanation: Explanation) -> String {
    match explanation.piece() {
        Some(piece) => format!("{explanation} {}", adler32(piece.bytes)),
        None => explanation.to_string(),
    }
}

fn recheck_line(text: &[u8], list: &[u8], third: &[u8]) -> String {
    let Some(change) = Change::from_bytes(third) else {
        return "malformed".to_string();
    };
    let earlier = change.earlier_answer();
    reference::recheck(text, list, &change.old, earlier, &change.new).to_string()
}

fn pact_line(contract: &[u8], names: &[u8], third: &[u8]) -> String {
    let Some(TableAndBuffer { table, mut buffer }) = TableAndBuffer::from_bytes(third) else {
        return "malformed".to_string();
    };
    let answer = reference::pact(contract, &table, names, &mut buffer);
    format!("{answer} {}", adler32(&buffer))
}

fn count_line(text: &[u8], list: &[u8], entries: &[u8]) -> String {
    match reference::count(text, list, entries) {
        Ok(counts) => counts.to_string(),
        Err(refusal) => Answer::from(refusal).to_string(),
    }
}

fn run_all_line(list: &[u8], blocks: &[u8], third: &[u8]) -> String {
    let Some(lent) = AnswersAndEntries::from_bytes(third) else {
        return "malformed".to_string();
    };
    let mut answers = lent.answers;
    let answer = reference::run_all(list, blocks, &lent.entries, &mut answers);
    format!("{answer} {}", adler32(&answers))
}

/// Reads the next request.
pub fn next_request(from: &mut impl Read) -> io::Result<Next> {
    let mut call = [0];
    if !fill(from, &mut call)? {
        return Ok(Next::End);
    }
    let mut inputs = [Vec::new(), Vec::new(), Vec::new()];
    let mut too_long = false;
    for input in &mut inputs {
        let mut length = [0; 4];
        if !fill(from, &mut length)? {
            return Ok(Next::Cut);
        }
        let length = u32::from_be_bytes(length) as usize;
        if length > LONGEST_INPUT {
            too_long = true;
            if !pass_over(from, length)? {
                return Ok(Next::Cut);
            }
            continue;
        }
        input.resize(length, 0);
        if !fill(from, input)? {
            return Ok(Next::Cut);
        }
    }
    if too_long {
        return Ok(Next::TooLong);
    }
    Ok(Next::Request(Request {
        call: call[0],
        inputs,
    }))
}

/// Fills the whole slice, or tells that the input ended before.
fn fill(from: &mut impl Read, slice: &mut [u8]) -> io::Result<bool> {
    match from.read_exact(slice) {
        Ok(()) => Ok(true),
        Err(error) if error.kind() == io::ErrorKind::UnexpectedEof => Ok(false),
        Err(error) => Err(error),
    }
}

fn pass_over(from: &mut impl Read, length: usize) -> io::Result<bool> {
    let passed = io::copy(&mut from.take(length as u64), &mut io::sink())?;
    Ok(passed == length as u64)
}

/// Answers every request of an input, a line each.
pub fn answer_all(from: &mut impl Read, out: &mut impl Write) -> io::Result<()> {
    loop {
        match next_request(from)? {
            Next::Request(request) => writeln!(out, "{}", request.answer_line())?,
            Next::TooLong => writeln!(out, "too long")?,
            Next::Cut => return writeln!(out, "cut"),
            Next::End => return Ok(()),
        }
    }
}

/// The Adler-32 sum.
pub fn adler32(bytes: &[u8]) -> u32 {
    let (mut low, mut high) = (1u32, 0u32);
    for &byte in bytes {
        low = (low + u32::from(byte)) % 65_521;
        high = (high + low) % 65_521;
    }
    high << 16 | low
}
