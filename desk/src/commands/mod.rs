//! The commands of the program `desk`.

mod compare;
mod count;
mod histogram;
mod options;
mod out;
mod pack;

use std::fmt;
use std::fs;
use std::io::{self, BufReader, BufWriter, Write};
use std::process::ExitCode;

use crate::generate;
use crate::requests::{self, Next};
use crate::show;
use options::Options;

const USAGE: &str = "usage:
  desk answer < requests                     a line for each request
  desk generate --seed S --count N           requests on standard output
  desk histogram < requests                  how often each answer occurs
  desk cases --seed S --count N              judgements in hex, a line each
  desk show < requests                       requests in readable form
  desk compare --seed S --count N -- PROGRAM [ARGUMENT...]
                                             PROGRAM's lines against ours
  desk count TEXT LIST ENTRIES               what the program count writes
  desk pack keys FILE [OUT]                  a readable key list into bytes
  desk pack entries [--any] KEYS FILE [OUT]  readable entries into bytes
  desk unpack keys FILE [OUT]                and back again
  desk unpack entries KEYS FILE [OUT]        (OUT: standard output if left out)
";

/// Why a command stopped.
#[derive(Debug)]
pub enum Trouble {
    /// The command line is wrong.
    Usage(String),
    /// An input is wrong.
    Wrong(String),
    Io(io::Error),
}

impl From<io::Error> for Trouble {
    fn from(error: io::Error) -> Self {
        Trouble::Io(error)
    }
}

impl fmt::Display for Trouble {
    fn fmt(&self, out: &mut fmt::Formatter) -> fmt::Result {
        match self {
            Trouble::Usage(what) => write!(out, "{what}\n{USAGE}"),
            Trouble::Wrong(what) => writeln!(out, "{what}"),
            Trouble::Io(error) => writeln!(out, "{error}"),
        }
    }
}

/// Runs a command: status 0 done, 1 a difference was found, 2 trouble.
pub fn run(arguments: &[String]) -> ExitCode {
    match command(arguments) {
        Ok(code) => code,
        // Whoever read our output has seen enough.
        Err(Trouble::Io(error)) if error.kind() == io::ErrorKind::BrokenPipe => ExitCode::SUCCESS,
        Err(trouble) => {
            eprint!("desk: {trouble}");
            ExitCode::from(2)
        }
    }
}

fn command(arguments: &[String]) -> Result<ExitCode, Trouble> {
    let Some((name, rest)) = arguments.split_first() else {
        return Err(Trouble::Usage("no command".to_string()));
    };
    match name.as_str() {
        "answer" => answer(rest)?,
        "generate" => generate_requests(rest)?,
        "histogram" => histogram::print(rest)?,
        "cases" => print_cases(rest)?,
        "show" => show_requests(rest)?,
        "compare" => return compare::run(rest),
        "count" => count::print(rest)?,
        "pack" => pack::pack(rest)?,
        "unpack" => pack::unpack(rest)?,
        "help" | "--help" => print!("{USAGE}"),
        _ => return Err(Trouble::Usage(format!("unknown command {name}"))),
    }
    Ok(ExitCode::SUCCESS)
}

fn contents(file: &str) -> Result<Vec<u8>, Trouble> {
    fs::read(file).map_err(|error| wrong(file, &error.to_string()))
}

fn wrong(file: &str, what: &str) -> Trouble {
    Trouble::Wrong(format!("{file}: {what}"))
}

fn answer(rest: &[String]) -> Result<(), Trouble> {
    options::none(rest)?;
    let mut from = BufReader::with_capacity(1 << 16, io::stdin().lock());
    let mut out = BufWriter::with_capacity(1 << 16, io::stdout().lock());
    requests::answer_all(&mut from, &mut out)?;
    Ok(out.flush()?)
}

fn generate_requests(rest: &[String]) -> Result<(), Trouble> {
    let options = Options::read(rest)?;
    let mut out = BufWriter::with_capacity(1 << 16, io::stdout().lock());
    for index in 0..options.count {
        generate::request(options.seed, index).write(&mut out)?;
    }
    Ok(out.flush()?)
}

fn print_cases(rest: &[String]) -> Result<(), Trouble> {
    let options = Options::read(rest)?;
    let mut out = BufWriter::with_capacity(1 << 16, io::stdout().lock());
    for index in 0..options.count {
        let case = generate::cases::case(options.seed, index);
        writeln!(out, "{}", generate::cases::line(&case))?;
    }
    Ok(out.flush()?)
}

fn show_requests(rest: &[String]) -> Result<(), Trouble> {
    options::none(rest)?;
    let mut from = BufReader::with_capacity(1 << 16, io::stdin().lock());
    let mut out = BufWriter::with_capacity(1 << 16, io::stdout().lock());
    loop {
        match requests::next_request(&mut from)? {
            Next::Request(request) => {
                write!(out, "{}", show::request(&request))?;
                writeln!(out, "  answer: {}\n", request.answer_line())?;
            }
            Next::TooLong => writeln!(out, "too long\n")?,
            Next::Cut => writeln!(out, "cut")?,
            Next::End => return Ok(out.flush()?),
        }
    }
}
