//! How often each answer occurs among requests, for each call.

use std::collections::BTreeMap;
use std::io::{self, BufReader, Write};

use super::{options, Trouble};
use crate::requests::{next_request, Call, Next};

/// One more column than calls: the last is for requests of no call.
const COLUMNS: usize = Call::ALL.len() + 1;

pub fn print(rest: &[String]) -> Result<(), Trouble> {
    options::none(rest)?;
    let mut from = BufReader::with_capacity(1 << 16, io::stdin().lock());
    let mut table: BTreeMap<(u32, String), [u64; COLUMNS]> = BTreeMap::new();
    loop {
        let (kind, column) = match next_request(&mut from)? {
            Next::Request(request) => {
                let call = Call::from_byte(request.call);
                let column = call.map_or(COLUMNS - 1, |call| usize::from(call.byte() - 1));
                (kind_of(&request.answer_line()), column)
            }
            Next::TooLong => ((0, "too long".to_string()), COLUMNS - 1),
            Next::Cut => ((0, "cut".to_string()), COLUMNS - 1),
            Next::End => break,
        };
        table.entry(kind).or_default()[column] += 1;
    }
    write_table(&table)
}

/// The line without what is different for each request; refusals in the order
/// of their numbers. An explanation that shows nothing counts as its answer, and
/// so does a recheck that judges.
fn kind_of(line: &str) -> (u32, String) {
    let line = line.strip_prefix("nothing ").unwrap_or(line);
    let line = line.strip_prefix("judged ").unwrap_or(line);
    let words: Vec<&str> = line.split(' ').collect();
    match words[..] {
        ["refused", number, ..] => {
            let order = number.parse().expect("a refusal's number");
            (order, format!("refused {number}"))
        }
        _ => (0, words[0].to_string()),
    }
}

fn write_table(table: &BTreeMap<(u32, String), [u64; COLUMNS]>) -> Result<(), Trouble> {
    let mut out = io::stdout().lock();
    write!(out, "{:12}{:>10}", "answer", "all")?;
    for call in Call::ALL {
        write!(out, "{:>10}", call.name())?;
    }
    writeln!(out, "{:>10}", "other")?;
    let mut sums = [0; COLUMNS];
    for ((_, name), counts) in table {
        write_row(&mut out, name, counts)?;
        for (sum, count) in sums.iter_mut().zip(counts) {
            *sum += count;
        }
    }
    write_row(&mut out, "all", &sums)
}

fn write_row(out: &mut impl Write, name: &str, counts: &[u64; COLUMNS]) -> Result<(), Trouble> {
    write!(out, "{name:12}{:>10}", counts.iter().sum::<u64>())?;
    for count in counts {
        write!(out, "{count:>10}")?;
    }
    Ok(writeln!(out)?)
}
