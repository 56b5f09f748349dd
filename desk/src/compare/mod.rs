//! The comparison of another program with the reference.
//!
//! The other program takes requests on its standard input and writes a line
//! for each, as the program `answers` does.

mod both;
mod peer;
pub mod pieces;
mod shrink;

use std::io;

use crate::generate::{self, rng::Rng};
use crate::requests::Request;

pub use peer::Peer;
use peer::{Messages, Run};

/// Requests in one run of the other program: enough to make its start cheap,
/// few enough to be held.
const BATCH: u64 = 4_000;

/// A request on which the two differ.
#[derive(Clone, PartialEq, Eq, Debug)]
pub struct Difference {
    pub request: Request,
    pub expected: String,
    /// None if the other program wrote no line for it.
    pub found: Option<String>,
}

/// The first difference of a run, and the smallest that was reached from it.
pub struct Finding {
    pub index: u64,
    pub first: Difference,
    pub smallest: Difference,
}

/// What a comparison ended with.
pub enum Outcome {
    NoDifference,
    Differs(Box<Finding>),
    /// Something else is wrong with the other program.
    Odd(String),
}

/// Compares `count` requests, batch after batch.
pub fn compare(seed: u64, count: u64, peer: &Peer) -> io::Result<Outcome> {
    for start in (0..count).step_by(BATCH as usize) {
        let end = count.min(start + BATCH);
        let requests: Vec<Request> = (start..end)
            .map(|index| generate::request(seed, index))
            .collect();
        let tail = cut_request(seed, start, &requests);
        let run = peer.run(&requests, &tail, Messages::Shown)?;
        if let Some((offset, first)) = first_difference(&requests, &run, peer)? {
            let smallest = shrink::smallest(first.clone(), peer)?;
            return Ok(Outcome::Differs(Box::new(Finding {
                index: start + offset as u64,
                first,
                smallest,
            })));
        }
        if let Some(what) = oddity(&requests, &tail, &run) {
            return Ok(Outcome::Odd(what));
        }
    }
    Ok(Outcome::NoDifference)
}

/// The front of a request, for the end of every second batch.
fn cut_request(seed: u64, start: u64, requests: &[Request]) -> Vec<u8> {
    let mut rng = Rng::for_item(!seed, start);
    let mut bytes = Vec::new();
    if rng.one_in(2) {
        rng.pick_ref(requests)
            .write(&mut bytes)
            .expect("a vector takes all");
        bytes.truncate(rng.between(1, bytes.len() - 1));
    }
    bytes
}

/// The first request whose line is not the reference's, with its index.
fn first_difference(
    requests: &[Request],
    run: &Run,
    peer: &Peer,
) -> io::Result<Option<(usize, Difference)>> {
    for (index, request) in requests.iter().enumerate() {
        match run.lines.get(index) {
            // The program ended early. What it had written but not yet sent may
            // be lost, so the request that ended it is this one or a later one.
            None => return first_alone(requests, index, peer),
            Some(found) => {
                let expected = request.answer_line();
                if *found != expected {
                    let found = Some(found.clone());
                    return Ok(Some((index, difference(request, expected, found))));
                }
            }
        }
    }
    Ok(None)
}

/// The first request from `start` on that differs when it is asked alone.
fn first_alone(
    requests: &[Request],
    start: usize,
    peer: &Peer,
) -> io::Result<Option<(usize, Difference)>> {
    for (index, request) in requests.iter().enumerate().skip(start) {
        let run = peer.run(std::slice::from_ref(request), &[], Messages::Dropped)?;
        let expected = request.answer_line();
        let found = run.lines.first().cloned();
        if found.as_ref() != Some(&expected) {
            return Ok(Some((index, difference(request, expected, found))));
        }
    }
    Ok(None)
}

fn difference(request: &Request, expected: String, found: Option<String>) -> Difference {
    Difference {
        request: request.clone(),
        expected,
        found,
    }
}

/// What else can be wrong with a run in which no request differs by itself.
fn oddity(requests: &[Request], tail: &[u8], run: &Run) -> Option<String> {
    let (asked, got) = (requests.len(), run.lines.len());
    if got < asked {
        return Some(format!(
            "{got} lines for {asked} requests, though each alone gets its line"
        ));
    }
    let more: Vec<&str> = run.lines[asked..].iter().map(String::as_str).collect();
    let wanted: &[&str] = if tail.is_empty() { &[] } else { &["cut"] };
    if more != wanted {
        return Some(format!(
            "after {asked} requests and {} bytes of a cut one: {more:?}, not {wanted:?}",
            tail.len()
        ));
    }
    (!run.status.success())
        .then(|| format!("all lines are right, but it ended with {}", run.status))
}
