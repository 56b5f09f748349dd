//! The search for a small request on which two programs differ.
//!
//! Stretches of the request are left out or replaced, long ones first, as long
//! as a difference stays; it need not be the same one.

use std::io;

use super::peer::{Messages, Peer};
use super::pieces::{Deed, Division, STEPS};
use super::{first_difference, Difference};
use crate::requests::Request;

/// Trials in one run of the other program.
const TRIALS: usize = 128;
/// Up to so many pieces every stretch is tried; of more pieces, stretches of
/// half the length each time, side by side.
const FEW: usize = 48;
/// More stretches than this are not tried at one length.
const MOST_STRETCHES: usize = 5_000;

/// The smallest difference that can be reached from this one.
pub fn smallest(start: Difference, peer: &Peer) -> io::Result<Difference> {
    let mut best = start;
    loop {
        let before = best.request.clone();
        for (division, deed) in STEPS {
            best = simplified(best, division, deed, peer)?;
        }
        if best.request == before {
            return Ok(best);
        }
    }
}

/// Does the deed to stretches of every length while a difference stays.
fn simplified(
    mut best: Difference,
    division: Division,
    deed: Deed,
    peer: &Peer,
) -> io::Result<Difference> {
    let mut length = division.count(&best.request);
    while length >= deed.shortest(division) {
        let few = division.count(&best.request) <= FEW;
        if few || deed == Deed::Drop {
            best = at_length(best, division, deed, length, peer)?;
        }
        length = if few { length - 1 } else { length / 2 };
    }
    Ok(best)
}

/// Does the deed to stretches of this length while a difference stays.
fn at_length(
    mut best: Difference,
    division: Division,
    deed: Deed,
    length: usize,
    peer: &Peer,
) -> io::Result<Difference> {
    let mut start = 0;
    loop {
        let count = division.count(&best.request);
        if start + length > count || count / length > MOST_STRETCHES {
            return Ok(best);
        }
        let stride = if count <= FEW { 1 } else { length };
        let starts: Vec<usize> = (start..=count - length)
            .step_by(stride)
            .take(TRIALS)
            .collect();
        // A trial that changes nothing differs as before, but leads nowhere.
        let (starts, trials): (Vec<usize>, Vec<Request>) = starts
            .iter()
            .map(|&from| {
                (
                    from,
                    division.simpler(&best.request, deed, from..from + length),
                )
            })
            .filter(|(_, trial)| *trial != best.request)
            .unzip();
        let run = peer.run(&trials, &[], Messages::Dropped)?;
        match first_difference(&trials, &run, peer)? {
            Some((trial, smaller)) => {
                start = starts[trial];
                best = smaller;
            }
            None => start += TRIALS * stride,
        }
    }
}
