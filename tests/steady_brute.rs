//! A search over all delays and memories of one screen whose link has a constant rate.
//! It tests P1 and P2 alone, on the row as the link makes it: so many bytes in every
//! slot, until the film is through.
//!
//! Of a small film, delays and memories from 0 to one past T(M) are all that is to be
//! tried. At rate 0 nothing is carried, so some delay serves just where T(M) is 0, and
//! then delay 0 does. At any other rate all has been carried by slot T(M). With a delay
//! of T(M) or more it waits there, so that no memory below T(M) serves; and by P1 no more
//! than T(M) is ever carried, so that a larger memory serves where T(M) does.

use std::ops::RangeInclusive;

use crate::job::{Job, Record};
use crate::problem::{equal, holds, Problem};
use crate::rules::Rules;

/// Greatest T(M) and most frames of a film that is searched.
const MOST_BYTES: u64 = 20;
const MOST_FRAMES: usize = 6;

/// The delays and the memories that are tried.
pub type Tried = (RangeInclusive<u16>, RangeInclusive<u64>);

fn total(frames: &[u32]) -> u64 {
    frames.iter().map(|&frame| u64::from(frame)).sum()
}

/// All that is to be tried of a film, where it is small enough.
pub fn all_tried(frames: &[u32]) -> Option<Tried> {
    let total = total(frames);
    let past = total + 1;
    let small = total <= MOST_BYTES && frames.len() <= MOST_FRAMES;
    small.then(|| (0..=past as u16, 0..=past))
}

/// Each delay up to one past the longest, with T(M) and the three memories below it,
/// the least of which must be too small.
pub fn long_tried(frames: &[u32]) -> Tried {
    let total = total(frames);
    (0..=4_097, total.saturating_sub(3)..=total)
}

/// The delays and memories of those tried that serve at this rate.
pub fn serving(frames: &[u32], rate: u64, (delays, memories): &Tried) -> Vec<(u64, u64)> {
    let row = row(frames, rate, usize::from(*delays.end()));
    let mut found = Vec::new();
    for delay in delays.clone() {
        for memory in memories.clone() {
            let leaf = Record {
                delay,
                memory,
                ..Record::default()
            };
            if keeps(&Job::new(vec![leaf], frames.to_vec()), &row) {
                found.push((u64::from(delay), memory));
            }
        }
    }
    found
}

/// What the link has carried by each slot, as far as the longest delay asks.
fn row(frames: &[u32], rate: u64, longest: usize) -> Vec<u64> {
    let mut left = total(frames);
    let mut row = vec![0];
    for slot in 0..frames.len() + longest {
        let sent = rate.min(left);
        left -= sent;
        row.push(row[slot] + sent);
    }
    row
}

/// Whether the row keeps the rules of a job that has a root and one leaf.
fn keeps(job: &Job, row: &[u64]) -> bool {
    let rules = Rules::new(job);
    let mut before = 0;
    (0..=rules.last_slot()).zip(row).all(|(slot, &carried)| {
        let rises = Rules::step(&[before], &[carried]);
        before = carried;
        rises && rules.column(slot, &[carried])
    })
}

/// Whether a line is the least of what serves, in both its numbers.
pub fn as_found(serving: &[(u64, u64)], [number, delay, memory]: [u64; 3]) -> Result<(), Problem> {
    let some = serving.iter().any(|&(delay, _)| delay <= 4_096);
    equal("number", if some { 0 } else { 13 }, number)?;
    if number != 0 {
        return equal("zeros after 13", 0, delay.max(memory));
    }
    holds("they serve", serving.contains(&(delay, memory)))?;
    match serving.iter().find(|(d, b)| *d < delay || *b < memory) {
        Some((d, b)) => Err(format!("delay {d} with memory {b} serves too")),
        None => Ok(()),
    }
}
