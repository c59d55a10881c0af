//! A search over all delays, all sets of memories and all plans of a tiny job. It
//! tests P1 to P3 and the rates alone.
//!
//! For each delay and set the columns that some plan within the rates reaches are
//! kept, slot by slot: a plan goes from one to any that keeps the rules and lies at
//! most each link's rate above it.
//!
//! Memories from 0 to T(M) are all that is to be tried. By P1 no link carries more
//! than T(M), so in P2 and P3 a memory of T(M) already allows all that any larger
//! one does. A set with a larger memory therefore serves just where it does with
//! T(M) in that place, its total is larger then, and it is none of the sets of least
//! total.
//!
//! Delays from 0 to T(M) are all that is to be tried. Where T(M) is 0, delay 0
//! serves. Else a link of rate 0 never carries the film, whatever the delay; and
//! where no rate is 0, delay T(M) serves with memories T(M), as all links may carry
//! one byte a slot until they have all, before anything is played.

use crate::job::Job;
use crate::rules::Rules;
use crate::writer::put_back;

/// Most sets of memories, for each of which as many columns are tried.
const MOST_SETS: u64 = 350;

/// Greatest T(M), for as many delays.
const MOST_BYTES: u64 = 20;

/// What the search finds where some delay serves.
pub struct Found {
    /// The least delay that serves with any set.
    pub delay: u64,
    /// The least total of the sets with which it serves.
    pub total: u64,
    /// Of the sets of that total, the one with the least memory at node 1, then at
    /// node 2 and so on.
    pub memories: Vec<u64>,
    /// How many sets of that total there are.
    pub sets: usize,
}

/// Whether `job` is small enough for the search.
pub fn is_tiny(job: &Job) -> bool {
    let sets = (total(job) + 1).checked_pow(job.records.len() as u32);
    let few = sets.is_some_and(|sets| sets <= MOST_SETS);
    few && total(job) <= MOST_BYTES && job.frames.len() <= 5
}

/// None where no delay serves.
pub fn search(job: &Job) -> Option<Found> {
    (0..=total(job)).find_map(|delay| at_delay(job, delay))
}

fn total(job: &Job) -> u64 {
    job.frames.iter().map(|&frame| u64::from(frame)).sum()
}

/// What is least at this delay, where it serves with some set.
fn at_delay(job: &Job, delay: u64) -> Option<Found> {
    let columns = columns(job.records.len(), total(job));
    // The sets and the columns run through the same numbers. The sets come by their
    // totals, and those of one total by node 1's memory, then by node 2's and so on.
    let mut sets: Vec<(u64, &Column)> = columns.iter().map(|set| (set.iter().sum(), set)).collect();
    sets.sort_unstable();
    let serves = |(_, set): &&(u64, &Column)| reaches(job, delay, set, &columns);
    let &(total, memories) = sets.iter().find(serves)?;
    let of_total = sets.iter().filter(|set| set.0 == total);
    Some(Found {
        delay,
        total,
        memories: memories.clone(),
        sets: of_total.filter(serves).count(),
    })
}

type Column = Vec<u64>;

/// All columns of numbers from 0 to `most`, in the order of counting, the first
/// link's number the fastest.
fn columns(links: usize, most: u64) -> Vec<Column> {
    let mut all = vec![Vec::new()];
    for _ in 0..links {
        let longer = |digit| {
            let with = move |column: &Column| [&column[..], &[digit]].concat();
            all.iter().map(with)
        };
        all = (0..=most).flat_map(longer).collect();
    }
    all
}

/// Whether some plan within the rates reaches the last slot.
fn reaches(job: &Job, delay: u64, memories: &[u64], columns: &[Column]) -> bool {
    let put = put_back(job, delay, memories);
    let rules = Rules::new(&put);
    let side = rules.total() as usize + 1;
    let keeps = |slot, at: usize| rules.column(slot, &columns[at]);
    // Slot 0 has one column, that of zeros: the first.
    let mut reached = vec![false; columns.len()];
    reached[0] = keeps(0, 0);
    for slot in 1..=rules.last_slot() {
        let mut step = 1;
        for record in &put.records {
            rise(&mut reached, step, side, record.rate);
            step *= side;
        }
        for (at, here) in reached.iter_mut().enumerate() {
            *here = *here && keeps(slot, at);
        }
        if !reached.contains(&true) {
            return false;
        }
    }
    reached.contains(&true)
}

/// Lets one link rise by 0 to `rate` from every column that is reached. Its number
/// is the digit of `side` values at places `step` apart.
fn rise(reached: &mut [bool], step: usize, side: usize, rate: u64) {
    for block in reached.chunks_mut(step * side) {
        for first in 0..step {
            // How far above the last column reached from before.
            let mut above = u64::MAX;
            for here in block[first..].iter_mut().step_by(step) {
                above = if *here { 0 } else { above.saturating_add(1) };
                *here = above <= rate;
            }
        }
    }
}
