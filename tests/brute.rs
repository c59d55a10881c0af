//! A search over all plans of a tiny job. It tests P1 to P3 alone.
//!
//! A plan is a path through the columns that keep the rules, one for each slot.
//! All columns are tried, and all steps between those of neighbouring slots.

use crate::answer::Answer;
use crate::job::Job;
use crate::rules::Rules;

/// Most columns tried for one slot.
const MOST_COLUMNS: u64 = 1_300;

/// Whether `job` is small enough for the search.
pub fn is_tiny(job: &Job) -> bool {
    let rules = Rules::new(job);
    let links = job.records.len() as u32;
    let columns = (rules.total() + 1).checked_pow(links);
    columns.is_some_and(|columns| columns <= MOST_COLUMNS) && rules.last_slot() <= 6
}

type Column = Vec<u64>;

/// The answer by search: none where no plan keeps the rules. In it each peak is
/// the least in any plan, and each number the least in any plan of those peaks.
pub fn search(job: &Job) -> Option<Answer> {
    let rules = Rules::new(job);
    let slots: Vec<Vec<Column>> = (0..=rules.last_slot())
        .map(|slot| columns(job, &rules, slot))
        .collect();
    let peaks = least_peaks(job, &slots)?;
    let used = on_some_plan(&slots, &peaks);
    let least = |link: usize, slot: usize| {
        let there = slots[slot].iter().zip(&used[slot]);
        let numbers = there.filter(|(_, used)| **used).map(|(c, _)| c[link]);
        numbers.min().expect("a plan with every least peak at once")
    };
    let rows = (0..job.records.len())
        .map(|link| (0..slots.len()).map(|slot| least(link, slot)).collect())
        .collect();
    Some(Answer {
        last_slot: rules.last_slot() as u64,
        total: rules.total(),
        rows,
        peaks,
    })
}

/// All columns that keep the rules at `slot`.
fn columns(job: &Job, rules: &Rules, slot: usize) -> Vec<Column> {
    let mut found = Vec::new();
    let mut column = vec![0; job.records.len()];
    loop {
        if rules.column(slot, &column) {
            found.push(column.clone());
        }
        // The next column, counting up in digits from 0 to T(M).
        let Some(place) = column.iter().position(|&digit| digit < rules.total()) else {
            return found;
        };
        column[..place].fill(0);
        column[place] += 1;
    }
}

/// The least peak of each link, each in a plan of its own.
fn least_peaks(job: &Job, slots: &[Vec<Column>]) -> Option<Vec<u64>> {
    let links = job.records.len();
    // For each column of a slot, each link's least peak on a path up to it.
    let mut reached: Vec<Option<Vec<u64>>> = vec![Some(vec![0; links]); slots[0].len()];
    for pair in slots.windows(2) {
        let least = |after: &Column| {
            let mut best: Option<Vec<u64>> = None;
            for (before, peaks) in pair[0].iter().zip(&reached) {
                let Some(peaks) = peaks else { continue };
                if !Rules::step(before, after) {
                    continue;
                }
                let best = best.get_or_insert_with(|| vec![u64::MAX; links]);
                for link in 0..links {
                    let rise = after[link] - before[link];
                    best[link] = best[link].min(peaks[link].max(rise));
                }
            }
            best
        };
        let next = pair[1].iter().map(least).collect();
        reached = next;
    }
    let ends: Vec<Vec<u64>> = reached.into_iter().flatten().collect();
    let least = |link: usize| ends.iter().map(|peaks| peaks[link]).min();
    (0..links).map(least).collect()
}

/// The columns on some whole plan with at most these peaks, slot by slot.
fn on_some_plan(slots: &[Vec<Column>], peaks: &[u64]) -> Vec<Vec<bool>> {
    let step = |before: &Column, after: &Column| {
        let rises = before.iter().zip(after).zip(peaks);
        Rules::step(before, after) && rises.into_iter().all(|((a, b), peak)| b - a <= *peak)
    };
    let last = slots.len() - 1;
    let mut used = vec![vec![true; slots[0].len()]];
    for slot in 1..=last {
        let from = |after| {
            let before = slots[slot - 1].iter().zip(&used[slot - 1]);
            before.into_iter().any(|(c, used)| *used && step(c, after))
        };
        let next = slots[slot].iter().map(from).collect();
        used.push(next);
    }
    for slot in (0..last).rev() {
        for (i, before) in slots[slot].iter().enumerate() {
            let mut after = slots[slot + 1].iter().zip(&used[slot + 1]);
            used[slot][i] &= after.any(|(c, used)| *used && step(before, c));
        }
    }
    used
}
