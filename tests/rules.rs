//! The rules of a plan, P1 to P3, tested on given numbers.

use crate::job::Job;

pub struct Rules<'a> {
    job: &'a Job,
    inner: Vec<bool>,
    /// The sum of the first m frames, for m from 0.
    sums: Vec<u64>,
}

impl<'a> Rules<'a> {
    pub fn new(job: &'a Job) -> Self {
        let mut sums = vec![0];
        for &frame in &job.frames {
            sums.push(sums[sums.len() - 1] + u64::from(frame));
        }
        let inner = (0..=job.records.len()).map(|node| job.is_inner(node));
        Rules {
            job,
            inner: inner.collect(),
            sums,
        }
    }

    pub fn last_slot(&self) -> usize {
        let delays = self.job.records.iter().map(|record| record.delay);
        self.job.frames.len() + usize::from(delays.max().unwrap_or(0))
    }

    pub fn total(&self) -> u64 {
        self.sums[self.job.frames.len()]
    }

    /// What leaf `node` has played by the end of `slot`.
    pub fn played(&self, node: usize, slot: usize) -> u64 {
        let delay = usize::from(self.job.records[node - 1].delay);
        let frames = slot.saturating_sub(delay).min(self.job.frames.len());
        self.sums[frames]
    }

    /// Whether the bytes carried by the end of `slot`, node 1's first, keep P2,
    /// P3 and those parts of P1 that concern one slot.
    pub fn column(&self, slot: usize, carried: &[u64]) -> bool {
        for (i, &own) in carried.iter().enumerate() {
            let node = i + 1;
            let record = &self.job.records[i];
            if own > self.total() || (slot == 0 && own != 0) {
                return false;
            }
            if !self.inner[node] {
                let played = self.played(node, slot);
                if own < played || own > played + record.memory {
                    return false;
                }
            }
            let parent = usize::from(record.parent);
            if parent != 0 {
                let above = carried[parent - 1];
                let memory = self.job.records[parent - 1].memory;
                if own > above || above > own + memory {
                    return false;
                }
            }
        }
        true
    }

    /// Whether no link's bytes fall from one slot to the next.
    pub fn step(before: &[u64], after: &[u64]) -> bool {
        before.iter().zip(after).all(|(a, b)| a <= b)
    }

    /// The first slot at which a plan of `slots` columns breaks a rule; `carried`
    /// gives what link i + 1 has carried by a slot.
    pub fn broken(&self, slots: usize, carried: impl Fn(usize, usize) -> u64) -> Option<usize> {
        let links = self.job.records.len();
        let mut before = vec![0; links];
        for slot in 0..slots {
            let column: Vec<u64> = (0..links).map(|i| carried(i, slot)).collect();
            if !self.column(slot, &column) || !Self::step(&before, &column) {
                return Some(slot);
            }
            before = column;
        }
        None
    }
}
