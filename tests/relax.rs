//! The independent planner: longest paths by relaxation. Each rule says that one
//! number of the plan is at least another less some amount; numbers are raised
//! until nothing changes or one must pass what it may be at most.

use crate::answer::{peak, Answer};
use crate::job::Job;

/// Stands for a peak without a bound.
const FREE: u64 = u64::MAX;

pub struct Planner {
    /// The last slot and one.
    slots: usize,
    total: u64,
    parents: Vec<Option<usize>>,
    children: Vec<Vec<usize>>,
    memories: Vec<u64>,
    /// The most that a number may be, link by link.
    most: Vec<u64>,
    /// The least numbers, with no bound on any peak.
    base: Option<Vec<u64>>,
}

/// Of each link the link above it, where there is one, and those below it.
fn family(job: &Job) -> (Vec<Option<usize>>, Vec<Vec<usize>>) {
    let links = job.records.len();
    let (mut parents, mut children) = (vec![None; links], vec![Vec::new(); links]);
    for (link, record) in job.records.iter().enumerate() {
        if record.parent > 0 {
            let parent = usize::from(record.parent) - 1;
            parents[link] = Some(parent);
            children[parent].push(link);
        }
    }
    (parents, children)
}

impl Planner {
    pub fn new(job: &Job) -> Self {
        let links = job.records.len();
        let last = |record: &crate::job::Record| usize::from(record.delay) + job.frames.len();
        let slots = 1 + job.records.iter().map(last).max().expect("a link");
        let total = job.frames.iter().map(|&frame| u64::from(frame)).sum();
        let (parents, children) = family(job);
        let mut least = vec![0; links * slots];
        let mut most = vec![total; links * slots];
        for (link, record) in job.records.iter().enumerate() {
            most[link * slots] = 0;
            if !children[link].is_empty() {
                continue;
            }
            let mut played = 0;
            for slot in 1..slots {
                if let Some(shown) = (slot - 1).checked_sub(usize::from(record.delay)) {
                    played += job.frames.get(shown).map_or(0, |&frame| u64::from(frame));
                }
                least[link * slots + slot] = played;
                most[link * slots + slot] = total.min(played + record.memory);
            }
        }
        let mut planner = Planner {
            slots,
            total,
            parents,
            children,
            memories: job.records.iter().map(|record| record.memory).collect(),
            most,
            base: None,
        };
        planner.base = planner.relax(least, &vec![FREE; links]);
        planner
    }

    /// The least plan with at most these peaks, if there is one.
    pub fn least(&self, peaks: &[u64]) -> Option<Vec<u64>> {
        self.relax(self.base.clone()?, peaks)
    }

    /// Whether some plan has at most this peak on one link.
    pub fn can(&self, link: usize, peak: u64) -> bool {
        let mut peaks = vec![FREE; self.parents.len()];
        peaks[link] = peak;
        self.least(&peaks).is_some()
    }

    /// The answer: each link's least peak is found alone, and the plan of all of
    /// them at once must then exist.
    pub fn answer(&self) -> Option<Answer> {
        let base = self.base.as_ref()?;
        let peaks: Vec<u64> = base
            .chunks(self.slots)
            .enumerate()
            .map(|(link, row)| self.least_peak(link, peak(row)))
            .collect();
        let plan = self
            .least(&peaks)
            .expect("a plan with every least peak at once");
        let rows: Vec<Vec<u64>> = plan.chunks(self.slots).map(<[u64]>::to_vec).collect();
        let reached = rows.iter().map(|row| peak(row));
        assert!(
            reached.eq(peaks.iter().copied()),
            "the least peaks are those of the rows"
        );
        Some(Answer {
            last_slot: self.slots as u64 - 1,
            total: self.total,
            rows,
            peaks,
        })
    }

    /// The least peak of `link`, by halving, where `high` can be had.
    fn least_peak(&self, link: usize, mut high: u64) -> u64 {
        let mut low = 0;
        while low < high {
            let middle = low + (high - low) / 2;
            if self.can(link, middle) {
                high = middle;
            } else {
                low = middle + 1;
            }
        }
        high
    }

    fn relax(&self, mut plan: Vec<u64>, peaks: &[u64]) -> Option<Vec<u64>> {
        let links = self.parents.len();
        let over = plan
            .iter()
            .zip(&self.most)
            .any(|(number, most)| number > most);
        let mut changed = true;
        let mut upward = true;
        while changed && !over {
            changed = false;
            for i in 0..links {
                let link = if upward { links - 1 - i } else { i };
                for slot in (0..self.slots).chain((0..self.slots).rev()) {
                    let need = self.need(&plan, peaks[link], link, slot);
                    let at = link * self.slots + slot;
                    if need > self.most[at] {
                        return None;
                    }
                    if need > plan[at] {
                        plan[at] = need;
                        changed = true;
                    }
                }
            }
            upward = !upward;
        }
        (!over).then_some(plan)
    }

    /// What the numbers beside this one ask of it.
    fn need(&self, plan: &[u64], peak: u64, link: usize, slot: usize) -> u64 {
        let at = link * self.slots + slot;
        let mut need = 0;
        if slot > 0 {
            need = plan[at - 1];
        }
        if slot + 1 < self.slots {
            need = need.max(plan[at + 1].saturating_sub(peak));
        }
        for &child in &self.children[link] {
            need = need.max(plan[child * self.slots + slot]);
        }
        if let Some(parent) = self.parents[link] {
            let above = plan[parent * self.slots + slot];
            need = need.max(above.saturating_sub(self.memories[parent]));
        }
        need
    }
}

/// Whether P3 binds in an answer: whether some leaf's row or peak differs from
/// that without P3, where each leaf stands alone under the root.
pub fn binding(job: &Job, answer: &Answer) -> bool {
    let leaves = job.nodes(false);
    let alone = leaves.iter().map(|&leaf| crate::job::Record {
        parent: 0,
        ..job.records[leaf - 1].clone()
    });
    let star = Job::new(alone.collect(), job.frames.clone());
    let Some(free) = Planner::new(&star).answer() else {
        unreachable!("the same rows keep P1 and P2 alone");
    };
    leaves.iter().enumerate().any(|(i, &leaf)| {
        free.rows[i] != answer.rows[leaf - 1] || free.peaks[i] != answer.peaks[leaf - 1]
    })
}
