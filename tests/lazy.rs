//! The independent answer to the rate question: every slot of every lazy schedule, from
//! the last back, in wide signed numbers, and the memories by layers of bytes.
//!
//! A set of memories serves just where, on each way from a node down to a leaf, they
//! add up to at least the node's need. So each byte of a need has a holder on each such
//! way, and the bytes can be looked at one by one. A leaf that is asked for a byte holds
//! it. An inner node that is asked for it asks the children that need it themselves in
//! any case. Each of its other children would cost one holder, as the node itself does:
//! two or more cost more, so the node holds the byte; one costs the same and has a
//! higher number, so the node asks it and holds nothing; and where there is none, every
//! way down has its holder already.
//!
//! A layer is the bytes between two neighbouring needs, or below the least one; they all
//! have the same holders.

use crate::job::Job;

/// The longest common delay.
const LONGEST: i128 = 4_096;

/// What the rate question gives for a job that some delay serves.
pub struct Sizes {
    pub delay: u64,
    pub total: u64,
    /// Node 1's first, as are the needs.
    pub memories: Vec<u64>,
    pub needs: Vec<u64>,
}

/// None where no delay up to 4,096 serves.
pub fn sizes(job: &Job) -> Option<Sizes> {
    let sums = sums(job);
    let rates = job.records.iter().map(|record| i128::from(record.rate));
    let delay = least_delay(&sums, rates.min().expect("a link"))?;
    let frames = job.frames.len() as i128;
    let played: Vec<i128> = (0..=frames + delay)
        .map(|slot| sums[(slot - delay).max(0) as usize])
        .collect();
    let needs: Vec<u64> = floor_rates(job)
        .into_iter()
        .map(|rate| need(&played, rate) as u64)
        .collect();
    let memories = memories(job, &needs);
    Some(Sizes {
        delay: delay as u64,
        total: memories.iter().sum(),
        memories,
        needs,
    })
}

/// T(0) to T(M).
fn sums(job: &Job) -> Vec<i128> {
    let frames = job.frames.iter().scan(0, |sum, &frame| {
        *sum += i128::from(frame);
        Some(*sum)
    });
    std::iter::once(0).chain(frames).collect()
}

/// The least delay for this least rate, by halving: a longer one serves where a
/// shorter one does.
fn least_delay(sums: &[i128], rate: i128) -> Option<i128> {
    let serves = |delay: i128| (0..).zip(sums).all(|(m, &sum)| sum <= rate * (m + delay));
    let (mut low, mut high) = (0, LONGEST);
    if !serves(high) {
        return None;
    }
    while low < high {
        let middle = (low + high) / 2;
        if serves(middle) {
            high = middle;
        } else {
            low = middle + 1;
        }
    }
    Some(high)
}

/// The floor rate of each node: every link's rate is taken to its own node and to
/// all nodes on the way up.
fn floor_rates(job: &Job) -> Vec<i128> {
    let mut floors = vec![i128::MAX; job.records.len()];
    for (i, record) in job.records.iter().enumerate() {
        let mut node = i + 1;
        while node > 0 {
            floors[node - 1] = floors[node - 1].min(i128::from(record.rate));
            node = usize::from(job.records[node - 1].parent);
        }
    }
    floors
}

/// The greatest excess of the lazy schedule at this rate over what is played.
fn need(played: &[i128], rate: i128) -> i128 {
    let mut carried = played[played.len() - 1];
    let mut most = 0;
    for &due in played.iter().rev().skip(1) {
        carried = due.max(carried - rate);
        most = most.max(carried - due);
    }
    most
}

/// The memories for these needs, node 1's first.
fn memories(job: &Job, needs: &[u64]) -> Vec<u64> {
    let children = job.children();
    let mut ends = needs.to_vec();
    ends.sort_unstable();
    ends.dedup();
    let mut memories = vec![0; needs.len()];
    let mut start = 0;
    for end in ends {
        for node in holders(&children, needs, end) {
            memories[node - 1] += end - start;
        }
        start = end;
    }
    memories
}

/// The nodes that hold the layer with this upper end. A node needs it where its need
/// reaches that end, and then so does the node above.
fn holders(children: &[Vec<usize>], needs: &[u64], end: u64) -> Vec<usize> {
    let needing = |node: &usize| needs[node - 1] >= end;
    let mut asked: Vec<usize> = children[0].iter().copied().filter(needing).collect();
    let mut holders = Vec::new();
    while let Some(node) = asked.pop() {
        let below = &children[node];
        let others = below.iter().filter(|child| !needing(child)).count();
        if below.is_empty() || others > 1 {
            holders.push(node);
            asked.extend(below.iter().copied().filter(needing));
        } else {
            asked.extend(below);
        }
    }
    holders
}
