//! The independent reader: the table of refusals, row by row, with its numbers
//! written out, and the sizes of a job.

use crate::library::JobSizes;

/// The big-endian number that `bytes` hold.
fn number(bytes: &[u8]) -> u64 {
    let mut value = 0;
    for &byte in bytes {
        value = value * 256 + u64::from(byte);
    }
    value
}

struct Node {
    own: u64,
    parent: u64,
    delay: u64,
    memory: u64,
    rate: u64,
}

impl Node {
    /// Whether it is nobody's parent.
    fn is_leaf(&self, nodes: &[Node]) -> bool {
        nodes.iter().all(|other| other.parent != self.own)
    }
}

/// 0 where `bytes` are a job, else the first refusal of 1 to 10 that applies.
pub fn refusal(bytes: &[u8]) -> u64 {
    if bytes.len() < 10 {
        return 1;
    }
    if bytes[0] != 0x52 || bytes[1] != 0x4C || bytes[2] != 0x59 {
        return 2;
    }
    if number(&bytes[3..5]) != 1 {
        return 3;
    }
    let n = number(&bytes[5..6]);
    if !(2..=64).contains(&n) {
        return 4;
    }
    let m = number(&bytes[6..10]);
    if !(1..=65_536).contains(&m) {
        return 5;
    }
    if bytes.len() as u64 != 10 + 19 * (n - 1) + 4 * m {
        return 6;
    }

    let (nodes, frames) = lists(bytes, n);
    refusal_of_lists(&nodes, frames)
}

/// The same of the rows 7 to 10, from the nodes and the bytes of the frames.
fn refusal_of_lists(nodes: &[Node], frames: &[u8]) -> u64 {
    for node in nodes {
        if node.parent >= node.own {
            return 7;
        }
    }
    for node in nodes {
        let greatest = if node.is_leaf(nodes) { 4_096 } else { 0 };
        if node.delay > greatest {
            return 8;
        }
    }
    for node in nodes {
        if node.memory > 17_592_186_044_415 || node.rate > 17_592_186_044_415 {
            return 9;
        }
    }
    for frame in frames.chunks(4) {
        if number(frame) > 268_435_455 {
            return 10;
        }
    }
    0
}

/// The nodes 1 to n - 1 and the bytes of the frames, where the length fits.
fn lists(bytes: &[u8], n: u64) -> (Vec<Node>, &[u8]) {
    let (mut nodes, mut rest) = (Vec::new(), &bytes[10..]);
    for own in 1..n {
        let (record, after) = rest.split_at(19);
        nodes.push(Node {
            own,
            parent: number(&record[0..1]),
            delay: number(&record[1..3]),
            memory: number(&record[3..11]),
            rate: number(&record[11..19]),
        });
        rest = after;
    }
    (nodes, rest)
}

/// The sizes of the job that `bytes` are, or their refusal. The last slot is that in
/// which the last of the leaves plays the last frame; the plan's numbers are counted
/// link by link, from slot 0 on.
pub fn sizes(bytes: &[u8]) -> JobSizes {
    let refused = refusal(bytes);
    if refused != 0 {
        return JobSizes {
            number: refused,
            ..JobSizes::default()
        };
    }
    let (nodes, frames) = lists(bytes, number(&bytes[5..6]));
    let frames = frames.chunks(4).count();
    let (mut last_slot, mut plan_length) = (0, 0);
    for leaf in nodes.iter().filter(|node| node.is_leaf(&nodes)) {
        last_slot = last_slot.max(leaf.delay as usize + frames);
    }
    for _link in &nodes {
        plan_length += (0..=last_slot).count();
    }
    JobSizes {
        number: 0,
        nodes: 1 + nodes.len(),
        frames,
        last_slot,
        plan_length,
    }
}
