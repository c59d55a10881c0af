//! Faults planted in valid jobs, each known by the number of its refusal.

use crate::job::{
    Job, Record, FRAME_BYTES, GREATEST_AMOUNT, GREATEST_DELAY, GREATEST_FRAME, HEADER_BYTES,
    MOST_FRAMES, MOST_NODES, RECORD_BYTES,
};
use crate::rng::Rng;

/// A job under damage. Its bytes are those of the job and then `extra`, all cut
/// to `keep` bytes where that is given.
struct Draft {
    job: Job,
    extra: Vec<u8>,
    keep: Option<usize>,
}

/// The bytes of `job`, which is valid, with the faults of these numbers. The
/// least number is the refusal: it is planted last, so no other undoes it.
pub fn with_faults(job: Job, numbers: &[u64], rng: &mut Rng) -> Vec<u8> {
    let mut draft = Draft {
        job,
        extra: Vec::new(),
        keep: None,
    };
    let mut falling = numbers.to_vec();
    falling.sort_unstable_by(|a, b| b.cmp(a));
    for number in falling {
        draft.plant(number, rng);
    }
    let mut bytes = draft.job.encode();
    bytes.extend(draft.extra);
    if let Some(keep) = draft.keep {
        bytes.truncate(keep);
    }
    bytes
}

/// The number of a fault and, at times, that of another after it.
pub fn one_or_two(first: u64, rng: &mut Rng) -> Vec<u64> {
    let mut numbers = vec![first];
    if first < 10 && rng.one_in(2) {
        numbers.push(rng.within(first + 1..=10));
    }
    numbers
}

/// The first, the middle, the last or any place of `length`.
fn place(length: usize, rng: &mut Rng) -> usize {
    let any = rng.index(length);
    rng.pick(&[0, length / 2, length - 1, any])
}

/// A number from 0 to `top` that is not `value`.
fn other_than(value: u64, top: u64, rng: &mut Rng) -> u64 {
    (value + rng.within(1..=top)) % (top + 1)
}

impl Draft {
    fn plant(&mut self, number: u64, rng: &mut Rng) {
        match number {
            1 => self.keep = Some(rng.index(HEADER_BYTES)),
            2 => self.mark(rng),
            3 => self.version(rng),
            4 => self.node_count(rng),
            5 => self.frame_count(rng),
            6 => self.length(rng),
            7 => self.parent(rng),
            8 => self.delay(rng),
            9 => self.amount(rng),
            10 => self.frame(rng),
            _ => unreachable!("no refusal {number} of a job's bytes"),
        }
    }

    fn mark(&mut self, rng: &mut Rng) {
        match rng.below(4) {
            0 => self.job.mark = *b"rly",
            1 => self.job.mark = *b"YLR",
            _ => {
                let byte = &mut self.job.mark[rng.index(3)];
                *byte = other_than(u64::from(*byte), 255, rng) as u8;
            }
        }
    }

    fn version(&mut self, rng: &mut Rng) {
        let any = other_than(1, u64::from(u16::MAX), rng) as u16;
        self.job.version = rng.pick(&[0, 2, 256, 257, u16::MAX, any]);
    }

    fn node_count(&mut self, rng: &mut Rng) {
        let any = rng.above(MOST_NODES as u64, 255) as u8;
        let count = rng.pick(&[0, 1, 65, 255, any]);
        self.job.node_count = count;
        if rng.one_in(2) {
            self.fit_node_count(usize::from(count));
        }
    }

    /// Gives the length that the formula has for `count` nodes, where it can.
    fn fit_node_count(&mut self, count: usize) {
        if count > 0 {
            self.job.records.resize(count - 1, Record::default());
            return;
        }
        let length = (HEADER_BYTES + FRAME_BYTES * self.job.frames.len()).checked_sub(RECORD_BYTES);
        if let Some(length) = length.filter(|&length| length >= HEADER_BYTES) {
            self.keep = Some(length);
        }
    }

    fn frame_count(&mut self, rng: &mut Rng) {
        let held = self.job.frames.len() as u32;
        self.job.frame_count = match rng.below(5) {
            0 => 0,
            1 => {
                self.job.frames.clear();
                0
            }
            // The length fits in arithmetic of 32 bits.
            2 => held + (rng.within(1..=3) << 30) as u32,
            // The count fits in its low half.
            3 => (held & 0xFFFF).max(1) + (rng.within(1..=0xFFFF) << 16) as u32,
            _ => rng.above(MOST_FRAMES as u64, u64::from(u32::MAX)) as u32,
        };
    }

    fn length(&mut self, rng: &mut Rng) {
        match rng.below(4) {
            0 => {
                let any = rng.within(1..=40) as usize;
                let more = rng.pick(&[1, FRAME_BYTES, RECORD_BYTES, any]);
                self.extra = rng.bytes(more);
            }
            1 => {
                let whole = self.job.length();
                let any = rng.within(HEADER_BYTES as u64..=whole as u64 - 1) as usize;
                self.keep = Some(rng.pick(&[whole - 1, whole - FRAME_BYTES, any]));
            }
            2 => {
                let count = u64::from(self.job.node_count) - 2;
                self.job.node_count = 2 + other_than(count, MOST_NODES as u64 - 2, rng) as u8;
            }
            _ => {
                let count = u64::from(self.job.frame_count) - 1;
                self.job.frame_count = 1 + other_than(count, MOST_FRAMES as u64 - 1, rng) as u32;
            }
        }
    }

    fn parent(&mut self, rng: &mut Rng) {
        let node = 1 + place(self.job.records.len(), rng);
        let own = node as u8;
        let any = rng.within(u64::from(own)..=255) as u8;
        self.job.record(node).parent = rng.pick(&[own, own + 1, 255, any]);
    }

    fn delay(&mut self, rng: &mut Rng) {
        let inner = self.job.nodes(true);
        if !inner.is_empty() && rng.one_in(2) {
            let node = inner[place(inner.len(), rng)];
            let any = rng.within(1..=u64::from(u16::MAX)) as u16;
            self.job.record(node).delay = rng.pick(&[1, 256, GREATEST_DELAY, any]);
        } else {
            let leaves = self.job.nodes(false);
            let node = leaves[place(leaves.len(), rng)];
            let delay = rng.above(u64::from(GREATEST_DELAY), u64::from(u16::MAX));
            self.job.record(node).delay = delay as u16;
        }
    }

    fn amount(&mut self, rng: &mut Rng) {
        let node = 1 + place(self.job.records.len(), rng);
        let amount = rng.above(GREATEST_AMOUNT, u64::MAX);
        let record = self.job.record(node);
        if rng.one_in(2) {
            record.memory = amount;
        } else {
            record.rate = amount;
        }
    }

    fn frame(&mut self, rng: &mut Rng) {
        let at = place(self.job.frames.len(), rng);
        self.job.frames[at] = rng.above(u64::from(GREATEST_FRAME), u64::from(u32::MAX)) as u32;
    }
}
