//! Random valid jobs.

use crate::job::{
    Job, Record, GREATEST_AMOUNT, GREATEST_DELAY, GREATEST_FRAME, MOST_FRAMES, MOST_NODES,
};
use crate::rng::Rng;

#[derive(Clone, Copy)]
pub enum Shape {
    Chain,
    Star,
    /// A chain whose last node has all the others as children.
    Broom,
    Binary,
    /// A chain of the even nodes, each with an odd one as a leaf.
    Caterpillar,
    /// Each parent drawn from all lower nodes.
    Random,
}

pub const SHAPES: [Shape; 6] = [
    Shape::Chain,
    Shape::Star,
    Shape::Broom,
    Shape::Binary,
    Shape::Caterpillar,
    Shape::Random,
];

/// Each tree of 2 to 4 nodes, as the parents of its nodes.
pub const TREES_OF_2: [&[u8]; 1] = [&[0]];
pub const TREES_OF_3: [&[u8]; 2] = [&[0, 0], &[0, 1]];
pub const TREES_OF_4: [&[u8]; 6] = [
    &[0, 0, 0],
    &[0, 0, 1],
    &[0, 0, 2],
    &[0, 1, 0],
    &[0, 1, 1],
    &[0, 1, 2],
];

impl Shape {
    /// The parents of nodes 1 to `nodes` - 1.
    pub fn parents(self, nodes: usize, rng: &mut Rng) -> Vec<u8> {
        let hub = rng.index(nodes - 1);
        let parent = |node: usize| match self {
            Shape::Chain => node - 1,
            Shape::Star => 0,
            Shape::Broom => hub.min(node - 1),
            Shape::Binary => (node - 1) / 2,
            Shape::Caterpillar => (node - 1) / 2 * 2,
            Shape::Random => rng.index(node),
        };
        (1..nodes).map(parent).map(|node| node as u8).collect()
    }
}

/// How the numbers of a job are chosen, each within its bound.
#[derive(Clone, Copy)]
enum Fill {
    Zeros,
    Limits,
    Mixed,
}

impl Fill {
    fn number(self, limit: u64, rng: &mut Rng) -> u64 {
        match self {
            Fill::Zeros => 0,
            Fill::Limits => limit,
            Fill::Mixed => rng.up_to(limit),
        }
    }
}

/// A valid job of this shape and these counts.
pub fn valid(shape: Shape, nodes: usize, frames: usize, rng: &mut Rng) -> Job {
    let fill = match rng.below(32) {
        0 => Fill::Zeros,
        1 => Fill::Limits,
        _ => Fill::Mixed,
    };
    filled(fill, shape, nodes, frames, rng)
}

/// A job whose longest delay is that of one leaf alone.
pub fn waiting(nodes: usize, frames: usize, delay: u16, rng: &mut Rng) -> Job {
    let shape = rng.pick(&SHAPES);
    let mut job = valid(shape, nodes, frames, rng);
    let leaves = job.nodes(false);
    for &leaf in &leaves {
        job.record(leaf).delay = rng.index(usize::from(delay).max(1)) as u16;
    }
    job.record(rng.pick(&leaves)).delay = delay;
    job
}

/// The largest job of this shape, with every field at its bound.
pub fn at_bounds(shape: Shape, rng: &mut Rng) -> Job {
    filled(Fill::Limits, shape, MOST_NODES, MOST_FRAMES, rng)
}

fn filled(fill: Fill, shape: Shape, nodes: usize, frames: usize, rng: &mut Rng) -> Job {
    let parents = shape.parents(nodes, rng);
    let mut records = Vec::with_capacity(nodes - 1);
    for (i, &parent) in parents.iter().enumerate() {
        let inner = parents.iter().any(|&other| usize::from(other) == i + 1);
        let greatest_delay = if inner { 0 } else { GREATEST_DELAY };
        records.push(Record {
            parent,
            delay: fill.number(u64::from(greatest_delay), rng) as u16,
            memory: fill.number(GREATEST_AMOUNT, rng),
            rate: fill.number(GREATEST_AMOUNT, rng),
        });
    }
    let frames = (0..frames)
        .map(|_| fill.number(u64::from(GREATEST_FRAME), rng) as u32)
        .collect();
    Job::new(records, frames)
}

/// A valid job of any shape, mostly small.
pub fn any_valid(rng: &mut Rng) -> Job {
    let shape = rng.pick(&SHAPES);
    let most = rng.pick(&[8, MOST_NODES as u64]);
    let nodes = rng.within(2..=most) as usize;
    let frames = few_frames(rng);
    valid(shape, nodes, frames, rng)
}

/// A frame count, mostly small.
pub fn few_frames(rng: &mut Rng) -> usize {
    let most = match rng.below(100) {
        0 => 1_000,
        1..=39 => 30,
        _ => 5,
    };
    rng.within(1..=most) as usize
}

/// A valid job with many frames, at times with the most nodes and frames.
pub fn large_valid(rng: &mut Rng) -> Job {
    let shape = rng.pick(&SHAPES);
    if rng.one_in(4) {
        return valid(shape, MOST_NODES, MOST_FRAMES, rng);
    }
    let nodes = rng.within(2..=MOST_NODES as u64) as usize;
    let frames = rng.within(1_000..=MOST_FRAMES as u64) as usize;
    valid(shape, nodes, frames, rng)
}
