//! Jobs for the memory question.

use crate::asking::{lengths, Case};
use crate::faults::{one_or_two, with_faults};
use crate::job::{
    Job, Record, GREATEST_AMOUNT, GREATEST_DELAY, GREATEST_FRAME, MOST_FRAMES, MOST_NODES,
};
use crate::rng::Rng;
use crate::shapes::{Shape, SHAPES};

/// How the numbers of a job are drawn, each up to its bound here.
struct Bounds {
    frame: u64,
    delay: u64,
    /// Added to what is drawn for each leaf's memory.
    leaf_least: u64,
    leaf_memory: u64,
    inner_memory: u64,
}

fn draw(shape: Shape, nodes: usize, frames: usize, bounds: &Bounds, rng: &mut Rng) -> Job {
    let parents = shape.parents(nodes, rng);
    fill(&parents, frames, bounds, rng)
}

/// The parents of a tree in which node 1 is above all others but the root, so
/// that its memory ties them together.
fn trunk(nodes: usize, rng: &mut Rng) -> Vec<u8> {
    let parent = |node: u64| match node {
        1 => 0,
        _ => rng.pick(&[1, 1, 1, 2, 3]).min(node - 1),
    };
    (1..nodes as u64)
        .map(parent)
        .map(|node| node as u8)
        .collect()
}

/// A trunk, or at times one of the shapes.
pub fn any_parents(nodes: usize, rng: &mut Rng) -> Vec<u8> {
    if rng.one_in(8) {
        return rng.pick(&SHAPES).parents(nodes, rng);
    }
    trunk(nodes, rng)
}

fn fill(parents: &[u8], frames: usize, bounds: &Bounds, rng: &mut Rng) -> Job {
    let frames = (0..frames)
        .map(|_| rng.within(0..=bounds.frame) as u32)
        .collect();
    let records = parents.iter().map(|&parent| Record {
        parent,
        rate: rng.up_to(GREATEST_AMOUNT),
        ..Record::default()
    });
    let mut job = Job::new(records.collect(), frames);
    for node in job.nodes(false) {
        job.record(node).delay = rng.within(0..=bounds.delay) as u16;
        job.record(node).memory = bounds.leaf_least + rng.within(0..=bounds.leaf_memory);
    }
    for node in job.nodes(true) {
        job.record(node).memory = rng.within(0..=bounds.inner_memory);
    }
    job
}

/// Each job of up to 4 nodes and 2 frames with small numbers.
pub fn every_tiny(_: &mut Rng) -> Vec<Case> {
    let mut jobs = Vec::new();
    for first in 0..=2 {
        jobs.push(Job::new(Vec::new(), vec![first]));
        jobs.extend((0..=2).map(|second| Job::new(Vec::new(), vec![first, second])));
    }
    let mut cases = Vec::new();
    for node in 1..=3 {
        jobs = jobs.iter().flat_map(|job| grown(job, node)).collect();
        cases.extend(jobs.iter().flat_map(delayed).map(Case::job));
    }
    cases
}

/// `job` with one more node, in each way.
fn grown(job: &Job, node: u8) -> Vec<Job> {
    let mut jobs = Vec::new();
    for parent in 0..node {
        for memory in 0..=2 {
            let mut records = job.records.clone();
            records.push(Record {
                parent,
                memory,
                ..Record::default()
            });
            jobs.push(Job::new(records, job.frames.clone()));
        }
    }
    jobs
}

/// `job` with each choice of the delays 0 and 1.
fn delayed(job: &Job) -> Vec<Job> {
    let mut jobs = vec![job.clone()];
    for leaf in job.nodes(false) {
        for mut job in jobs.clone() {
            job.record(leaf).delay = 1;
            jobs.push(job);
        }
    }
    jobs
}

/// Random jobs small enough for the brute-force search.
pub fn tiny(_: u64, rng: &mut Rng) -> Case {
    let (nodes, most) = rng.pick(&[(3, 9), (4, 7), (4, 9), (4, 9), (5, 5), (5, 5)]);
    let parents = any_parents(nodes, rng);
    let frames = rng.within(2..=4) as usize;
    let bounds = Bounds {
        frame: rng.pick(&[most / 3, most / 2]),
        delay: rng.below(3),
        leaf_least: rng.pick(&[0, 1, most / 2]),
        leaf_memory: rng.pick(&[1, 2, most / 2]),
        inner_memory: rng.pick(&[0, 0, 1, 2]),
    };
    let mut job = fill(&parents, frames, &bounds, rng);
    let mut left = most;
    for frame in &mut job.frames {
        *frame = (*frame).min(left as u32);
        left -= u64::from(*frame);
    }
    Case::job(job)
}

/// Random jobs of a few nodes and slots, most of them with a plan.
pub fn small(_: u64, rng: &mut Rng) -> Case {
    Case::job(small_job(rng))
}

pub fn small_job(rng: &mut Rng) -> Job {
    let nodes = rng.within(4..=9) as usize;
    let parents = any_parents(nodes, rng);
    let frames = rng.within(3..=9) as usize;
    let frame = rng.pick(&[4, 30, 1_000, u64::from(GREATEST_FRAME)]);
    let delay = rng.pick(&[0, 1, 1, 2, 2, 4]);
    let bounds = Bounds {
        frame,
        delay,
        leaf_least: frame * delay * rng.pick(&[0, 2, 3, 3]) / 4,
        leaf_memory: frame * rng.pick(&[2, 4, 6]) / 2,
        inner_memory: frame * rng.pick(&[0, 1, 1, 4]) / 4,
    };
    fill(&parents, frames, &bounds, rng)
}

/// Bytes with one fault or two of 1 to 10, and outputs of any small length.
pub fn faulty(i: u64, rng: &mut Rng) -> Case {
    let job = small_job(rng);
    let (plan, peaks) = lengths(&job);
    // Twice as many of 1, as its short strings repeat.
    let first = 1 + i % 11 % 10;
    let numbers = one_or_two(first, rng);
    let bytes = with_faults(job, &numbers, rng);
    if rng.one_in(2) {
        return Case::broken(bytes, plan, peaks);
    }
    Case::broken(bytes, rng.index(2 * plan), rng.index(2 * peaks))
}

/// Jobs, with a plan or not, and an output one short, one over or empty.
pub fn wrong_length(i: u64, rng: &mut Rng) -> Case {
    let job = small_job(rng);
    let (plan, peaks) = lengths(&job);
    let wrong = |right: usize, which: u64| [right, right - 1, right + 1, 0][which as usize];
    let which = 1 + i % 15;
    Case::lent(job, wrong(plan, which % 4), wrong(peaks, which / 4))
}

/// All frames 0, memory 0 everywhere and memory at its limit everywhere, for each
/// shape and several sizes.
pub fn extremes(rng: &mut Rng) -> Vec<Case> {
    let mut cases = Vec::new();
    for shape in SHAPES {
        for (nodes, frames) in [(2, 1), (3, 4), (8, 6), (20, 5), (MOST_NODES, 4)] {
            for memory in [0, GREATEST_AMOUNT] {
                for (frame, delay) in [(0, 9), (40, 0), (40, 9), (u64::from(GREATEST_FRAME), 3)] {
                    let bounds = Bounds {
                        frame,
                        delay,
                        leaf_least: 0,
                        leaf_memory: 0,
                        inner_memory: 0,
                    };
                    let mut job = draw(shape, nodes, frames, &bounds, rng);
                    for record in &mut job.records {
                        record.memory = memory;
                    }
                    cases.push(Case::job(job));
                }
            }
        }
    }
    cases
}

/// Trees of the most nodes, of each shape.
pub fn most_nodes(rng: &mut Rng) -> Vec<Case> {
    let mut cases = Vec::new();
    for shape in SHAPES {
        for delay in [0, 1, 6] {
            let frame = rng.pick(&[50, 1_000]);
            let bounds = Bounds {
                frame,
                delay,
                leaf_least: (delay + 1) * frame,
                leaf_memory: 6 * frame,
                inner_memory: frame / 4,
            };
            let job = draw(shape, MOST_NODES, 20, &bounds, rng);
            cases.push(Case::job(job));
        }
    }
    cases
}

/// The most frames with the greatest delay, on few nodes.
pub fn most_frames(rng: &mut Rng) -> Vec<Case> {
    let mut cases = Vec::new();
    for parents in [&[0][..], &[0, 1, 1]] {
        let mut job = wide(parents, rng);
        cases.push(Case::job(job.clone()));
        for node in job.nodes(false) {
            job.record(node).memory = 0;
        }
        job.frames[0] = 1;
        let (plan, peaks) = lengths(&job);
        cases.push(Case::lent(job.clone(), plan - 1, peaks));
        cases.push(Case::lent(job, plan, peaks + 1));
    }
    cases
}

/// The largest plan: the most nodes and frames, and the greatest delay.
pub fn largest(rng: &mut Rng) -> Job {
    let parents = Shape::Random.parents(MOST_NODES, rng);
    wide(&parents, rng)
}

fn wide(parents: &[u8], rng: &mut Rng) -> Job {
    let bounds = Bounds {
        frame: u64::from(GREATEST_FRAME),
        delay: u64::from(GREATEST_DELAY),
        // Enough for any difference of the delays.
        leaf_least: 1 << 40,
        leaf_memory: 1 << 40,
        inner_memory: 1 << 31,
    };
    let mut job = fill(parents, MOST_FRAMES, &bounds, rng);
    let leaves = job.nodes(false);
    job.record(leaves[0]).delay = GREATEST_DELAY;
    job
}
