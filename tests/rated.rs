//! Jobs for the rate question. Their delays and memories, which it doesn't use, are
//! drawn from all that is allowed.

use crate::edges::example_jobs;
use crate::faults::{one_or_two, with_faults};
use crate::job::{
    Job, Record, GREATEST_AMOUNT, GREATEST_DELAY, GREATEST_FRAME, MOST_FRAMES, MOST_NODES,
};
use crate::lazy;
use crate::rng::Rng;
use crate::shapes::{at_bounds, Shape, SHAPES, TREES_OF_2, TREES_OF_3, TREES_OF_4};
use crate::sizing::Case;
use crate::trees;

/// A job with these parents, rates and frames.
fn made(parents: &[u8], rates: &[u64], frames: Vec<u32>, rng: &mut Rng) -> Job {
    let records = parents.iter().zip(rates).map(|(&parent, &rate)| Record {
        parent,
        delay: 0,
        memory: rng.up_to(GREATEST_AMOUNT),
        rate,
    });
    let mut job = Job::new(records.collect(), frames);
    for leaf in job.nodes(false) {
        job.record(leaf).delay = rng.up_to(u64::from(GREATEST_DELAY)) as u16;
    }
    job
}

fn any_parents(nodes: usize, rng: &mut Rng) -> Vec<u8> {
    rng.pick(&SHAPES).parents(nodes, rng)
}

/// The documents' examples; the independent sizes must be theirs. In Tree Q, with delay 2,
/// 0, 0, 0, 4, 14, 15 are played by slots 0 to 5. The floor rates are 4, 10, 4; the lazy
/// schedules at 4 and at 10 are 0, 2, 6, 10, 14, 15 and 0, 0, 0, 4, 14, 15; the needs are
/// 6, 0, 6. Node 3 holds its 6 in any case, and node 2 can hold those of node 1 alone.
pub fn examples(_: &mut Rng) -> Vec<Case> {
    let q = Some((2, 12, vec![0, 6, 6]));
    let due = [
        q.clone(),
        q.clone(),
        q.clone(),
        q.clone(),
        q,
        Some((4_096, 4_096, vec![4_096])),
        None,
        Some((0, 0, vec![0, 0, 0])),
        None,
    ];
    let jobs = example_jobs();
    for (job, due) in jobs.iter().zip(due) {
        let got = lazy::sizes(job).map(|sizes| (sizes.delay, sizes.total, sizes.memories));
        assert!(got == due, "the independent sizes against the documents");
    }
    jobs.into_iter().map(Case::job).collect()
}

/// Trees by hand, for a film of one frame of 10 bytes; the independent sizes must be
/// these. The delay is the least w with 10 ≤ (least rate) × (1 + w). All 10 bytes are
/// played in the last slot, in which a lazy schedule brings as many as its rate allows,
/// so that a need is 10 less the floor rate, and 0 from floor rate 10 on. A child may
/// hold more than it needs in its parent's stead; where two would have to, the parent
/// keeps the bytes.
pub fn by_hand(rng: &mut Rng) -> Vec<Case> {
    // Parents, rates, delay, memories.
    let due: [(&[u8], &[u64], u64, &[u64]); 12] = [
        // Needs 6, 3. An only child holds all 6.
        (&[0, 1], &[4, 7], 2, &[0, 6]),
        // Needs 8, 7, 5, 4, 1, in a chain. All 8 go down to the leaf.
        (&[0, 1, 2, 3, 4], &[2, 3, 5, 6, 9], 4, &[0, 0, 0, 0, 8]),
        // Needs 7, 4, 4. Past 4 both leaves would hold more: node 1 keeps 3.
        (&[0, 1, 1], &[3, 6, 6], 3, &[3, 4, 4]),
        // Needs 7, 7, 4: the floor rate of node 1 is node 2's. Node 3 alone holds more.
        (&[0, 1, 1], &[9, 3, 6], 3, &[0, 7, 7]),
        // Needs 8, 5, 7, 2. Node 4 alone holds more up to 5. Past 5 node 2 would too:
        // node 1 keeps 3.
        (&[0, 1, 1, 1], &[2, 5, 3, 8], 4, &[3, 5, 7, 5]),
        // Needs 8, 2, 2, 7. Past 2 nodes 2 and 3 would hold more: node 1 keeps 6.
        (&[0, 1, 1, 1], &[2, 8, 8, 3], 4, &[6, 2, 2, 7]),
        // Needs 8, 3, 6, 1. Node 2 alone holds more up to 6, and node 1 keeps 2. The 6
        // go on to node 2's only child.
        (&[0, 1, 1, 2], &[2, 7, 4, 9], 4, &[2, 0, 6, 6]),
        // Needs 8, 3, 6, 1, 2. The same, but of the 6 past 2 both children of node 2
        // would hold more: it keeps 4.
        (&[0, 1, 1, 2, 2], &[2, 7, 4, 9, 8], 4, &[2, 4, 6, 2, 2]),
        // Needs 5, 6, 2. Nodes 1 and 2 have the root alone in common.
        (&[0, 0, 2], &[5, 4, 8], 2, &[5, 0, 6]),
        // Needs 6, 0, 3. Node 2 alone holds more up to 3, and node 1 keeps 3.
        (&[0, 1, 1], &[4, 10, 7], 2, &[3, 3, 3]),
        // Needs 6, 0, 0. Both leaves would hold more at once: node 1 keeps 6.
        (&[0, 1, 1], &[4, 11, 10], 2, &[6, 0, 0]),
        // Needs 0, 0, 0.
        (&[0, 1, 1], &[10, 12, 11], 0, &[0, 0, 0]),
    ];
    let mut cases = Vec::new();
    for (parents, rates, delay, memories) in due {
        let job = made(parents, rates, vec![10], rng);
        let sizes = lazy::sizes(&job).expect("a delay");
        assert_eq!(sizes.delay, delay, "the delay by hand");
        assert_eq!(sizes.memories, memories, "the memories by hand");
        cases.push(Case::known(job, delay));
    }
    cases
}

/// Each list of `length` numbers up to `most`.
fn lists(length: usize, most: u64) -> Vec<Vec<u64>> {
    let mut all = vec![Vec::new()];
    for _ in 0..length {
        let longer = |list: Vec<u64>| (0..=most).map(move |number| [&list[..], &[number]].concat());
        all = all.into_iter().flat_map(longer).collect();
    }
    all
}

/// Each tree of up to 4 nodes with each film and each rates of small numbers.
pub fn every_tiny(rng: &mut Rng) -> Vec<Case> {
    let mut cases = Vec::new();
    for parents in [&TREES_OF_2[..], &TREES_OF_3, &TREES_OF_4].concat() {
        let links = parents.len();
        // Up to 3 frames on few nodes, up to 2 on more.
        for length in 1..=if links < 3 { 3 } else { 2 } {
            for film in lists(length, 2) {
                for rates in lists(links, 3) {
                    let frames = film.iter().map(|&frame| frame as u32).collect();
                    cases.push(Case::job(made(parents, &rates, frames, rng)));
                }
            }
        }
    }
    cases
}

/// Random jobs small enough for the brute-force search.
pub fn tiny(_: u64, rng: &mut Rng) -> Case {
    let (nodes, most) = rng.pick(&[(2, 20), (3, 12), (4, 5), (4, 6), (5, 3), (5, 3), (6, 2)]);
    let parents = trees::any_parents(nodes, rng);
    let total = rng.within(most / 2..=most);
    let mut left = total;
    let mut frames = Vec::new();
    for _ in 0..rng.within(2..=4) {
        let any = rng.within(0..=left);
        let frame = rng.pick(&[left, any, any]);
        frames.push(frame as u32);
        left -= frame;
    }
    let least = u64::from(!rng.one_in(24));
    // Rates of 1 to 3 at least, so that three needs may differ.
    let greatest = (1 + total / 2).max(3);
    let rate = |_: &u8| rng.within(least..=greatest);
    let rates: Vec<u64> = parents.iter().map(rate).collect();
    Case::job(made(&parents, &rates, frames, rng))
}

/// Random jobs of a few nodes and slots, most of them with a short delay.
pub fn small(_: u64, rng: &mut Rng) -> Case {
    Case::job(small_job(rng))
}

pub fn small_job(rng: &mut Rng) -> Job {
    let nodes = rng.within(2..=12) as usize;
    let parents = any_parents(nodes, rng);
    let count = rng.within(1..=16) as usize;
    let most = rng.pick(&[3, 12, 1_000, u64::from(GREATEST_FRAME)]);
    let frames: Vec<u32> = (0..count).map(|_| rng.within(0..=most) as u32).collect();
    let total: u64 = frames.iter().map(|&frame| u64::from(frame)).sum();
    let mean = total / count as u64;
    let (low, high) = rng.pick(&[(mean / 2, 3 * mean), (mean, 2 * mean), (mean / 4, mean)]);
    let mut rates: Vec<u64> = parents.iter().map(|_| rng.within(low..=high + 1)).collect();
    match rng.below(40) {
        0 => rates[rng.index(nodes - 1)] = 0,
        1 => rates[rng.index(nodes - 1)] = GREATEST_AMOUNT,
        2 => rates.fill_with(|| rng.up_to(GREATEST_AMOUNT)),
        3 => rates.fill(high),
        // Small in the low bits alone.
        4 | 5 => {
            let bit = rng.within(16..=39);
            let low = (1 << bit) + low / 2;
            rates[rng.index(nodes - 1)] = low;
        }
        _ => {}
    }
    made(&parents, &rates, frames, rng)
}

/// Random jobs in which a few nodes have most of the others as children, and few rates
/// differ: siblings often share a need.
pub fn families(_: u64, rng: &mut Rng) -> Case {
    let most = rng.pick(&[24, MOST_NODES as u64]);
    let nodes = rng.within(4..=most) as usize;
    let parents = trees::any_parents(nodes, rng);
    let count = rng.within(1..=8);
    let most = rng.pick(&[12, 1_000, u64::from(GREATEST_FRAME)]);
    let frames: Vec<u32> = (0..count).map(|_| rng.within(0..=most) as u32).collect();
    let total: u64 = frames.iter().map(|&frame| u64::from(frame)).sum();
    let mean = total / count;
    let few = [0; 4].map(|_| rng.within(mean / 2..=2 * mean + 1));
    let rates: Vec<u64> = parents.iter().map(|_| rng.pick(&few)).collect();
    Case::job(made(&parents, &rates, frames, rng))
}

/// Jobs whose least delay is known: up to frame m the film fits the least rate with
/// nothing to spare, or with one byte too many. Delays are short ones, or those at
/// the limit for every `often`-th case.
pub fn borderline(i: u64, rng: &mut Rng) -> Case {
    let often = 4;
    let nodes = rng.within(2..=6) as usize;
    let parents = any_parents(nodes, rng);
    let count = rng.within(1..=8);
    let delay = match i % often {
        0 => rng.pick(&[4_095, 4_096, 4_097]),
        _ => rng.below(12),
    };
    // So that one frame may have all that is due by then.
    let most = u64::from(GREATEST_FRAME) / (count + delay + 1);
    let highest = rng.pick(&[3, 100, most]).min(most);
    let least = rng.within(1..=highest);
    let tight = 1 + rng.below(count);
    let over = u64::from(rng.one_in(2));
    let mut sum = 0;
    let mut frames = Vec::new();
    for m in 1..=count {
        let frame = match m == tight {
            true => least * (m + delay) + over - sum,
            false => rng.up_to(least),
        };
        sum += frame;
        frames.push(frame as u32);
    }
    let top = rng.pick(&[least, 2 * least, GREATEST_AMOUNT]);
    let mut rates: Vec<u64> = parents.iter().map(|_| rng.within(least..=top)).collect();
    rates[rng.index(nodes - 1)] = least;
    Case::known(made(&parents, &rates, frames, rng), delay + over)
}

/// Bytes with one fault or two of 1 to 10, and memories of any length.
pub fn faulty(i: u64, rng: &mut Rng) -> Case {
    let job = small_job(rng);
    let links = job.records.len();
    // Twice as many of 1, as its short strings repeat.
    let first = 1 + i % 11 % 10;
    let numbers = one_or_two(first, rng);
    let bytes = with_faults(job, &numbers, rng);
    let length = if rng.one_in(2) {
        links
    } else {
        rng.index(2 * MOST_NODES)
    };
    Case::broken(bytes, length, first)
}

/// Jobs, with a delay or not, and memories one short, one over, none or more.
pub fn wrong_length(i: u64, rng: &mut Rng) -> Case {
    let mut job = small_job(rng);
    if rng.one_in(4) {
        job.records[0].rate = 0;
    }
    let links = job.records.len();
    let lengths = [links - 1, links + 1, 0, links + 2 + rng.index(64)];
    Case::lent(job, lengths[i as usize % 4])
}

/// Rates of 0 and at the limit, frames of 0 and at the limit, on each shape and for
/// several sizes.
pub fn extremes(rng: &mut Rng) -> Vec<Case> {
    let mut cases = Vec::new();
    let limit = GREATEST_FRAME;
    for shape in SHAPES {
        for (nodes, count) in [(2, 1), (3, 4), (8, 6), (20, 5), (MOST_NODES, 4)] {
            let parents = shape.parents(nodes, rng);
            for frame in [0, 1, limit] {
                for rate in [
                    0,
                    1,
                    u64::from(limit) - 1,
                    u64::from(limit),
                    GREATEST_AMOUNT,
                ] {
                    let rates = vec![rate; nodes - 1];
                    let frames = vec![frame; count];
                    cases.push(Case::job(made(&parents, &rates, frames, rng)));
                }
            }
            cases.extend(one_stopped(&parents, count, rng));
            cases.extend(longest_delay(&parents, rng));
        }
    }
    cases
}

/// All rates at the limit but one, which is 0: any frame above 0 is too much.
fn one_stopped(parents: &[u8], count: usize, rng: &mut Rng) -> Vec<Case> {
    let mut cases = Vec::new();
    let last = parents.len() - 1;
    for link in [0, last / 2, last] {
        let mut rates = vec![GREATEST_AMOUNT; parents.len()];
        rates[link] = 0;
        let mut frames = vec![0; count];
        cases.push(Case::known(made(parents, &rates, frames.clone(), rng), 0));
        frames[rng.index(count)] = 1;
        cases.push(Case::known(made(parents, &rates, frames, rng), u64::MAX));
    }
    cases
}

/// One frame at the limit is 65,520 × 4,097 + 15: from rate 65,521 on the delay is at most
/// 4,096, and at rate 65,536 it is 4,095. The film at the limit of rate 1 and one byte more.
fn longest_delay(parents: &[u8], rng: &mut Rng) -> Vec<Case> {
    let mut cases = Vec::new();
    for (frame, least, delay) in [
        (GREATEST_FRAME, 65_536, 4_095),
        (GREATEST_FRAME, 65_521, 4_096),
        (GREATEST_FRAME, 65_520, 4_097),
        (4_096, 1, 4_095),
        (4_097, 1, 4_096),
        (4_098, 1, 4_097),
    ] {
        let mut rates = vec![least + 1; parents.len()];
        rates[rng.index(parents.len())] = least;
        let job = made(parents, &rates, vec![frame], rng);
        cases.push(Case::known(job, delay));
    }
    cases
}

/// Trees of the most nodes, of each shape, with rates that differ.
pub fn most_nodes(rng: &mut Rng) -> Vec<Case> {
    let mut cases = Vec::new();
    for shape in SHAPES {
        for most in [50, 1_000, u64::from(GREATEST_FRAME)] {
            let parents = shape.parents(MOST_NODES, rng);
            let frames = (0..20).map(|_| rng.within(0..=most) as u32).collect();
            let rates = differing(most / 2, MOST_NODES - 1, rng);
            cases.push(Case::job(made(&parents, &rates, frames, rng)).asked());
        }
    }
    cases
}

/// Rates from `least` to about three times as much, no two the same, in any order.
fn differing(least: u64, links: usize, rng: &mut Rng) -> Vec<u64> {
    let step = least / 31 + 1;
    let mut rates: Vec<u64> = (0..links as u64).map(|i| least + i * step).collect();
    for i in (1..links).rev() {
        rates.swap(i, rng.index(i + 1));
    }
    rates
}

/// The most frames, of each shape on the most nodes: random films, all frames 0 at
/// rate 0, every field at its limit, and all frames at the limit with the delay at its
/// limit and one past it. Some plans are asked for.
pub fn most_frames(rng: &mut Rng) -> Vec<Case> {
    let mut cases = Vec::new();
    for (i, shape) in SHAPES.into_iter().enumerate() {
        let parents = shape.parents(MOST_NODES, rng);
        let links = MOST_NODES - 1;
        let most = u64::from(GREATEST_FRAME);
        let film: Vec<u32> = (0..MOST_FRAMES)
            .map(|_| rng.within(0..=most) as u32)
            .collect();
        let total: u64 = film.iter().map(|&frame| u64::from(frame)).sum();
        let rates = differing(total / MOST_FRAMES as u64, links, rng);
        let case = Case::job(made(&parents, &rates, film.clone(), rng));
        cases.push(if i % 3 == 0 { case.asked() } else { case });

        let zeros = vec![0; MOST_FRAMES];
        cases.push(Case::known(made(&parents, &vec![0; links], zeros, rng), 0));
        let rates = vec![GREATEST_AMOUNT; links];
        cases.push(Case::known(made(&parents, &rates, film, rng), 0));
        let case = Case::known(at_bounds(shape, rng), 0);
        cases.push(if i % 3 == 0 { case.asked() } else { case });
        // 268,435,455 × 65,536 is 252,645,134 × (65,536 + 4,096) and 8,192 more.
        for (least, delay) in [(252_645_135, 4_096), (252_645_134, 4_097)] {
            let mut rates = differing(least + 1, links, rng);
            rates[rng.index(links)] = least;
            let frames = vec![GREATEST_FRAME; MOST_FRAMES];
            let case = Case::known(made(&parents, &rates, frames, rng), delay);
            cases.push(if i == 5 { case.asked() } else { case });
        }
    }
    cases.extend(few_links(rng));
    cases
}

/// A film of one sort: scenes of groups, large and small frames in turn, runs between
/// frames of 0, or scenes alone; with noise on every frame.
fn film(count: usize, rng: &mut Rng) -> Vec<u32> {
    let sort = rng.below(4);
    let size = rng.pick(&[40, 5_000, 31_900_000]);
    let mut weight = rng.within(1..=5);
    let mut frames = Vec::with_capacity(count);
    for m in 0..count {
        if rng.one_in(24) {
            weight = rng.within(1..=5);
        }
        let share = match sort {
            0 if m % 12 == 0 => 6,
            0 if m % 3 == 0 => 3,
            1 if m % 2 == 0 => 6,
            2 => 4 * u64::from(weight == 5),
            _ => 1,
        };
        frames.push((size * share * weight * rng.within(60..=140) / 500) as u32);
    }
    frames
}

/// A job with such a film, and rates about its mean frame.
fn filmed(nodes: usize, count: usize, rng: &mut Rng) -> Case {
    let parents = any_parents(nodes, rng);
    let frames = film(count, rng);
    let total: u64 = frames.iter().map(|&frame| u64::from(frame)).sum();
    let mean = total / count as u64;
    let least = rng.pick(&[mean / 2, mean + mean / 32, 2 * mean]);
    let mut rates = differing(least, nodes - 1, rng);
    if rng.one_in(3) {
        // Near each other.
        rates.fill_with(|| rng.within(least..=least + least / 16 + 1));
    }
    Case::job(made(&parents, &rates, frames, rng))
}

/// Random jobs with some hundred frames, of any number of nodes.
pub fn films(_: u64, rng: &mut Rng) -> Case {
    let nodes = rng.within(2..=MOST_NODES as u64) as usize;
    let count = rng.within(20..=500) as usize;
    filmed(nodes, count, rng)
}

/// Films as long as each of the library's shorter rooms holds, and one frame longer.
pub fn rooms(rng: &mut Rng) -> Vec<Case> {
    let mut cases = Vec::new();
    for count in [4_096, 4_097, 16_384, 16_385] {
        for nodes in [2, 9, MOST_NODES] {
            cases.extend((0..4).map(|_| filmed(nodes, count, rng)));
        }
    }
    cases
}

/// The most frames on few nodes, memories one short and one over.
fn few_links(rng: &mut Rng) -> Vec<Case> {
    let mut cases = Vec::new();
    for shape in [Shape::Chain, Shape::Binary] {
        let parents = shape.parents(4, rng);
        let film: Vec<u32> = (0..MOST_FRAMES).map(|_| rng.below(1_000) as u32).collect();
        let job = made(&parents, &[520, 510, 505], film, rng);
        cases.push(Case::lent(job.clone(), 2));
        cases.push(Case::lent(job.clone(), 4));
        cases.push(Case::job(job).asked());
    }
    cases
}
