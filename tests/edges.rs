//! Jobs with one field at a bound or past it, and the document's examples. The
//! bounds are written out, so that the named ones are tested too.

use crate::asking;
use crate::job::{Job, Record};
use crate::reading::Case;
use crate::relax::Planner;
use crate::rng::Rng;
use crate::shapes::{at_bounds, valid, waiting, Shape, SHAPES};

const VERSIONS: [(u16, u64); 6] = [(0, 3), (1, 0), (2, 3), (256, 3), (257, 3), (u16::MAX, 3)];

const MARKS: [(&[u8; 3], u64); 8] = [
    (b"RLY", 0),
    (b"QLY", 2),
    (b"SLY", 2),
    (b"RKY", 2),
    (b"RMY", 2),
    (b"RLX", 2),
    (b"RLZ", 2),
    (b"rly", 2),
];

const LEAF_DELAYS: [(u16, u64); 8] = [
    (0, 0),
    (1, 0),
    (4_095, 0),
    (4_096, 0),
    (4_097, 8),
    (8_192, 8),
    (32_768, 8),
    (u16::MAX, 8),
];

const INNER_DELAYS: [(u16, u64); 6] = [
    (0, 0),
    (1, 8),
    (256, 8),
    (4_096, 8),
    (4_097, 8),
    (u16::MAX, 8),
];

const AMOUNTS: [(u64, u64); 9] = [
    (0, 0),
    (17_592_186_044_414, 0),
    (17_592_186_044_415, 0),
    (17_592_186_044_416, 9),
    (17_592_186_044_417, 9),
    (1 << 48, 9),
    (1 << 56, 9),
    (1 << 63, 9),
    (u64::MAX, 9),
];

const FRAMES: [(u32, u64); 7] = [
    (0, 0),
    (268_435_454, 0),
    (268_435_455, 0),
    (268_435_456, 10),
    (268_435_457, 10),
    (1 << 31, 10),
    (u32::MAX, 10),
];

/// The sizes of the jobs under "Example trees": n, M, H and the plan's length.
const EXAMPLE_SIZES: [[usize; 4]; 9] = [
    [4, 3, 3, 12],
    [4, 3, 3, 12],
    [4, 3, 4, 15],
    [4, 3, 4, 15],
    [4, 3, 3, 12],
    [2, 1, 1, 2],
    [2, 1, 1, 2],
    [4, 3, 3, 12],
    [2, 1, 1, 2],
];

/// Those of the largest job.
const LARGEST_SIZES: [usize; 4] = [64, 65_536, 69_632, 4_386_879];

/// Delays, and the sizes with them of jobs whose nodes and frames are at their bounds.
const SIZES: [(u16, [usize; 4]); 12] = [
    (0, [2, 1, 1, 2]),
    (1, [2, 1, 2, 3]),
    (4_096, [2, 1, 4_097, 4_098]),
    (0, [2, 65_536, 65_536, 65_537]),
    (1, [2, 65_536, 65_537, 65_538]),
    (4_096, [2, 65_536, 69_632, 69_633]),
    (0, [64, 1, 1, 126]),
    (1, [64, 1, 2, 189]),
    (4_096, [64, 1, 4_097, 258_174]),
    (0, [64, 65_536, 65_536, 4_128_831]),
    (1, [64, 65_536, 65_537, 4_128_894]),
    (4_096, LARGEST_SIZES),
];

/// Fields moved past their bounds, where they are at them. Node 63 is a leaf in each tree.
const PAST: [(fn(&mut Job), u64); 4] = [
    (|job| job.record(63).delay += 1, 8),
    (|job| job.record(63).memory += 1, 9),
    (|job| job.record(63).rate += 1, 9),
    (|job| job.frames[65_535] += 1, 10),
];

/// Tree Q with delays 0 and 1, memories 4, 0, 6 and rates 5, 10, 4, by hand.
pub const TREE_Q: [u8; 79] = [
    0x52, 0x4C, 0x59, 0, 1, 4, 0, 0, 0, 3, //
    0, 0, 0, 0, 0, 0, 0, 0, 0, 0, 4, 0, 0, 0, 0, 0, 0, 0, 5, //
    1, 0, 0, 0, 0, 0, 0, 0, 0, 0, 0, 0, 0, 0, 0, 0, 0, 0, 10, //
    1, 0, 1, 0, 0, 0, 0, 0, 0, 0, 6, 0, 0, 0, 0, 0, 0, 0, 4, //
    0, 0, 0, 4, 0, 0, 0, 10, 0, 0, 0, 1,
];

/// Tree Q with these numbers; the delays are those of its leaves.
fn tree_q(delays: [u16; 2], memories: [u64; 3], rates: [u64; 3], frames: [u32; 3]) -> Job {
    let record = |parent, delay, i: usize| Record {
        parent,
        delay,
        memory: memories[i],
        rate: rates[i],
    };
    let records = vec![
        record(0, 0, 0),
        record(1, delays[0], 1),
        record(1, delays[1], 2),
    ];
    Job::new(records, frames.to_vec())
}

fn one_leaf(frame: u32, rate: u64) -> Job {
    Job::new(
        vec![Record {
            rate,
            ..Record::default()
        }],
        vec![frame],
    )
}

/// The jobs under "Example trees".
pub fn example_jobs() -> [Job; 9] {
    let (rates, frames) = ([5, 10, 4], [4, 10, 1]);
    let listed = tree_q([0, 1], [4, 0, 6], rates, frames);
    assert_eq!(
        listed.encode(),
        TREE_Q,
        "the encoder against Tree Q by hand"
    );
    [
        tree_q([0, 0], [0, 6, 6], rates, frames),
        tree_q([0, 0], [6, 0, 6], rates, frames),
        listed,
        tree_q([0, 1], [4, 0, 5], rates, frames),
        tree_q([0, 0], [0, 0, 0], rates, frames),
        one_leaf(4_097, 1),
        one_leaf(4_098, 1),
        tree_q([0, 0], [0, 0, 0], [0, 0, 0], [0, 0, 0]),
        one_leaf(1, 0),
    ]
}

/// The examples, all of which are read.
pub fn examples(_: &mut Rng) -> Vec<Case> {
    example_jobs()
        .iter()
        .zip(EXAMPLE_SIZES)
        .map(|(job, sizes)| Case::sized(job, sizes))
        .collect()
}

/// The examples for the memory question, the first four of which the independent
/// planner must answer as the document does.
pub fn memory_examples(_: &mut Rng) -> Vec<asking::Case> {
    let even = vec![0, 7, 14, 15];
    let due = [
        Some(([7, 7, 7], [even.clone(), even.clone(), even.clone()])),
        Some(([7, 10, 7], [even.clone(), vec![0, 4, 14, 15], even])),
        Some((
            [7, 10, 5],
            [
                vec![0, 7, 14, 15, 15],
                vec![0, 4, 14, 15, 15],
                vec![0, 5, 10, 14, 15],
            ],
        )),
        None,
    ];
    let jobs = example_jobs();
    for (job, due) in jobs.iter().zip(due) {
        let got = Planner::new(job).answer();
        let due = due.map(|(peaks, rows)| (peaks.to_vec(), rows.to_vec()));
        assert!(
            got.map(|answer| (answer.peaks, answer.rows)) == due,
            "the independent planner against the document"
        );
    }
    jobs.into_iter().map(asking::Case::job).collect()
}

/// Tree Q with each byte at each value.
pub fn each_byte(_: &mut Rng) -> Vec<Case> {
    let set = |(at, value)| {
        let mut bytes = TREE_Q.to_vec();
        bytes[at] = value;
        Case::unknown(bytes)
    };
    (0..TREE_Q.len())
        .flat_map(|at| (0..=255).map(move |value| (at, value)))
        .map(set)
        .collect()
}

/// Tree Q cut to each length and lengthened, and the first bytes of others.
pub fn lengths(rng: &mut Rng) -> Vec<Case> {
    let mut cases = vec![Case::known(Vec::new(), 1)];
    let mut longer = TREE_Q.to_vec();
    longer.extend([0; 200]);
    for length in 0..longer.len() {
        let expected = match length {
            0..=9 => 1,
            79 => 0,
            _ => 6,
        };
        cases.push(Case::known(longer[..length].to_vec(), expected));
    }
    for job in bases(rng) {
        let bytes = job.encode();
        for length in 0..=12 {
            let expected = if length < 10 { 1 } else { 6 };
            cases.push(Case::known(bytes[..length].to_vec(), expected));
        }
        for change in [1, 2, 3, 4, 8, 19] {
            cases.push(Case::known(bytes[..bytes.len() - change].to_vec(), 6));
            cases.push(Case::known([&bytes[..], &vec![0; change]].concat(), 6));
        }
    }
    cases
}

/// Each field of the header at its bounds, the length fitting the counts.
pub fn headers(rng: &mut Rng) -> Vec<Case> {
    let mut cases = Vec::new();
    for (version, expected) in VERSIONS {
        let job = Job {
            version,
            ..valid(Shape::Random, 5, 3, rng)
        };
        cases.push(Case::known(job.encode(), expected));
    }
    for (mark, expected) in MARKS {
        let job = Job {
            mark: *mark,
            ..valid(Shape::Random, 5, 3, rng)
        };
        cases.push(Case::known(job.encode(), expected));
    }
    for count in 0..=255 {
        for frames in [1, 5, 30] {
            cases.push(node_count(count, frames, rng));
        }
    }
    for count in [
        0, 1, 2, 255, 256, 257, 65_535, 65_536, 65_537, 65_538, 131_072,
    ] {
        for nodes in [2, 64] {
            let job = valid(Shape::Random, nodes, count, rng);
            let expected = if count == 0 || count > 65_536 { 5 } else { 0 };
            cases.push(Case::known(job.encode(), expected));
        }
    }
    for frame_count in [65_537, 1 << 24, (1 << 30) + 3, 1 << 31, u32::MAX] {
        let job = Job {
            frame_count,
            ..valid(Shape::Random, 5, 3, rng)
        };
        cases.push(Case::known(job.encode(), 5));
    }
    cases
}

fn node_count(count: u8, frames: usize, rng: &mut Rng) -> Case {
    let job = match count {
        // No record at all; with 0 the length is past the formula's.
        0 | 1 => Job {
            node_count: count,
            ..Job::new(Vec::new(), vec![7; frames])
        },
        _ => valid(Shape::Random, usize::from(count), frames, rng),
    };
    let expected = if (2..=64).contains(&count) { 0 } else { 4 };
    Case::known(job.encode(), expected)
}

/// Each field of the records and the frames at its bounds, at the first, the
/// middle and the last place.
pub fn fields(rng: &mut Rng) -> Vec<Case> {
    let mut cases = Vec::new();
    for base in bases(rng) {
        delays(&base, &mut cases);
        amounts(&base, &mut cases);
        frames(&base, &mut cases);
        parents(&base, &mut cases);
    }
    cases
}

/// Jobs of the greatest size: with the last frame about its bound, and with every field
/// at its bound or one of them past it.
pub fn largest(rng: &mut Rng) -> Vec<Case> {
    let mut cases = Vec::new();
    for shape in SHAPES {
        let job = valid(shape, 64, 65_536, rng);
        cases.push(Case::known(job.encode(), 0));
        for (frame, expected) in FRAMES {
            let mut job = job.clone();
            job.frames[65_535] = frame;
            cases.push(Case::known(job.encode(), expected));
        }
        let bytes = job.encode();
        cases.push(Case::known(bytes[..bytes.len() - 1].to_vec(), 6));
        cases.push(Case::known([&bytes[..], &[0]].concat(), 6));

        let job = at_bounds(shape, rng);
        cases.push(Case::sized(&job, LARGEST_SIZES));
        for (pass, expected) in PAST {
            let mut job = job.clone();
            pass(&mut job);
            cases.push(Case::known(job.encode(), expected));
        }
    }
    cases
}

/// Jobs whose sizes are at their bounds, and the longest delay that of one leaf alone.
pub fn sizes(rng: &mut Rng) -> Vec<Case> {
    let mut cases = Vec::new();
    for (delay, sizes) in SIZES {
        let [nodes, frames, ..] = sizes;
        for _ in 0..4 {
            let job = waiting(nodes, frames, delay, rng);
            cases.push(Case::sized(&job, sizes));
        }
    }
    cases
}

/// Each leaf of trees of each shape waiting 7 slots, and the others 6, with 2 frames.
pub fn each_leaf(rng: &mut Rng) -> Vec<Case> {
    let mut cases = Vec::new();
    for shape in SHAPES {
        for nodes in [2, 3, 6, 33, 63, 64] {
            let mut job = valid(shape, nodes, 2, rng);
            let leaves = job.nodes(false);
            for &leaf in &leaves {
                job.record(leaf).delay = 6;
            }
            for &leaf in &leaves {
                let mut job = job.clone();
                job.record(leaf).delay = 7;
                cases.push(Case::sized(&job, [nodes, 2, 9, 10 * (nodes - 1)]));
            }
        }
    }
    cases
}

/// Valid jobs of each shape and of several sizes.
fn bases(rng: &mut Rng) -> Vec<Job> {
    let mut jobs = Vec::new();
    for shape in SHAPES {
        for nodes in [2, 3, 6, 33, 63, 64] {
            for frames in [1, 3, 20] {
                jobs.push(valid(shape, nodes, frames, rng));
            }
        }
    }
    jobs
}

/// The first, the middle and the last of `items`.
fn places<T: Copy>(items: &[T]) -> Vec<T> {
    match items.len() {
        0 => Vec::new(),
        length => vec![items[0], items[length / 2], items[length - 1]],
    }
}

fn delays(base: &Job, cases: &mut Vec<Case>) {
    for inner in [false, true] {
        let values: &[(u16, u64)] = if inner { &INNER_DELAYS } else { &LEAF_DELAYS };
        for node in places(&base.nodes(inner)) {
            for &(delay, expected) in values {
                let mut job = base.clone();
                job.record(node).delay = delay;
                cases.push(Case::known(job.encode(), expected));
            }
        }
    }
}

fn amounts(base: &Job, cases: &mut Vec<Case>) {
    let nodes: Vec<usize> = (1..=base.records.len()).collect();
    for node in places(&nodes) {
        for (amount, expected) in AMOUNTS {
            let mut job = base.clone();
            job.record(node).memory = amount;
            cases.push(Case::known(job.encode(), expected));

            let mut job = base.clone();
            job.record(node).rate = amount;
            cases.push(Case::known(job.encode(), expected));
        }
    }
}

fn frames(base: &Job, cases: &mut Vec<Case>) {
    let indices: Vec<usize> = (0..base.frames.len()).collect();
    for at in places(&indices) {
        for (frame, expected) in FRAMES {
            let mut job = base.clone();
            job.frames[at] = frame;
            cases.push(Case::known(job.encode(), expected));
        }
    }
}

/// All delays are 0 here, as a new parent may make a leaf an inner node.
fn parents(base: &Job, cases: &mut Vec<Case>) {
    let mut base = base.clone();
    for record in &mut base.records {
        record.delay = 0;
    }
    let nodes: Vec<usize> = (1..=base.records.len()).collect();
    for node in places(&nodes) {
        let own = node as u8;
        for (parent, expected) in [
            (0, 0),
            (own - 1, 0),
            (own, 7),
            (own + 1, 7),
            (128, 7),
            (255, 7),
        ] {
            let mut job = base.clone();
            job.record(node).parent = parent;
            cases.push(Case::known(job.encode(), expected));
        }
    }
}
