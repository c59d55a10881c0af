//! Reading a job, its refusal and its sizes: the library against the independent reader.

use std::hash::Hash;

use crate::faults::with_faults;
use crate::job::{Job, FRAME_BYTES, GREATEST_DELAY, HEADER_BYTES, MOST_NODES, RECORD_BYTES};
use crate::lending::Lent;
use crate::library::{job_sizes, limits, refusal, JobSizes, LIMITS};
use crate::problem::{equal, holds, same, Problem};
use crate::rng::Rng;
use crate::section::Kind::{self, Fixed, Random};
use crate::section::Wanted::{self, All, Any};
use crate::section::{Count, Section, Tally, ONE};
use crate::shapes::{any_valid, few_frames, large_valid, valid, waiting, Shape, SHAPES};
use crate::{edges, garbage, reader};

/// The documents' limits in the header's order: the nodes, the frames, the longest
/// delay, the greatest memory, rate and frame, the numbers of a running tree, the most
/// constant rates of a call, the numbers of the line of each and the most children of a
/// byte store.
const DUE_LIMITS: [u64; LIMITS] = [
    2,
    64,
    1,
    65_536,
    4_096,
    17_592_186_044_415,
    17_592_186_044_415,
    268_435_455,
    65,
    8,
    3,
    63,
];

pub struct Reading;

impl Section for Reading {
    type Case = Case;

    const NAME: &'static str = "reading";
    const CASES: &'static str = "strings";
    const GATE: u64 = 127_000;
    const STREAM: u64 = 0;
    const KINDS: &'static [Kind<Case>] = &[
        Fixed("examples", edges::examples),
        Fixed("each byte of Tree Q", edges::each_byte),
        Fixed("lengths", edges::lengths),
        Fixed("header bounds", edges::headers),
        Fixed("field bounds", edges::fields),
        Fixed("largest", edges::largest),
        Fixed("large", large),
        Random("valid chain", 50, |i, rng| shaped(Shape::Chain, i, rng)),
        Random("valid star", 50, |i, rng| shaped(Shape::Star, i, rng)),
        Random("valid broom", 40, |i, rng| shaped(Shape::Broom, i, rng)),
        Random("valid binary", 50, |i, rng| shaped(Shape::Binary, i, rng)),
        Random("valid caterpillar", 40, |i, rng| {
            shaped(Shape::Caterpillar, i, rng)
        }),
        Random("valid random", 70, |i, rng| shaped(Shape::Random, i, rng)),
        Random("one fault", 160, one_fault),
        Random("two faults", 200, two_faults),
        Random("several faults", 40, several_faults),
        Random("cut", 50, cut),
        Random("lengthened", 30, lengthened),
        Random("bits flipped", 90, flipped),
        Random("counts traded", 20, traded),
        Random("short", 30, garbage::short),
        Random("garbage", 10, garbage::plain),
        Random("garbage in form", 20, garbage::in_form),
        Fixed("sizes", edges::sizes),
        Fixed("each leaf longest", edges::each_leaf),
        Random("one leaf longest", 50, one_longest),
    ];
    const COUNTS: &'static [Count] = &[
        ("strings", ONE, All(100_000)),
        ("number {}", 0..=10, All(1_000)),
        ("accepted strings of {} nodes", 2..=MOST_NODES, All(1)),
        ("bytes in all strings", ONE, Any),
        ("number known by construction", ONE, Any),
        ("asked for sizes", ONE, Wanted::Random(100_000)),
        ("jobs asked for sizes", ONE, Wanted::Random(40_000)),
        ("sizes known by construction", ONE, Wanted::Random(6_000)),
        ("jobs without delay", ONE, Wanted::Random(2_000)),
        ("jobs with a delay", ONE, Wanted::Random(40_000)),
        ("last slot above 65,535", ONE, All(40)),
        (
            "last slot not by the last node",
            ONE,
            Wanted::Random(25_000),
        ),
        (
            "last slot by the last node alone",
            ONE,
            Wanted::Random(2_000),
        ),
        ("last slot by node {} alone", 1..=MOST_NODES - 1, All(5)),
    ];

    fn ready(_: u64) -> Result<bool, Problem> {
        println!("limits of the library: {:?}", limits());
        same("limit", 0, &DUE_LIMITS, &limits())?;
        Ok(true)
    }

    fn key(case: &Case) -> impl Hash {
        &case.bytes
    }

    fn bytes(case: &Case) -> Vec<u8> {
        case.bytes.clone()
    }

    fn check(case: &Case, tally: &mut Tally) -> Result<bool, Problem> {
        let sizes = reader::sizes(&case.bytes);
        let due = sizes.number;
        if let Some(known) = case.known {
            equal("independent reader against the generator", known, due)?;
        }
        if let Some(known) = case.sizes {
            same_sizes("independent sizes against the generator", known, sizes)?;
        }
        for round in 0..2 {
            let mut lent = Lent::bytes(&case.bytes, round);
            let got = refusal(lent.part());
            equal("library against the independent reader", due, got)?;
            holds(
                "the lent bytes and those beside them kept",
                lent.untouched(),
            )?;
        }
        check_sizes(&case.bytes, sizes, tally)?;
        tally.value("number {}", due as usize);
        tally.one_if("number known by construction", case.known.is_some());
        tally.one_if("sizes known by construction", case.sizes.is_some());
        tally.add("bytes in all strings", 0, case.bytes.len() as u64);
        if due == 0 {
            tally.value("accepted strings of {} nodes", usize::from(case.bytes[5]));
            count_sizes(&Job::decode(&case.bytes), sizes, tally);
        }
        Ok(true)
    }
}

/// The library's sizes of a string, in two rounds. The bytes and their guards must be as
/// they were.
fn check_sizes(bytes: &[u8], due: JobSizes, tally: &mut Tally) -> Result<(), Problem> {
    for round in 0..2 {
        let mut lent = Lent::bytes(bytes, round);
        same_sizes("sizes", due, job_sizes(lent.part()))?;
        holds("the bytes asked for sizes kept", lent.untouched())?;
    }
    tally.value("asked for sizes", 0);
    Ok(())
}

fn same_sizes(what: &str, due: JobSizes, got: JobSizes) -> Result<(), Problem> {
    equal(&format!("{what}: number"), due.number, got.number)?;
    equal(&format!("{what}: nodes"), due.nodes, got.nodes)?;
    equal(&format!("{what}: frames"), due.frames, got.frames)?;
    equal(&format!("{what}: last slot"), due.last_slot, got.last_slot)?;
    equal(
        &format!("{what}: plan length"),
        due.plan_length,
        got.plan_length,
    )
}

/// Counts what the sizes of a job come to: by which leaves its last slot is what it is,
/// and by which one alone where there are several. The last node is a leaf.
fn count_sizes(job: &Job, sizes: JobSizes, tally: &mut Tally) {
    let (leaves, end) = (job.nodes(false), job.records.len());
    let longest = sizes.last_slot - sizes.frames;
    let mut last = leaves.clone();
    last.retain(|leaf| usize::from(job.records[leaf - 1].delay) == longest);
    let alone = leaves.len() > 1 && last.len() == 1;
    tally.value("jobs asked for sizes", 0);
    tally.one_if("jobs without delay", longest == 0);
    tally.one_if("jobs with a delay", longest > 0);
    tally.one_if("last slot above 65,535", sizes.last_slot > 65_535);
    tally.one_if("last slot not by the last node", !last.contains(&end));
    tally.one_if("last slot by the last node alone", alone && last == [end]);
    if alone {
        tally.value("last slot by node {} alone", last[0]);
    }
}

/// A byte string, with its number and the sizes of a job where the generator knows them.
pub struct Case {
    bytes: Vec<u8>,
    known: Option<u64>,
    sizes: Option<JobSizes>,
}

impl Case {
    pub fn known(bytes: Vec<u8>, number: u64) -> Self {
        Case {
            known: Some(number),
            ..Case::unknown(bytes)
        }
    }

    pub fn unknown(bytes: Vec<u8>) -> Self {
        Case {
            bytes,
            known: None,
            sizes: None,
        }
    }

    /// A job with its node count, its frame count, its last slot and its plan's length.
    pub fn sized(job: &Job, [nodes, frames, last_slot, plan_length]: [usize; 4]) -> Self {
        let sizes = JobSizes {
            number: 0,
            nodes,
            frames,
            last_slot,
            plan_length,
        };
        Case {
            sizes: Some(sizes),
            ..Case::known(job.encode(), 0)
        }
    }
}

/// A valid job of this shape; the node counts 2 to 64 take turns.
fn shaped(shape: Shape, i: u64, rng: &mut Rng) -> Case {
    let nodes = 2 + i as usize % (MOST_NODES - 1);
    let frames = few_frames(rng);
    Case::known(valid(shape, nodes, frames, rng).encode(), 0)
}

/// A job of which one leaf alone waits longest, and its sizes by the formula; the node
/// counts 2 to 64 take turns.
fn one_longest(i: u64, rng: &mut Rng) -> Case {
    let links = 1 + i as usize % (MOST_NODES - 1);
    let frames = few_frames(rng);
    let any = rng.within(1..=u64::from(GREATEST_DELAY)) as u16;
    let delay = rng.pick(&[1, 2, 255, 256, GREATEST_DELAY - 1, GREATEST_DELAY, any, any]);
    let job = waiting(links + 1, frames, delay, rng);
    let last_slot = frames + usize::from(delay);
    Case::sized(
        &job,
        [links + 1, frames, last_slot, links * (last_slot + 1)],
    )
}

/// Large jobs: valid, or with a fault in the length or one of the lists.
fn large(rng: &mut Rng) -> Vec<Case> {
    let mut cases = Vec::new();
    for _ in 0..8 {
        cases.push(Case::known(large_valid(rng).encode(), 0));
        for number in 6..=10 {
            cases.push(faulty(large_valid(rng), &[number], rng));
        }
    }
    cases
}

fn faulty(job: Job, numbers: &[u64], rng: &mut Rng) -> Case {
    let expected = *numbers.iter().min().expect("some fault");
    Case::known(with_faults(job, numbers, rng), expected)
}

fn one_fault(i: u64, rng: &mut Rng) -> Case {
    faulty(any_valid(rng), &[1 + i % 10], rng)
}

/// Two faults; the 45 pairs of numbers take turns.
fn two_faults(i: u64, rng: &mut Rng) -> Case {
    let pairs = (1..=9).flat_map(|a| (a + 1..=10).map(move |b| [a, b]));
    let pair = pairs.cycle().nth(i as usize % 45).expect("endless");
    faulty(any_valid(rng), &pair, rng)
}

fn several_faults(_: u64, rng: &mut Rng) -> Case {
    let least = rng.within(1..=8);
    let numbers: Vec<u64> = (least..=10)
        .filter(|&number| number == least || rng.one_in(2))
        .collect();
    faulty(any_valid(rng), &numbers, rng)
}

fn cut(_: u64, rng: &mut Rng) -> Case {
    let mut bytes = any_valid(rng).encode();
    bytes.truncate(rng.index(bytes.len()));
    let expected = if bytes.len() < HEADER_BYTES { 1 } else { 6 };
    Case::known(bytes, expected)
}

fn lengthened(_: u64, rng: &mut Rng) -> Case {
    let mut bytes = any_valid(rng).encode();
    let any = rng.within(1..=200) as usize;
    let more = rng.pick(&[1, 2, FRAME_BYTES, RECORD_BYTES, any]);
    let tail = if rng.one_in(2) {
        vec![0; more]
    } else {
        rng.bytes(more)
    };
    bytes.extend(tail);
    Case::known(bytes, 6)
}

/// One to three bits flipped: in the header, in the records or anywhere.
fn flipped(_: u64, rng: &mut Rng) -> Case {
    let job = any_valid(rng);
    let mut bytes = job.encode();
    let records_end = HEADER_BYTES + RECORD_BYTES * job.records.len();
    for _ in 0..rng.within(1..=3) {
        let end = rng.pick(&[HEADER_BYTES, records_end, bytes.len()]);
        bytes[rng.index(end)] ^= 1 << rng.below(8);
    }
    Case::unknown(bytes)
}

/// Node and frame counts changed so that the length still fits: 4 records are as
/// long as 19 frames.
fn traded(_: u64, rng: &mut Rng) -> Case {
    let shape = rng.pick(&SHAPES);
    let nodes = rng.within(6..=60) as usize;
    let frames = rng.within(20..=60) as usize;
    let mut job = valid(shape, nodes, frames, rng);
    if rng.one_in(2) {
        job.node_count += 4;
        job.frame_count -= 19;
    } else {
        job.node_count -= 4;
        job.frame_count += 19;
    }
    Case::unknown(job.encode())
}
