//! Putting an answer back into a job: the library against the independent writer.

use std::hash::Hash;

use crate::edges::TREE_Q;
use crate::faults::with_faults;
use crate::job::{Job, Record, GREATEST_AMOUNT, GREATEST_DELAY, MOST_FRAMES, MOST_NODES};
use crate::lending::Lent;
use crate::library;
use crate::problem::{equal, holds, same, Problem};
use crate::rng::Rng;
use crate::section::Kind::{self, Fixed, Random};
use crate::section::Wanted::All;
use crate::section::{Count, Section, Tally, ONE};
use crate::shapes::{any_valid, at_bounds, valid, SHAPES};
use crate::{reader, writer};

/// Delays past the limit, some of which are short in their low bits alone.
const LONG: [u64; 8] = [
    4_097,
    8_192,
    65_535,
    65_536,
    65_541,
    1 << 32,
    1 << 63,
    u64::MAX,
];

/// Memories past the limit, some of which are small in their low bits alone.
const LARGE: [u64; 6] = [
    GREATEST_AMOUNT + 1,
    GREATEST_AMOUNT + 2,
    1 << 48,
    1 << 56,
    (1 << 63) + 3,
    u64::MAX,
];

/// A job, or bytes that are none, and the answer to put back.
pub struct Case {
    bytes: Vec<u8>,
    job: Option<Job>,
    delay: u64,
    memories: Vec<u64>,
    /// The number, known by construction.
    number: u64,
}

impl Case {
    /// A job with this answer, of which the number is known.
    fn new(job: Job, delay: u64, memories: Vec<u64>, number: u64) -> Self {
        Case {
            bytes: job.encode(),
            job: Some(job),
            delay,
            memories,
            number,
        }
    }
}

pub struct Putting;

impl Section for Putting {
    type Case = Case;

    const NAME: &'static str = "putting back";
    const CASES: &'static str = "jobs";
    const GATE: u64 = 20_000;
    const STREAM: u64 = 4_000;
    const KINDS: &'static [Kind<Case>] = &[
        Fixed("Tree Q", tree_q),
        Fixed("refusals in order", refusals),
        Fixed("largest", largest),
        Random("any answer", 400, |_, rng| any_answer(any_valid(rng), rng)),
        Random("faults", 300, faulty),
        Random("wrong lengths", 100, |_, rng| faulty_answer(11, 3, rng)),
        Random("long delays", 100, |_, rng| faulty_answer(8, 2, rng)),
        Random("large memories", 100, |_, rng| faulty_answer(9, 4, rng)),
        Fixed("orders told apart", told_apart),
    ];
    /// The faults of an answer that meet are those of accepted jobs.
    const COUNTS: &'static [Count] = &[
        ("jobs", ONE, All(20_000)),
        ("number {}", 0..=11, All(500)),
        ("long delay with a wrong length", ONE, All(500)),
        ("large memory with a wrong length", ONE, All(500)),
        ("large memory past the last node", ONE, All(150)),
        ("large memory with a long delay", ONE, All(500)),
        ("long delay, large memory and wrong length", ONE, All(100)),
        ("no memories", ONE, All(100)),
    ];

    fn key(case: &Case) -> impl Hash {
        (&case.bytes, case.delay, &case.memories)
    }

    fn bytes(case: &Case) -> Vec<u8> {
        case.bytes.clone()
    }

    fn check(case: &Case, tally: &mut Tally) -> Result<bool, Problem> {
        let number = due(case);
        equal(
            "independent number against the generator",
            case.number,
            number,
        )?;
        let bytes = match &case.job {
            Some(job) if number == 0 => writer::put_back(job, case.delay, &case.memories).encode(),
            _ => case.bytes.clone(),
        };
        for round in 0..2 {
            let (got, after) = put(&case.bytes, case.delay, &case.memories, round)?;
            equal("number", number, got)?;
            same("the job put back, byte", 0, &bytes, &after)?;
        }
        if number == 0 {
            equal("the bytes put back are a job", 0, reader::refusal(&bytes))?;
        }
        tally.value("number {}", number as usize);
        if let Some(job) = &case.job {
            count_meetings(case, job.records.len(), tally);
        }
        Ok(true)
    }
}

/// Counts which faults of an answer meet, for a tree of so many links.
fn count_meetings(case: &Case, links: usize, tally: &mut Tally) {
    let is_large = |&memory: &u64| memory > GREATEST_AMOUNT;
    let long = case.delay > u64::from(GREATEST_DELAY);
    let large = case.memories.iter().any(is_large);
    let past = case.memories.iter().skip(links).any(is_large);
    let wrong = case.memories.len() != links;
    tally.one_if("long delay with a wrong length", long && wrong && !large);
    tally.one_if("large memory with a wrong length", large && wrong && !long);
    tally.one_if("large memory past the last node", past && !long);
    tally.one_if("large memory with a long delay", large && long && !wrong);
    tally.one_if(
        "long delay, large memory and wrong length",
        long && large && wrong,
    );
    tally.one_if("no memories", case.memories.is_empty());
}

/// The number that is due: the bytes' own refusal, then the delay, each memory that is
/// lent, and how many there are.
fn due(case: &Case) -> u64 {
    let read = reader::refusal(&case.bytes);
    if read != 0 {
        return read;
    }
    if case.delay > 4_096 {
        return 8;
    }
    for &memory in &case.memories {
        if memory > 17_592_186_044_415 {
            return 9;
        }
    }
    if case.memories.len() + 1 != usize::from(case.bytes[5]) {
        return 11;
    }
    0
}

/// Puts back by the library: its number and the bytes after. Guards, the memories
/// and, on a refusal, the bytes must be as they were. The guards and the alignment
/// differ from round to round.
pub fn put(
    bytes: &[u8],
    delay: u64,
    memories: &[u64],
    round: usize,
) -> Result<(u64, Vec<u8>), Problem> {
    let mut job = Lent::bytes(bytes, round);
    let mut words = Lent::words(memories, round);

    let number = library::put_back(job.part(), delay, words.part());

    holds("guard bytes kept", job.guards_kept())?;
    holds("the memories and their guards kept", words.untouched())?;
    if number != 0 {
        holds("the bytes kept on a refusal", job.untouched())?;
    }
    Ok((number, job.held().to_vec()))
}

/// Tree Q with delay 2 and memories 0, 6, 6, by hand.
fn tree_q(_: &mut Rng) -> Vec<Case> {
    let mut hand = TREE_Q;
    hand[20] = 0;
    hand[31] = 2;
    hand[39] = 6;
    hand[50] = 2;
    let job = Job::decode(&TREE_Q);
    let written = writer::put_back(&job, 2, &[0, 6, 6]).encode();
    assert_eq!(written, hand, "the writer against Tree Q by hand");
    vec![by_hand(2, &[0, 6, 6], 0)]
}

/// Tree Q, which has three links, with this answer and number.
fn by_hand(delay: u64, memories: &[u64], number: u64) -> Case {
    Case::new(Job::decode(&TREE_Q), delay, memories.to_vec(), number)
}

/// Answers in which a long delay, a large memory and a wrong length meet, by hand. Where
/// no memories are lent none is large, whatever lies there.
fn told_apart(_: &mut Rng) -> Vec<Case> {
    const L: u64 = 17_592_186_044_416;
    vec![
        // A long delay with a wrong length.
        by_hand(4_097, &[], 8),
        by_hand(4_097, &[6, 0], 8),
        by_hand(4_097, &[6, 0, 6, 7], 8),
        by_hand(u64::MAX, &[0; 64], 8),
        // A large memory with a wrong length: in a place of a node, and past the last.
        by_hand(2, &[L], 9),
        by_hand(2, &[6, L], 9),
        by_hand(4_096, &[L, 0, 6, 7], 9),
        by_hand(2, &[6, 0, 6, L], 9),
        by_hand(2, &[6, 0, 6, 7, 8, 9, u64::MAX], 9),
        // A long delay with a large memory, of the right length and of others.
        by_hand(4_097, &[6, 0, L], 8),
        by_hand(4_097, &[6, L], 8),
        by_hand(4_097, &[6, 0, 6, L], 8),
        // A wrong length alone.
        by_hand(2, &[], 11),
        by_hand(4_096, &[L - 1; 4], 11),
        by_hand(0, &[L - 1; 2], 11),
        // None.
        by_hand(4_096, &[L - 1; 3], 0),
    ]
}

/// A job with memories of the right length, each number often at a bound.
fn any_answer(job: Job, rng: &mut Rng) -> Case {
    let delay = rng.up_to(u64::from(GREATEST_DELAY));
    let memory = |_: &Record| rng.up_to(GREATEST_AMOUNT);
    let memories = job.records.iter().map(memory).collect();
    Case::new(job, delay, memories, 0)
}

/// Lengths that are not `links`.
fn wrong_lengths(links: usize) -> [usize; 5] {
    [links - 1, links + 1, 0, links + 20, 4 * links]
}

/// The faults of an answer as they are planted: one that is told before others comes
/// after them, and a large memory finds the list as long as it will be.
const PLANTED: [u64; 3] = [11, 9, 8];

/// Plants a fault of the answer, of which the number is then known.
fn plant(case: &mut Case, number: u64, rng: &mut Rng) {
    match number {
        11 => {
            let length = rng.pick(&wrong_lengths(case.memories.len()));
            case.memories.resize(length, rng.up_to(GREATEST_AMOUNT));
        }
        8 => case.delay = rng.pick(&LONG),
        9 => {
            let length = case.memories.len();
            if length == 0 {
                return;
            }
            let any = rng.index(length);
            let at = rng.pick(&[0, length / 2, length - 1, any]);
            case.memories[at] = rng.pick(&LARGE);
        }
        _ => unreachable!("no fault {number} of an answer"),
    }
    case.number = number;
}

/// Each fault of the bytes, or none, with each choice of the faults of the answer,
/// on jobs of several sizes: the first in the order 1 to 10, 8, 9, 11 is given.
fn refusals(rng: &mut Rng) -> Vec<Case> {
    let mut cases = Vec::new();
    for nodes in [2, 3, 6, 33, MOST_NODES] {
        for first in 0..=10 {
            for choice in 0..8 {
                let shape = rng.pick(&SHAPES);
                let mut case = any_answer(valid(shape, nodes, 3, rng), rng);
                for (bit, number) in PLANTED.into_iter().enumerate() {
                    if choice >> bit & 1 == 1 {
                        plant(&mut case, number, rng);
                    }
                }
                if let (Some(job), 1..) = (case.job.clone(), first) {
                    case.bytes = with_faults(job, &[first], rng);
                    case.job = None;
                    case.number = first;
                }
                cases.push(case);
            }
        }
    }
    cases
}

/// Any answer with this fault, and each of the others one time in `often`. Where no
/// memories are left, none is past its limit.
fn faulty_answer(fault: u64, often: u64, rng: &mut Rng) -> Case {
    let mut case = any_answer(any_valid(rng), rng);
    for number in PLANTED {
        if number == fault || rng.one_in(often) {
            plant(&mut case, number, rng);
        }
    }
    case
}

/// Bytes with one fault of 1 to 10, and at times faults of the answer.
fn faulty(i: u64, rng: &mut Rng) -> Case {
    let number = 1 + i % 10;
    let mut case = faulty_answer(0, 4, rng);
    let job = case.job.take().expect("a job");
    case.bytes = with_faults(job, &[number], rng);
    case.number = number;
    case
}

/// The most nodes and frames: accepted, and with each fault of the answer. The same with
/// every field of job and answer at its bound, and with one of the answer's past it.
fn largest(rng: &mut Rng) -> Vec<Case> {
    let mut cases = Vec::new();
    for shape in SHAPES {
        for number in [0, 8, 9, 11] {
            let mut case = any_answer(valid(shape, MOST_NODES, MOST_FRAMES, rng), rng);
            if number != 0 {
                plant(&mut case, number, rng);
            }
            cases.push(case);
        }
        let job = at_bounds(shape, rng);
        for (delay, over, number) in [(4_096, 0, 0), (4_097, 0, 8), (4_096, 1, 9)] {
            let mut memories = vec![GREATEST_AMOUNT; MOST_NODES - 1];
            memories[MOST_NODES - 2] += over;
            cases.push(Case::new(job.clone(), delay, memories, number));
        }
    }
    cases
}
