//! The row of one link: the library against an independent computation, and against
//! the plans of the memory question.

use std::hash::Hash;

use crate::answer::{peak, Answer};
use crate::asking::{ask, lengths};
use crate::edges::TREE_Q;
use crate::faults::with_faults;
use crate::job::{Job, GREATEST_DELAY, MOST_FRAMES, MOST_NODES};
use crate::lending::Lent;
use crate::library::{row_of, Row};
use crate::problem::{equal, holds, same, Problem};
use crate::relax::Planner;
use crate::rng::Rng;
use crate::section::Kind::{self, Fixed, Random};
use crate::section::Wanted::{All, Any};
use crate::section::{Count, Section, Tally, ONE};
use crate::shapes::{any_valid, few_frames, valid, waiting, Shape, SHAPES};
use crate::{reader, trees};

/// What a row comes to: 0 where it is not empty, 1 to 10 where it is as the bytes are
/// refused, and these where it is for the plan's length, the link or both.
const ROW: usize = 0;
const LENGTH: usize = 11;
const LINK: usize = 12;
const BOTH: usize = 13;

const EMPTY: Row = Row {
    start: 0,
    length: 0,
};

/// Rows asked for of one job's bytes, or of a whole plan.
pub enum Case {
    Row {
        bytes: Vec<u8>,
        plan: usize,
        link: usize,
        /// What it comes to and the row, by construction.
        reason: usize,
        row: Row,
    },
    /// Of a job, all rows in the memory question's plan, and whether the independent
    /// planner is held against them.
    Plan(Job, bool),
}

impl Case {
    /// The bytes, and of a row the plan's length and the link.
    fn place(&self) -> (Vec<u8>, Option<(usize, usize)>) {
        match self {
            Case::Row {
                bytes, plan, link, ..
            } => (bytes.clone(), Some((*plan, *link))),
            Case::Plan(job, _) => (job.encode(), None),
        }
    }
}

pub struct Rows;

impl Section for Rows {
    type Case = Case;

    const NAME: &'static str = "row of one link";
    const CASES: &'static str = "cases";
    const GATE: u64 = 20_000;
    const STREAM: u64 = 6_000;
    const KINDS: &'static [Kind<Case>] = &[
        Fixed("Tree Q", tree_q),
        Fixed("bounds", bounds),
        Fixed("each link", each_link),
        Fixed("refusals", refusals),
        Fixed("largest plan", |rng| {
            vec![Case::Plan(trees::largest(rng), false)]
        }),
        Random("rows", 400, |i, rng| any(ROW, i, rng)),
        Random("wrong lengths", 200, |i, rng| any(LENGTH, i, rng)),
        Random("no such link", 130, |i, rng| any(LINK, i, rng)),
        Random("both", 60, |i, rng| any(BOTH, i, rng)),
        Random("faults", 150, faulty),
        Random("plans", 60, |_, rng| {
            Case::Plan(trees::small_job(rng), true)
        }),
    ];
    const COUNTS: &'static [Count] = &[
        ("cases", ONE, Any),
        ("rows not empty", ONE, All(8_000)),
        ("empty as the bytes are refused by {}", 1..=10, All(200)),
        ("empty for the plan's length", ONE, All(3_000)),
        ("empty for the link", ONE, All(2_000)),
        ("empty for both", ONE, All(1_000)),
        ("rows of link {}", 1..=MOST_NODES - 1, All(50)),
        ("plans of the memory question", ONE, All(800)),
        ("rows that tile them", ONE, All(4_000)),
    ];

    fn key(case: &Case) -> impl Hash {
        case.place()
    }

    fn bytes(case: &Case) -> Vec<u8> {
        case.place().0
    }

    fn check(case: &Case, tally: &mut Tally) -> Result<bool, Problem> {
        match case {
            Case::Plan(job, planned) => check_plan(job, *planned, tally),
            Case::Row {
                bytes,
                plan,
                link,
                reason,
                row,
            } => {
                check_row(bytes, (*plan, *link), (*reason, *row), tally)
                    .map_err(|problem| format!("link {link}, plan length {plan}: {problem}"))?;
                Ok(true)
            }
        }
    }
}

/// One row, in two rounds; what it comes to and the row are known by construction.
fn check_row(
    bytes: &[u8],
    (plan, link): (usize, usize),
    known: (usize, Row),
    tally: &mut Tally,
) -> Result<(), Problem> {
    let (reason, row) = due(bytes, plan, link);
    equal("reason against the generator", known.0, reason)?;
    same_row("independent row against the generator", known.1, row)?;
    for round in 0..2 {
        same_row("row", row, call(bytes, plan, link, round)?)?;
    }
    match reason {
        ROW => tally.value("rows not empty", 0),
        LENGTH => tally.value("empty for the plan's length", 0),
        LINK => tally.value("empty for the link", 0),
        BOTH => tally.value("empty for both", 0),
        number => tally.value("empty as the bytes are refused by {}", number),
    }
    if reason == ROW {
        tally.value("rows of link {}", link);
    }
    Ok(())
}

/// The rows of all links tile the plan that the memory question gives, in order, and
/// each holds its link's row. False where there is no plan.
fn check_plan(job: &Job, planned: bool, tally: &mut Tally) -> Result<bool, Problem> {
    let (bytes, (length, links)) = (job.encode(), lengths(job));
    let (answer, plan, peaks) = ask(&bytes, length, links, 0)?;
    if answer.number != 0 {
        return Ok(false);
    }
    let due: Option<Answer> = match planned {
        true => Some(
            Planner::new(job)
                .answer()
                .ok_or("the independent planner has no plan")?,
        ),
        false => None,
    };
    let mut end = 0;
    for link in 1..=links {
        let row = call(&bytes, length, link, link % 2)?;
        equal("start where the last row ends", end, row.start)?;
        end += row.length;
        let held = plan
            .held()
            .get(row.start..end)
            .ok_or("a row ends past the plan")?;
        equal(
            "numbers of a row",
            answer.last_slot as usize + 1,
            held.len(),
        )?;
        equal("peak of what it holds", peaks.held()[link - 1], peak(held))?;
        if let Some(due) = &due {
            same(
                &format!("row of link {link}, slot"),
                0,
                &due.rows[link - 1],
                held,
            )?;
        }
    }
    equal("end of the last row", length, end)?;
    tally.value("plans of the memory question", 0);
    tally.add("rows that tile them", 0, links as u64);
    Ok(true)
}

/// The library's row. The bytes and their guards must be as they were.
fn call(bytes: &[u8], plan: usize, link: usize, round: usize) -> Result<Row, Problem> {
    let mut job = Lent::bytes(bytes, round);
    let row = row_of(job.part(), plan, link);
    holds("the job's bytes kept", job.untouched())?;
    Ok(row)
}

fn same_row(what: &str, due: Row, got: Row) -> Result<(), Problem> {
    equal(&format!("{what}: start"), due.start, got.start)?;
    equal(&format!("{what}: length"), due.length, got.length)
}

/// What a row comes to, from the words of the document: the rows are laid out one
/// after the other until that of `link`, and on to the end of the plan.
fn due(bytes: &[u8], plan: usize, link: usize) -> (usize, Row) {
    let read = reader::refusal(bytes);
    if read != 0 {
        return (read as usize, EMPTY);
    }
    let job = Job::decode(bytes);
    let delays = job.records.iter().map(|record| usize::from(record.delay));
    let slots = job.frames.len() + delays.max().unwrap_or(0) + 1;
    let (mut row, mut end) = (None, 0);
    for node in 1..=job.records.len() {
        if node == link {
            row = Some(Row {
                start: end,
                length: slots,
            });
        }
        end += slots;
    }
    match (row, plan == end) {
        (Some(row), true) => (ROW, row),
        (Some(_), false) => (LENGTH, EMPTY),
        (None, true) => (LINK, EMPTY),
        (None, false) => (BOTH, EMPTY),
    }
}

/// A row of a job with so many slots, by the formula.
fn formed(bytes: &[u8], slots: usize, plan: usize, link: usize) -> Case {
    let nodes = usize::from(bytes[5]);
    let reason = match ((1..nodes).contains(&link), plan == (nodes - 1) * slots) {
        (true, true) => ROW,
        (true, false) => LENGTH,
        (false, true) => LINK,
        (false, false) => BOTH,
    };
    let row = match reason {
        ROW => Row {
            start: (link - 1) * slots,
            length: slots,
        },
        _ => EMPTY,
    };
    Case::Row {
        bytes: bytes.to_vec(),
        plan,
        link,
        reason,
        row,
    }
}

/// Tree Q, whose plan has three rows of five numbers, by hand.
fn tree_q(_: &mut Rng) -> Vec<Case> {
    let by_hand = |link, plan, reason, start, length| Case::Row {
        bytes: TREE_Q.to_vec(),
        plan,
        link,
        reason,
        row: Row { start, length },
    };
    vec![
        by_hand(1, 15, ROW, 0, 5),
        by_hand(2, 15, ROW, 5, 5),
        by_hand(3, 15, ROW, 10, 5),
        by_hand(0, 15, LINK, 0, 0),
        by_hand(4, 15, LINK, 0, 0),
        by_hand(usize::MAX, 15, LINK, 0, 0),
        by_hand(2, 14, LENGTH, 0, 0),
        by_hand(2, 16, LENGTH, 0, 0),
        // As if no leaf waited, or the root had a row.
        by_hand(2, 12, LENGTH, 0, 0),
        by_hand(2, 20, LENGTH, 0, 0),
        by_hand(2, 0, LENGTH, 0, 0),
        by_hand(4, 20, BOTH, 0, 0),
        by_hand(0, 0, BOTH, 0, 0),
    ]
}

/// Links about those of a tree of so many nodes: at the ends, past them, equal to one
/// of them in their low bits alone, and such that a product with `slots` runs over.
fn links(nodes: usize, slots: usize) -> Vec<usize> {
    let mut links = vec![0, 1, nodes - 1, nodes, nodes + 1, 63, 64, 65, 255, 256, 257];
    links.extend([16, 32, 48, 63].map(|bit| (1 << bit) + 1));
    links.extend([1 << 32, 1 << 63, usize::MAX - 1, usize::MAX]);
    let over = usize::MAX / slots;
    links.extend([over, over + 1, over + 2, over + nodes]);
    links
}

/// Lengths about the right one, which is `rows` times `slots`: one short and one over,
/// a row, a slot or the root's row more or less, in bytes, in the low bits alone.
fn about(rows: usize, slots: usize) -> Vec<usize> {
    let right = rows * slots;
    let mut lengths = vec![0, 1, right - 1, right, right + 1, slots, 8 * right];
    lengths.extend([right - slots, right + slots, right - rows, right + rows]);
    lengths.extend([8, 16, 32, 48, 63].map(|bit| right + (1 << bit)));
    // Of jobs with the same nodes and all frames, no delay or the longest.
    let others = [1, MOST_FRAMES, 1 + usize::from(GREATEST_DELAY)];
    lengths.extend(others.map(|last| rows * (last + 1)));
    lengths.extend([1 << 32, 1 << 63, usize::MAX / slots * slots, usize::MAX]);
    lengths
}

/// Jobs at the bounds of nodes, frames and delays with each link and length; the slots
/// are written out.
fn bounds(rng: &mut Rng) -> Vec<Case> {
    let mut cases = Vec::new();
    for (frames, delay, slots) in [
        (1, 0, 2),
        (1, 4_096, 4_098),
        (65_536, 0, 65_537),
        (65_536, 4_096, 69_633),
    ] {
        for nodes in [2, 64] {
            let bytes = waiting(nodes, frames, delay, rng).encode();
            for link in links(nodes, slots) {
                for plan in about(nodes - 1, slots) {
                    cases.push(formed(&bytes, slots, plan, link));
                }
            }
        }
    }
    cases
}

/// Each link, and those beside them, of each node count.
fn each_link(rng: &mut Rng) -> Vec<Case> {
    let mut cases = Vec::new();
    for nodes in 2..=MOST_NODES {
        let delay = rng.below(5) as u16;
        let frames = 1 + rng.index(6);
        let slots = frames + usize::from(delay) + 1;
        let bytes = waiting(nodes, frames, delay, rng).encode();
        for link in 0..=nodes + 1 {
            cases.push(formed(&bytes, slots, (nodes - 1) * slots, link));
        }
    }
    cases
}

/// Bytes with a fault of 1 to 10, known by its number.
fn refused(job: Job, number: u64, plan: usize, link: usize, rng: &mut Rng) -> Case {
    Case::Row {
        bytes: with_faults(job, &[number], rng),
        plan,
        link,
        reason: number as usize,
        row: EMPTY,
    }
}

/// Each fault of the bytes with links and lengths that are right without it, and not.
fn refusals(rng: &mut Rng) -> Vec<Case> {
    let mut cases = Vec::new();
    for nodes in [2, 3, 33, MOST_NODES] {
        for number in 1..=10 {
            for link in [0, 1, nodes - 1, nodes] {
                for more in [0, 1] {
                    let job = waiting(nodes, 3, 2, rng);
                    let plan = (nodes - 1) * 6 + more;
                    cases.push(refused(job, number, plan, link, rng));
                }
            }
        }
    }
    cases
}

/// A job with a link, often the last, and a length that come to this reason; the node
/// counts 2 to 64 take turns.
fn any(reason: usize, i: u64, rng: &mut Rng) -> Case {
    let rows = 1 + i as usize % (MOST_NODES - 1);
    let (shape, frames) = (rng.pick(&SHAPES), few_frames(rng));
    let job = valid(shape, rows + 1, frames, rng);
    let right = lengths(&job).0;
    let slots = right / rows;
    let mut plan = right;
    if reason == LENGTH || reason == BOTH {
        let mut wrong = about(rows, slots);
        let other = lengths(&any_valid(rng)).0;
        wrong.extend([other, rng.index(2 * right), rng.word() as usize]);
        wrong.retain(|&length| length != right);
        plan = rng.pick(&wrong);
    }
    let any = 1 + rng.index(rows);
    let mut link = rng.pick(&[any, rows]);
    if reason == LINK || reason == BOTH {
        let mut none = links(rows + 1, slots);
        none.extend([rows + 1 + rng.index(300), rng.word() as usize]);
        none.retain(|link| !(1..=rows).contains(link));
        link = rng.pick(&none);
    }
    formed(&job.encode(), slots, plan, link)
}

/// Bytes with one fault, and any link and length.
fn faulty(i: u64, rng: &mut Rng) -> Case {
    let shape = rng.pick(&[Shape::Random, Shape::Chain, Shape::Star]);
    let nodes = rng.within(2..=MOST_NODES as u64) as usize;
    let frames = 1 + rng.index(9);
    let job = valid(shape, nodes, frames, rng);
    let right = lengths(&job).0;
    let plan = rng.pick(&[right, right, right + 1, 0, usize::MAX]);
    let link = rng.index(nodes + 1);
    refused(job, 1 + i % 10, plan, link, rng)
}
