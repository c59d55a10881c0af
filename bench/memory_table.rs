//! Rows of the memory question.

use crate::jobs::{self, Delays, Job, Shape};
use crate::library::{self, Answer};
use crate::peer::{Peer, MOST_DELAY};
use crate::timing::{
    best, once, seconds, Growth, Tally, Times, GROWTH, NODES_DOUBLE, SLOTS_DOUBLE,
};
use std::hint::black_box;

const SIZES: [(usize, usize); 2] = [(16, 3_000), (64, 65_536)];
const SHAPES: [(Shape, Delays); 11] = [
    (Shape::Star, Delays::Spread),
    (Shape::Chain, Delays::Spread),
    (Shape::Binary, Delays::Spread),
    (Shape::Random, Delays::Spread),
    (Shape::CaterpillarDown, Delays::Spread),
    (Shape::CaterpillarUp, Delays::Spread),
    (Shape::Star, Delays::Equal),
    (Shape::Chain, Delays::Equal),
    (Shape::Binary, Delays::Equal),
    (Shape::Random, Delays::Equal),
    (Shape::CaterpillarDown, Delays::Equal),
];
/// Trees of the tables of growth, and of the rows with fresh buffers.
const GROWING: [Shape; 2] = [Shape::Binary, Shape::CaterpillarDown];

const BAR: f64 = 2.0;
const CATERPILLAR_BAR: f64 = 4.0;
/// A row in which the peer takes more ns for a number of the plan is void.
const PEER_LIMIT: f64 = 35.0;

/// The lent outputs before each run.
#[derive(Clone, Copy, PartialEq, Eq)]
enum Buffers {
    /// Those of the run before.
    Written,
    /// New pages, which the system clears at the first write, in the time.
    Fresh,
}

#[derive(Clone, Copy)]
struct Case {
    shape: Shape,
    delays: Delays,
    greatest_delay: usize,
    nodes: usize,
    frames: usize,
    buffers: Buffers,
}

impl Case {
    /// With delays up to the longest, and buffers of the run before.
    fn plain(shape: Shape, delays: Delays, size: (usize, usize)) -> Case {
        Case {
            shape,
            delays,
            greatest_delay: MOST_DELAY,
            nodes: size.0,
            frames: size.1,
            buffers: Buffers::Written,
        }
    }

    fn job(self) -> Job {
        jobs::make(
            self.shape,
            self.delays,
            self.greatest_delay,
            self.nodes,
            self.frames,
        )
    }
}

struct Outputs {
    plan: Vec<u64>,
    peaks: Vec<u64>,
}

impl Outputs {
    /// Outputs that have this number everywhere; 0 leaves the pages of a large plan untouched.
    fn with(number: u64, job: &Job) -> Outputs {
        let links = job.parent.len() - 1;
        Outputs {
            plan: vec![number; links * job.slots],
            peaks: vec![number; links],
        }
    }
}

fn ask_library(job: &Job, outputs: &mut Outputs) -> Answer {
    let bytes = black_box(&job.bytes);
    library::memory_question(bytes, &mut outputs.plan, &mut outputs.peaks)
}

fn ask_peer(peer: &mut Peer, job: &Job, outputs: &mut Outputs) -> Answer {
    let bytes = black_box(&job.bytes);
    peer.memory_question(bytes, &mut outputs.plan, &mut outputs.peaks)
}

/// What the library and the peer differ in, if anything.
fn difference(
    ours: (Answer, &Outputs),
    theirs: (Answer, &Outputs),
    slots: usize,
) -> Option<String> {
    if ours.0 != theirs.0 {
        return Some(format!("library {:?}, peer {:?}", ours.0, theirs.0));
    }
    if ours.0.number != 0 {
        return Some(format!("both refuse the job with {}", ours.0.number));
    }
    let pairs = ours.1.plan.iter().zip(&theirs.1.plan);
    if let Some((i, (a, b))) = pairs.enumerate().find(|(_, (a, b))| a != b) {
        return Some(format!(
            "link {} slot {}: library {a}, peer {b}",
            i / slots + 1,
            i % slots
        ));
    }
    let pairs = ours.1.peaks.iter().zip(&theirs.1.peaks);
    if let Some((i, (a, b))) = pairs.enumerate().find(|(_, (a, b))| a != b) {
        return Some(format!("peak of link {}: library {a}, peer {b}", i + 1));
    }
    None
}

/// Of the slots of links below an inner node, while the film is on its way, the shares in
/// which P3 holds with equality: the inner node's memory is full, or empty.
fn shares_bound(job: &Job, plan: &[u64], total: u64) -> (f64, f64) {
    let row = |v: usize| &plan[(v - 1) * job.slots..v * job.slots];
    let (mut full, mut empty, mut all) = (0_u32, 0_u32, 0_u32);
    for v in 1..job.parent.len() {
        let u = job.parent[v];
        if u != 0 {
            for (&above, &below) in row(u).iter().zip(row(v)) {
                if above > 0 && below < total {
                    full += u32::from(above == below + job.memory[u]);
                    empty += u32::from(above == below);
                    all += 1;
                }
            }
        }
    }
    (
        100.0 * f64::from(full) / f64::from(all),
        100.0 * f64::from(empty) / f64::from(all),
    )
}

/// Times with outputs that were written before.
fn times(peer: &mut Peer, job: &Job, ours: &mut Outputs, theirs: &mut Outputs) -> Times {
    best(
        || {
            seconds(|| {
                black_box(ask_library(job, ours));
            })
        },
        || {
            seconds(|| {
                black_box(ask_peer(peer, job, theirs));
            })
        },
    )
}

/// Times with outputs that nobody has touched.
fn fresh_times(peer: &mut Peer, job: &Job) -> Times {
    best(
        || {
            let mut outputs = Outputs::with(0, job);
            once(|| {
                black_box(ask_library(job, &mut outputs));
            })
        },
        || {
            let mut outputs = Outputs::with(0, job);
            once(|| {
                black_box(ask_peer(peer, job, &mut outputs));
            })
        },
    )
}

fn bar(shape: Shape) -> f64 {
    if shape.caterpillar() {
        CATERPILLAR_BAR
    } else {
        BAR
    }
}

/// Asks both sides, compares and times them and prints a row.
fn row(peer: &mut Peer, case: Case, growth: Option<&mut Growth>, tally: &mut Tally) {
    let label = format!(
        "{:<16} {:<6} {:>5} {:>6}",
        case.shape.name(case.delays),
        case.delays.name(),
        case.nodes,
        case.frames
    );
    let job = case.job();
    let mut ours = Outputs::with(u64::MAX, &job);
    let mut theirs = Outputs::with(u64::MAX, &job);
    let answer = ask_library(&job, &mut ours);
    let peer_answer = ask_peer(peer, &job, &mut theirs);
    if let Some(what) = difference((answer, &ours), (peer_answer, &theirs), job.slots) {
        return tally.mismatch(&label, &what);
    }
    let (full, empty) = shares_bound(&job, &ours.plan, answer.total);
    let times = match case.buffers {
        Buffers::Written => times(peer, &job, &mut ours, &mut theirs),
        Buffers::Fresh => fresh_times(peer, &job),
    };
    let numbers = ours.plan.len() as f64;
    let peer_ns = times.peer * 1e9 / numbers;
    let verdict = if peer_ns > PEER_LIMIT {
        tally.void(times.ratio())
    } else {
        tally.judge(&label, times.ratio(), Some(bar(case.shape)))
    };
    println!(
        "{label} {full:>6.1} {empty:>7.1} {:>11.3} {:>11.2} {peer_ns:>8.2}{} {verdict}",
        times.library * 1e3,
        times.library * 1e9 / numbers,
        growth.map_or(String::new(), |growth| growth.since(numbers, times.library))
    );
}

fn heading(what: &str, growth: bool) {
    println!("\nmemory question, {what}:");
    println!(
        "{:<16} {:<6} {:>5} {:>6} {:>6} {:>7} {:>11} {:>11} {:>8}{} {:>6} {:>4}",
        "shape",
        "delays",
        "nodes",
        "frames",
        "full %",
        "empty %",
        "library ms",
        "library ns",
        "peer ns",
        if growth { GROWTH } else { "" },
        "ratio",
        "bar"
    );
}

/// Rows in which either the slots or the nodes double.
fn growing(peer: &mut Peer, sizes: &[(usize, usize)], tally: &mut Tally) {
    for shape in GROWING {
        let mut growth = Growth::new();
        for &size in sizes {
            let case = Case {
                greatest_delay: size.1 / 16,
                ..Case::plain(shape, Delays::Spread, size)
            };
            row(peer, case, Some(&mut growth), tally);
        }
    }
}

/// Prints all rows of the memory question; says whether the two sides agreed.
pub fn print() -> bool {
    let mut peer = Peer::new();
    let mut tally = Tally::new("memory question");
    heading(
        "ns for a number of the plan, delays up to 4,096 slots",
        false,
    );
    for (shape, delays) in SHAPES {
        for size in SIZES {
            let case = Case::plain(shape, delays, size);
            row(&mut peer, case, None, &mut tally);
        }
    }
    heading(
        "plan and peaks in fresh pages, page faults in the time",
        false,
    );
    for shape in GROWING {
        let case = Case {
            buffers: Buffers::Fresh,
            ..Case::plain(shape, Delays::Spread, SIZES[1])
        };
        row(&mut peer, case, None, &mut tally);
    }
    let slots = "the slots double (delays up to frames / 16, so that H doubles)";
    heading(slots, true);
    growing(&mut peer, &SLOTS_DOUBLE, &mut tally);
    heading("the nodes double (delays up to frames / 16)", true);
    growing(&mut peer, &NODES_DOUBLE, &mut tally);
    tally.close()
}

/// The question to one side alone.
pub fn alone(
    library: bool,
    delays: Delays,
    shape: Shape,
    size: (usize, usize),
) -> Box<dyn FnMut()> {
    let job = Case::plain(shape, delays, size).job();
    let mut peer = Peer::new();
    let mut outputs = Outputs::with(u64::MAX, &job);
    Box::new(move || {
        black_box(if library {
            ask_library(&job, &mut outputs)
        } else {
            ask_peer(&mut peer, &job, &mut outputs)
        });
    })
}
