//! Rows of a step of a running tree.

use crate::jobs::{self, Delays, Job, Shape};
use crate::library::{self, Running, StepAnswer};
use crate::peer::MOST_DELAY;
use crate::stepper::Stepper;
use crate::timing::{best, seconds, Growth, Tally, Times, GROWTH, NODES_DOUBLE, SLOTS_DOUBLE};
use std::cell::Cell;
use std::hint::black_box;

const SIZES: [(usize, usize); 3] = [(4, 12), (16, 3_000), (64, 65_536)];
/// Steps of a plan that are compared, spread over its slots.
const COMPARED: usize = 40;

#[derive(Clone, Copy)]
struct Case {
    shape: Shape,
    greatest_delay: usize,
    size: (usize, usize),
}

impl Case {
    fn plain(shape: Shape, size: (usize, usize)) -> Case {
        Case {
            shape,
            greatest_delay: MOST_DELAY,
            size,
        }
    }

    fn job(self) -> Job {
        let (nodes, frames) = self.size;
        jobs::make(
            self.shape,
            Delays::Spread,
            self.greatest_delay,
            nodes,
            frames,
        )
    }
}

/// A running tree with what a step of it reports.
#[derive(Clone, PartialEq, Eq)]
struct State {
    tree: Running,
    sent: Vec<u64>,
    held: Vec<u64>,
}

impl State {
    /// The tree that has taken column k.
    fn at(k: usize, job: &Job, plan: &[u64]) -> State {
        let links = job.parent.len() - 1;
        let mut tree = [0; 65];
        tree[0] = k as u64;
        for i in 0..links {
            tree[i + 2] = plan[i * job.slots + k];
        }
        State {
            tree,
            sent: vec![u64::MAX; links],
            held: vec![u64::MAX; links],
        }
    }

    fn by_library(&mut self, job: &Job, plan: &[u64]) -> StepAnswer {
        let job = black_box(&job.bytes);
        library::step(&mut self.tree, job, plan, &mut self.sent, &mut self.held)
    }

    fn by_peer(&mut self, stepper: &mut Stepper, job: &Job, plan: &[u64]) -> StepAnswer {
        let job = black_box(&job.bytes);
        stepper.step(&mut self.tree, job, plan, &mut self.sent, &mut self.held)
    }
}

/// The library's plan of a job.
fn plan_of(job: &Job) -> Vec<u64> {
    let links = job.parent.len() - 1;
    let mut plan = vec![0; links * job.slots];
    library::memory_question(&job.bytes, &mut plan, &mut vec![0; links]);
    plan
}

/// What is wrong with the step from slot k by both sides, which should have this number.
fn wrong_at(
    stepper: &mut Stepper,
    job: &Job,
    plan: &[u64],
    k: usize,
    number: u64,
) -> Option<String> {
    let mut ours = State::at(k, job, plan);
    let mut theirs = ours.clone();
    let answer = ours.by_library(job, plan);
    let peer = theirs.by_peer(stepper, job, plan);
    if answer != peer || answer.number != number {
        return Some(format!(
            "from slot {k}: library {answer:?}, peer {peer:?}, not {number}"
        ));
    }
    if ours != theirs {
        return Some(format!("from slot {k}: trees or reports differ"));
    }
    None
}

/// What is wrong with steps from slots of the plan, the last too, and of a plan with a number
/// too large.
fn difference(stepper: &mut Stepper, job: &Job, plan: &mut [u64]) -> Option<String> {
    let last = job.slots - 1;
    let links = job.parent.len() - 1;
    for i in 0..COMPARED {
        let k = i * last / COMPARED;
        let wrong = wrong_at(stepper, job, plan, k, 0);
        if wrong.is_some() {
            return wrong;
        }
        // On another link each time.
        let at = i % links * job.slots + k + 1;
        let kept = std::mem::replace(&mut plan[at], u64::MAX);
        let wrong = wrong_at(stepper, job, plan, k, 14);
        plan[at] = kept;
        if wrong.is_some() {
            return wrong;
        }
    }
    wrong_at(stepper, job, plan, last, 100)
}

/// Times of a step while the plan runs, from its start again once it is done; and a number of
/// a step that was neither taken nor done, if any.
fn times(stepper: &mut Stepper, job: &Job, plan: &[u64]) -> (Times, Option<u64>) {
    let start = State::at(0, job, plan);
    let (mut ours, mut theirs) = (start.clone(), start.clone());
    let refused = Cell::new(None);
    let go_on = |answer: StepAnswer, tree: &mut Running| match answer.number {
        0 => {}
        100 => *tree = start.tree,
        number => refused.set(Some(number)),
    };
    let times = best(
        || {
            seconds(|| {
                let answer = ours.by_library(job, plan);
                go_on(answer, &mut ours.tree);
            })
        },
        || {
            seconds(|| {
                let answer = theirs.by_peer(stepper, job, plan);
                go_on(answer, &mut theirs.tree);
            })
        },
    );
    (times, refused.get())
}

/// Compares both sides, times them and prints a row.
fn row(stepper: &mut Stepper, case: Case, growth: Option<&mut Growth>, tally: &mut Tally) {
    let (nodes, frames) = case.size;
    let label = format!(
        "{:<7} {nodes:>5} {frames:>6}",
        case.shape.name(Delays::Spread)
    );
    let job = case.job();
    let mut plan = plan_of(&job);
    if let Some(what) = difference(stepper, &job, &mut plan) {
        return tally.mismatch(&label, &what);
    }
    let (times, refused) = times(stepper, &job, &plan);
    if let Some(number) = refused {
        return tally.mismatch(&label, &format!("a step of the plan is refused: {number}"));
    }
    let work = (frames + nodes) as f64;
    println!(
        "{label} {:>11.0} {:>12.2} {:>8.0}{} {}",
        times.library * 1e9,
        times.library * 1e9 / work,
        times.peer * 1e9,
        growth.map_or(String::new(), |growth| growth.since(work, times.library)),
        tally.judge(&label, times.ratio(), None)
    );
}

fn heading(what: &str, growth: bool) {
    println!("\nstep, {what}:");
    println!(
        "{:<7} {:>5} {:>6} {:>11} {:>12} {:>8}{} {:>6}",
        "shape",
        "nodes",
        "frames",
        "library ns",
        "ns / (M + n)",
        "peer ns",
        if growth { GROWTH } else { "" },
        "ratio"
    );
}

/// Rows in which either the frames or the nodes double.
fn growing(stepper: &mut Stepper, sizes: &[(usize, usize)], tally: &mut Tally) {
    let mut growth = Growth::new();
    for &size in sizes {
        let case = Case {
            shape: Shape::Random,
            greatest_delay: size.1 / 16,
            size,
        };
        row(stepper, case, Some(&mut growth), tally);
    }
}

/// Prints all rows of a step; says whether the two sides agreed.
pub fn print() -> bool {
    let mut stepper = Stepper::new();
    let mut tally = Tally::new("step");
    heading(
        "the job read and checked anew in each; there is no bar",
        false,
    );
    for size in SIZES {
        row(
            &mut stepper,
            Case::plain(Shape::Random, size),
            None,
            &mut tally,
        );
    }
    heading("the frames double (delays up to frames / 16)", true);
    growing(&mut stepper, &SLOTS_DOUBLE, &mut tally);
    heading("the nodes double (delays up to frames / 16)", true);
    growing(&mut stepper, &NODES_DOUBLE, &mut tally);
    tally.close()
}

/// The first step by one side alone.
pub fn alone(library: bool, shape: Shape, size: (usize, usize)) -> Box<dyn FnMut()> {
    let job = Case::plain(shape, size).job();
    let plan = plan_of(&job);
    let mut stepper = Stepper::new();
    let mut state = State::at(0, &job, &plan);
    Box::new(move || {
        state.tree = [0; 65];
        black_box(if library {
            state.by_library(&job, &plan)
        } else {
            state.by_peer(&mut stepper, &job, &plan)
        });
    })
}
