//! Rows of the rate question.

use crate::jobs::{self, Delays, Film, Rates, Shape};
use crate::library;
use crate::sizer::Sizer;
use crate::timing::{best, seconds, Growth, Tally, GROWTH, NODES_DOUBLE, SLOTS_DOUBLE};
use std::hint::black_box;

const SIZE: (usize, usize) = (64, 65_536);
const TREES: [(Shape, Rates); 5] = [
    (Shape::Star, Rates::Mixed),
    (Shape::Chain, Rates::Mixed),
    (Shape::Chain, Rates::Rising),
    (Shape::Binary, Rates::Mixed),
    (Shape::Random, Rates::Mixed),
];
/// Trees that are tried with a film made to be hard, in which large and small frames alternate.
const HARD: [(Shape, Rates); 2] = [
    (Shape::Chain, Rates::Rising),
    (Shape::Random, Rates::Mixed),
];
const BAR: f64 = 1.5;

#[derive(Clone, Copy)]
struct Case {
    shape: Shape,
    rates: Rates,
    film: Film,
    nodes: usize,
    frames: usize,
}

/// Asks both sides, compares and times them and prints a row.
fn row(sizer: &mut Sizer, case: Case, growth: Option<&mut Growth>, tally: &mut Tally) {
    let label = format!(
        "{:<7} {:<6} {:<11} {:>5} {:>6}",
        case.shape.name(Delays::Spread),
        case.rates.name(),
        case.film.name(),
        case.nodes,
        case.frames
    );
    let job = jobs::rated(case.shape, case.rates, case.film, case.nodes, case.frames);
    let mut ours = vec![u64::MAX; case.nodes - 1];
    let mut theirs = ours.clone();
    let answer = library::rate_question(&job.bytes, &mut ours);
    let peer = sizer.rate_question(&job.bytes, &mut theirs);
    if answer != peer || answer.number != 0 || ours != theirs {
        return tally.mismatch(&label, &format!("library {answer:?}, peer {peer:?}"));
    }
    let times = best(
        || {
            seconds(|| {
                black_box(library::rate_question(black_box(&job.bytes), &mut ours));
            })
        },
        || {
            seconds(|| {
                black_box(sizer.rate_question(black_box(&job.bytes), &mut theirs));
            })
        },
    );
    let work = (case.frames * job.floors) as f64;
    println!(
        "{label} {:>6} {:>5} {:>11.3} {:>11.3} {:>8.3}{} {}",
        job.floors,
        answer.delay,
        times.library * 1e3,
        times.library * 1e9 / work,
        times.peer * 1e9 / work,
        growth.map_or(String::new(), |growth| growth.since(work, times.library)),
        tally.judge(&label, times.ratio(), Some(BAR))
    );
}

fn heading(what: &str, growth: bool) {
    println!("\nrate question, {what}:");
    println!(
        "{:<7} {:<6} {:<11} {:>5} {:>6} {:>6} {:>5} {:>11} {:>11} {:>8}{} {:>6} {:>4}",
        "shape",
        "rates",
        "film",
        "nodes",
        "frames",
        "floors",
        "delay",
        "library ms",
        "library ns",
        "peer ns",
        if growth { GROWTH } else { "" },
        "ratio",
        "bar"
    );
}

/// Rows in which either the slots or the nodes double; every floor rate is another.
fn growing(sizer: &mut Sizer, sizes: &[(usize, usize)], tally: &mut Tally) {
    let mut growth = Growth::new();
    for &(nodes, frames) in sizes {
        let case = Case {
            shape: Shape::Chain,
            rates: Rates::Rising,
            film: Film::Scenes,
            nodes,
            frames,
        };
        row(sizer, case, Some(&mut growth), tally);
    }
}

/// Rows of full size.
fn full_size(sizer: &mut Sizer, trees: &[(Shape, Rates)], film: Film, tally: &mut Tally) {
    let (nodes, frames) = SIZE;
    for &(shape, rates) in trees {
        let case = Case {
            shape,
            rates,
            film,
            nodes,
            frames,
        };
        row(sizer, case, None, tally);
    }
}

/// Prints all rows of the rate question; says whether the two sides agreed.
pub fn print() -> bool {
    let mut sizer = Sizer::new();
    let mut tally = Tally::new("rate question");
    heading("ns for each frame and different floor rate", false);
    full_size(&mut sizer, &TREES, Film::Scenes, &mut tally);
    heading("the frames double", true);
    growing(&mut sizer, &SLOTS_DOUBLE, &mut tally);
    heading("the nodes double", true);
    growing(&mut sizer, &NODES_DOUBLE, &mut tally);
    heading("a film made to be hard", false);
    full_size(&mut sizer, &HARD, Film::Alternating, &mut tally);
    tally.close()
}

/// The question to one side alone; every floor rate of a chain is another.
pub fn alone(library: bool, film: Film, shape: Shape, size: (usize, usize)) -> Box<dyn FnMut()> {
    let job = jobs::rated(shape, Rates::Rising, film, size.0, size.1);
    let mut sizer = Sizer::new();
    let mut memories = vec![u64::MAX; size.0 - 1];
    Box::new(move || {
        black_box(if library {
            library::rate_question(&job.bytes, &mut memories)
        } else {
            sizer.rate_question(&job.bytes, &mut memories)
        });
    })
}
