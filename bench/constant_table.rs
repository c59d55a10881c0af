//! Rows of constant rates.

use crate::constant::{Constant, LEAPING, LINE, PLAIN};
use crate::jobs::{self, Film, Rates, Shape};
use crate::library;
use crate::timing::{best, seconds, Growth, Tally, Times, GROWTH};
use std::hint::black_box;

const MOST_RATES: usize = 8;
const SIZES: [usize; 3] = [1_024, 16_384, 65_536];
const FULL: usize = 65_536;
const FILMS: [Film; 2] = [Film::Scenes, Film::Alternating];
/// Rates and frames of the lines in which the rates double, and then the frames.
const RATES_DOUBLE: [(usize, usize); 4] = [(1, FULL), (2, FULL), (4, FULL), (8, FULL)];
const FRAMES_DOUBLE: [(usize, usize); 5] =
    [(8, 4_096), (8, 8_192), (8, 16_384), (8, 32_768), (8, FULL)];
/// For the most rates and frames, against passes that look at every slot. Where no rate serves
/// there is none: both sides see that at once, and what is timed is the reading of the job.
const BAR: f64 = 1.2;

/// How the rates lie to the mean frame.
#[derive(Clone, Copy, PartialEq)]
enum Links {
    /// Around it: some serve at once, some after a delay, one or more never.
    Around,
    /// A little above it: each serves after a delay.
    Above,
    /// Far above it: each serves at once.
    Far,
    /// Far below it: none serves.
    Below,
}

impl Links {
    fn name(self) -> &'static str {
        match self {
            Links::Around => "around",
            Links::Above => "above",
            Links::Far => "far above",
            Links::Below => "far below",
        }
    }

    /// The rates in percent of the mean frame.
    fn percent(self) -> [u64; MOST_RATES] {
        match self {
            Links::Around => [101, 99, 400, 10, 110, 90, 150, 1_000],
            Links::Above => [101, 102, 103, 104, 105, 106, 107, 108],
            Links::Far => [400, 500, 600, 700, 800, 900, 1_000, 1_100],
            Links::Below => [5, 6, 7, 8, 9, 10, 11, 12],
        }
    }
}

#[derive(Clone, Copy)]
struct Case {
    links: Links,
    film: Film,
    rates: usize,
    frames: usize,
}

/// What is asked: a job, and rates.
struct Question {
    job: Vec<u8>,
    rates: Vec<u64>,
}

impl Case {
    fn question(self, shape: Shape, nodes: usize) -> Question {
        let job = jobs::rated(shape, Rates::Mixed, self.film, nodes, self.frames);
        let percent = &self.links.percent()[..self.rates];
        Question {
            rates: percent.iter().map(|part| job.mean * part / 100).collect(),
            job: job.bytes,
        }
    }

    fn bar(self) -> Option<f64> {
        let largest = self.rates == MOST_RATES && self.frames == FULL;
        (largest && self.links != Links::Below).then_some(BAR)
    }
}

impl Question {
    fn lines(&self) -> Vec<u64> {
        vec![u64::MAX; LINE * self.rates.len()]
    }

    fn by_library(&self, lines: &mut [u64]) -> u64 {
        library::constant_rates(black_box(&self.job), &self.rates, lines)
    }

    fn by_peer(&self, peer: &mut Constant, lines: &mut [u64], stretch: usize) -> u64 {
        peer.rates(black_box(&self.job), &self.rates, lines, stretch)
    }
}

/// What the library and the peer differ in, if anything; `ours` has the library's lines then.
fn difference(peer: &mut Constant, question: &Question, ours: &mut [u64]) -> Option<String> {
    let number = question.by_library(ours);
    for stretch in [PLAIN, LEAPING] {
        let mut theirs = question.lines();
        let peer_number = question.by_peer(peer, &mut theirs, stretch);
        if number != peer_number || number != 0 || ours != theirs {
            return Some(format!(
                "library {number} {ours:?}, peer {peer_number} {theirs:?}"
            ));
        }
    }
    None
}

/// How many of the lines serve at once, after a delay and never.
fn kinds(lines: &[u64]) -> [usize; 3] {
    let mut kinds = [0; 3];
    for line in lines.as_chunks::<LINE>().0 {
        match line {
            [0, 0, _] => kinds[0] += 1,
            [0, ..] => kinds[1] += 1,
            _ => kinds[2] += 1,
        }
    }
    kinds
}

/// The best times of the library and of the peer with such stretches.
fn times(peer: &mut Constant, question: &Question, lines: &mut [u64], stretch: usize) -> Times {
    let mut theirs = question.lines();
    best(
        || {
            seconds(|| {
                black_box(question.by_library(lines));
            })
        },
        || {
            seconds(|| {
                black_box(question.by_peer(peer, &mut theirs, stretch));
            })
        },
    )
}

/// Asks both sides, compares and times them and prints a row.
fn row(peer: &mut Constant, case: Case, growth: Option<&mut Growth>, tally: &mut Tally) {
    let label = format!(
        "{:<9} {:<11} {:>5} {:>6}",
        case.links.name(),
        case.film.name(),
        case.rates,
        case.frames
    );
    let question = case.question(Shape::Random, 64);
    let mut lines = question.lines();
    if let Some(what) = difference(peer, &question, &mut lines) {
        return tally.mismatch(&label, &what);
    }
    let [at_once, delayed, never] = kinds(&lines);
    let plain = times(peer, &question, &mut lines, PLAIN);
    let leaping = times(peer, &question, &mut lines, LEAPING);
    let work = (case.rates * case.frames) as f64;
    println!(
        "{label} {at_once:>4} {delayed:>5} {never:>5} {:>10.1} {:>10.3} {:>8.1} {:>10.1} {:>6.2}{} {}",
        plain.library * 1e6,
        plain.library * 1e9 / work,
        plain.peer * 1e6,
        leaping.peer * 1e6,
        leaping.ratio(),
        growth.map_or(String::new(), |growth| growth.since(work, plain.library)),
        tally.judge(&label, plain.ratio(), case.bar())
    );
}

fn heading(what: &str, growth: bool) {
    println!("\nconstant rates, {what}:");
    println!(
        "{:<9} {:<11} {:>5} {:>6} {:>4} {:>5} {:>5} {:>10} {:>10} {:>8} {:>10} {:>6}{} {:>6} {:>4}",
        "rates",
        "film",
        "count",
        "frames",
        "once",
        "later",
        "never",
        "library us",
        "library ns",
        "peer us",
        "leaping us",
        "to it",
        if growth { GROWTH } else { "" },
        "ratio",
        "bar"
    );
}

/// Rows in which either the rates or the frames double; each rate takes the same work.
fn growing(peer: &mut Constant, sizes: &[(usize, usize)], tally: &mut Tally) {
    let mut growth = Growth::new();
    for &(rates, frames) in sizes {
        let case = Case {
            links: Links::Above,
            film: Film::Scenes,
            rates,
            frames,
        };
        row(peer, case, Some(&mut growth), tally);
    }
}

/// Rows of both films with rates of one kind.
fn both_films(peer: &mut Constant, links: Links, size: (usize, usize), tally: &mut Tally) {
    let (rates, frames) = size;
    for film in FILMS {
        let case = Case {
            links,
            film,
            rates,
            frames,
        };
        row(peer, case, None, tally);
    }
}

/// Prints all rows of constant rates; says whether the two sides agreed.
pub fn print() -> bool {
    let mut peer = Constant::new();
    let mut tally = Tally::new("constant rates");
    heading(
        "ns for each rate and frame; `leaping` leaves out stretches of slots, without a bar",
        false,
    );
    for rates in [1, MOST_RATES] {
        for frames in SIZES {
            both_films(&mut peer, Links::Around, (rates, frames), &mut tally);
        }
    }
    heading("rates that are all alike", false);
    for links in [Links::Above, Links::Far, Links::Below] {
        both_films(&mut peer, links, (MOST_RATES, FULL), &mut tally);
    }
    heading("the rates double", true);
    growing(&mut peer, &RATES_DOUBLE, &mut tally);
    heading("the frames double", true);
    growing(&mut peer, &FRAMES_DOUBLE, &mut tally);
    tally.close()
}

/// The most rates, around the mean frame, by one side alone.
pub fn alone(library: bool, shape: Shape, size: (usize, usize)) -> Box<dyn FnMut()> {
    let case = Case {
        links: Links::Around,
        film: Film::Scenes,
        rates: MOST_RATES,
        frames: size.1,
    };
    let question = case.question(shape, size.0);
    let mut peer = Constant::new();
    let mut lines = question.lines();
    Box::new(move || {
        black_box(if library {
            question.by_library(&mut lines)
        } else {
            question.by_peer(&mut peer, &mut lines, PLAIN)
        });
    })
}
