//! Holds the static library against independent implementations.
//!
//! Arguments, both optional: how many random cases, of all sorts together, and the
//! seed; decimal or hexadecimal after `0x`.

#![deny(unsafe_code)]

mod answer;
mod arguments;
mod asking;
mod brute;
mod choice;
mod edges;
mod faults;
mod films;
mod garbage;
mod job;
mod lazy;
mod lending;
#[allow(unsafe_code)]
mod library;
mod planning;
mod problem;
mod program;
mod putting;
mod rated;
mod rating;
mod reader;
mod reading;
mod relax;
mod rng;
mod rowing;
mod rules;
mod running;
mod section;
mod sending;
mod shapes;
mod sizes_brute;
mod sizing;
mod steady;
mod steady_brute;
mod stepping;
mod stores;
mod storing;
mod streams;
mod trees;
mod writer;

use std::process::ExitCode;

use section::{Outcome, Section};

/// A section: its random cases in the gate, its first stream of random numbers, and how
/// it is run with so many cases and a seed.
type Entry = (u64, u64, fn(u64, u64) -> Outcome);

const fn entry<S: Section>() -> Entry {
    (S::GATE, S::STREAM, section::run::<S>)
}

const SECTIONS: [Entry; 9] = [
    entry::<reading::Reading>(),
    entry::<planning::Planning>(),
    entry::<running::Steps>(),
    entry::<rating::Rating>(),
    entry::<putting::Putting>(),
    entry::<rowing::Rows>(),
    entry::<sending::Sending>(),
    entry::<storing::Storing>(),
    entry::<program::Program>(),
];

fn main() -> ExitCode {
    let gate = SECTIONS.map(|(gate, ..)| gate);
    arguments::check(gate);
    let texts: Vec<String> = std::env::args().skip(1).collect();
    let words: Vec<&str> = texts.iter().map(String::as_str).collect();
    let Some((jobs, seed)) = arguments::read(&words, gate.iter().sum()) else {
        eprintln!("usage: tests/run [JOBS [SEED]] or tests/valgrind [JOBS [SEED]]");
        eprintln!("JOBS is the number of random cases of all sorts; 0x may go before digits");
        return ExitCode::from(2);
    };
    section::check(SECTIONS.map(|(_, stream, _)| stream));
    let end = ["between guards", "to the end of its allocation"][usize::from(lending::tight())];
    println!("random cases asked for {jobs}, seed {seed:#018x}; lent memory: {end}");
    let (mut passed, mut failed) = (0, 0);
    for ((.., run), random) in SECTIONS.into_iter().zip(arguments::amounts(jobs, gate)) {
        let outcome = run(random, seed);
        passed += outcome.passed;
        failed += u64::from(!outcome.well);
    }
    println!("harness: {passed} passed, {failed} failed");
    ExitCode::from(u8::from(failed > 0))
}
