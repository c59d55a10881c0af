//! Times the memory question, the rate question, constant rates, a step and the byte store of
//! the proved library against peers in Rust, on the same jobs, in turn, on one core. Only a
//! disagreement between the two sides fails the run.

mod constant;
mod constant_table;
mod jobs;
mod library;
mod memory_table;
mod only;
mod peer;
mod rate_table;
mod sizer;
mod step_table;
mod stepper;
mod store_table;
mod timing;

use std::process::ExitCode;

const ABOUT: &str = "\
Times are those of the thread's own clock, the best of 9 runs of each side in turn.
Buffers: all are written once before and not cleared between runs. The library clears its own
arrays on the stack in every call, in its time; a peer keeps its large arrays from call to call
and does not clear them. Two rows of the memory question have fresh pages, and say so.
A ratio is the library's time to the peer's. In a table of growth `work x` and `time x` are
against the line before: work, and the library's time; 2.00 is doubled.";

fn main() -> ExitCode {
    let arguments: Vec<String> = std::env::args().skip(1).collect();
    if !arguments.is_empty() {
        if only::ask(&arguments) {
            return ExitCode::SUCCESS;
        }
        eprintln!("{}", only::USAGE);
        return ExitCode::FAILURE;
    }
    println!("{ABOUT}");
    let agreed = [
        memory_table::print(),
        rate_table::print(),
        constant_table::print(),
        step_table::print(),
        store_table::print(),
    ];
    if agreed == [true; 5] {
        ExitCode::SUCCESS
    } else {
        ExitCode::FAILURE
    }
}
