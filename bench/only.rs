//! One side alone, for a profiler.

use crate::jobs::{Delays, Film, Shape};
use crate::{constant_table, memory_table, rate_table, step_table, store_table};
use std::time::{Duration, Instant};

pub const USAGE: &str = "only library|peer QUESTION SHAPE NODES FRAMES
QUESTION: spread or equal (delays of the memory question), scenes or alternating (films of the
rate question), constant (8 constant rates) or step; SHAPE: as the tables have it
only library|peer store CALL CHILDREN BYTES
CALL: append, take or round";

const LENGTH: Duration = Duration::from_secs(5);

fn question(arguments: &[String]) -> Option<Box<dyn FnMut()>> {
    let [only, side, question, shape, nodes, frames] = arguments else {
        return None;
    };
    let library = side == "library";
    if only != "only" || !library && side != "peer" {
        return None;
    }
    let size = (nodes.parse().ok()?, frames.parse().ok()?);
    if question == "store" {
        return store_table::alone(library, shape, size);
    }
    let shape = Shape::named(shape)?;
    match question.as_str() {
        "spread" => Some(memory_table::alone(library, Delays::Spread, shape, size)),
        "equal" => Some(memory_table::alone(library, Delays::Equal, shape, size)),
        "scenes" => Some(rate_table::alone(library, Film::Scenes, shape, size)),
        "alternating" => Some(rate_table::alone(library, Film::Alternating, shape, size)),
        "constant" => Some(constant_table::alone(library, shape, size)),
        "step" => Some(step_table::alone(library, shape, size)),
        _ => None,
    }
}

/// Asks one side again and again for some seconds; says whether the arguments were understood.
pub fn ask(arguments: &[String]) -> bool {
    let Some(mut question) = question(arguments) else {
        return false;
    };
    let start = Instant::now();
    let mut count = 0;
    while start.elapsed() < LENGTH {
        question();
        count += 1;
    }
    println!("asked {count} times");
    true
}
