//! The memory question: the library against the brute-force search and the
//! independent planner.

use std::hash::Hash;

use crate::asking::{self, Case};
use crate::edges::memory_examples;
use crate::problem::Problem;
use crate::section::Kind::{self, Fixed, Random};
use crate::section::Wanted::{All, Any, RandomShare};
use crate::section::{Count, Section, Tally, ONE};
use crate::shapes::{at_bounds, SHAPES};
use crate::trees;

/// Links of the largest plan whose peaks are tried one lower.
const TRIED: usize = 4;

pub struct Planning;

impl Section for Planning {
    type Case = Case;

    const NAME: &'static str = "memory question";
    const CASES: &'static str = "jobs";
    const GATE: u64 = 90_000;
    const STREAM: u64 = 1_000;
    const KINDS: &'static [Kind<Case>] = &[
        Fixed("examples", memory_examples),
        Fixed("every tiny job", trees::every_tiny),
        Fixed("extremes", trees::extremes),
        Fixed("64 nodes", trees::most_nodes),
        Fixed("65,536 frames", trees::most_frames),
        Random("tiny", 200, trees::tiny),
        Random("small", 630, trees::small),
        Random("faults", 150, trees::faulty),
        Random("wrong lengths", 20, trees::wrong_length),
        Fixed("largest plan", |rng| {
            vec![Case::large(trees::largest(rng), TRIED)]
        }),
        Fixed("all at their bounds", |rng| {
            let case = |shape| Case::large(at_bounds(shape, rng), TRIED);
            SHAPES.map(case).into()
        }),
    ];
    const COUNTS: &'static [Count] = &[
        ("jobs", ONE, All(50_000)),
        ("number {}", 0..=12, All(1_000)),
        // Some leaf's row or peak would differ without P3.
        ("accepted with P3 binding", ONE, RandomShare(30, "jobs")),
        ("searched by brute force", ONE, Any),
        ("searched, with a plan", ONE, Any),
        ("plans of 4,386,879 numbers", ONE, All(1)),
    ];

    fn key(case: &Case) -> impl Hash {
        (&case.bytes, case.plan, case.peaks)
    }

    fn bytes(case: &Case) -> Vec<u8> {
        case.bytes.clone()
    }

    fn check(case: &Case, tally: &mut Tally) -> Result<bool, Problem> {
        asking::check(case, tally).map(|()| true)
    }
}
