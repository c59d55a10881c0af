//! The rate question: the library against the brute-force search and the
//! independent implementation.

use std::hash::Hash;

use crate::problem::Problem;
use crate::rated;
use crate::section::Kind::{self, Fixed, Random};
use crate::section::Wanted::{All, Any, Share};
use crate::section::{Count, Section, Tally, ONE};
use crate::sizing::{self, Case};

pub struct Rating;

impl Section for Rating {
    type Case = Case;

    const NAME: &'static str = "rate question";
    const CASES: &'static str = "jobs";
    const GATE: u64 = 70_000;
    const STREAM: u64 = 3_000;
    const KINDS: &'static [Kind<Case>] = &[
        Fixed("examples", rated::examples),
        Fixed("by hand", rated::by_hand),
        Fixed("every tiny job", rated::every_tiny),
        Fixed("extremes", rated::extremes),
        Fixed("64 nodes", rated::most_nodes),
        Fixed("65,536 frames", rated::most_frames),
        Fixed("rooms", rated::rooms),
        Random("tiny", 60, rated::tiny),
        Random("small", 580, rated::small),
        Random("families", 40, rated::families),
        Random("films", 20, rated::films),
        Random("borderline", 80, rated::borderline),
        Random("faults", 190, rated::faulty),
        Random("wrong lengths", 30, rated::wrong_length),
    ];
    const COUNTS: &'static [Count] = &[
        ("jobs", ONE, All(50_000)),
        ("number {}", 0..=11, All(1_000)),
        ("number {}", 13..=13, All(1_000)),
        ("searched by brute force", ONE, All(10_000)),
        ("searched, with a delay", ONE, Any),
        (
            "searched, with several sets of least total",
            ONE,
            All(1_000),
        ),
        ("answers", ONE, Any),
        (
            "answers with a memory at an inner node",
            ONE,
            Share(15, "answers"),
        ),
        (
            "answers with an inner node asked for more than its need",
            ONE,
            Share(10, "answers"),
        ),
        (
            "answers with a leaf asked for more than its need",
            ONE,
            Share(30, "answers"),
        ),
        (
            "answers with an only child of less need",
            ONE,
            Share(15, "answers"),
        ),
        (
            "answers with a tie of the least need above 0",
            ONE,
            All(1_000),
        ),
        ("answers with 8 children of one node", ONE, All(1_000)),
        ("answers with a chain of 8 nodes", ONE, All(2_000)),
        ("answers with all needs 0", ONE, All(5_000)),
        ("answers with some needs 0", ONE, All(10_000)),
        ("answers with delay 4,096", ONE, All(500)),
        ("number and delay known by construction", ONE, Any),
        ("answers put back", ONE, Any),
        ("answers put back and asked about", ONE, Any),
    ];

    fn key(case: &Case) -> impl Hash {
        (&case.bytes, case.memories)
    }

    fn bytes(case: &Case) -> Vec<u8> {
        case.bytes.clone()
    }

    fn check(case: &Case, tally: &mut Tally) -> Result<bool, Problem> {
        sizing::check(case, tally).map(|()| true)
    }
}
