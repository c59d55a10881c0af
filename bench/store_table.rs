//! Rows of the byte store.

use crate::library::{store_append, store_start, store_take};
use crate::timing::{best, seconds, Growth, Tally, Times, GROWTH};
use keeper::Store;
use std::hint::black_box;

const BYTES: [usize; 3] = [64, 4_096, 65_536];
const CHILDREN: [usize; 3] = [1, 8, 63];
/// Children and bytes of the lines in which the bytes double, and then the children.
const BYTES_DOUBLE: [(usize, usize); 5] = [
    (8, 4_096),
    (8, 8_192),
    (8, 16_384),
    (8, 32_768),
    (8, 65_536),
];
const CHILDREN_DOUBLE: [(usize, usize); 6] = [
    (2, 4_096),
    (4, 4_096),
    (8, 4_096),
    (16, 4_096),
    (32, 4_096),
    (63, 4_096),
];
/// For this size, against the peer that copies by loops.
const BAR: f64 = 1.5;
const BARRED: (usize, usize) = (8, 4_096);
/// Rounds of calls that are compared: each goes on where the one before ended.
const COMPARED: usize = 12;

/// What is timed.
#[derive(Clone, Copy, PartialEq)]
enum Timed {
    /// An append to an empty store.
    Append,
    /// A take of all that waits, by the children in turn.
    Take,
    /// An append, and a take by each child.
    Round,
}

const ALL: [Timed; 3] = [Timed::Append, Timed::Take, Timed::Round];

impl Timed {
    fn name(self) -> &'static str {
        match self {
            Timed::Append => "append",
            Timed::Take => "take",
            Timed::Round => "round",
        }
    }

    /// Bytes copied and counts looked at, in units.
    fn work(self, (children, bytes): (usize, usize)) -> f64 {
        let calls = if self == Timed::Round {
            1 + children
        } else {
            1
        };
        (calls * (bytes + children)) as f64
    }
}

/// The three functions of one side.
#[derive(Clone, Copy)]
struct Side {
    append: fn(&mut Store, &mut [u8], &[u8]) -> u64,
    take: fn(&mut Store, &[u8], usize, &mut [u8]) -> u64,
}

const LIBRARY: Side = Side {
    append: store_append,
    take: store_take,
};
const PEER: Side = Side {
    append: keeper::append,
    take: keeper::take,
};
const MEMCPY_PEER: Side = Side {
    append: keeper::append_by_memcpy,
    take: keeper::take_by_memcpy,
};

/// A store in a slice that four appends don't quite fill, so that the places differ and some
/// calls go round its end; with what is appended and taken.
#[derive(Clone, PartialEq, Eq)]
struct State {
    store: Store,
    slice: Vec<u8>,
    bytes: Vec<u8>,
    out: Vec<u8>,
    next: usize,
}

impl State {
    fn new((children, bytes): (usize, usize)) -> State {
        let length = 4 * bytes + 1;
        let mut store = Store {
            length: 1,
            children: 2,
            place: 3,
            waiting: [4; 63],
        };
        let number = store_start(&mut store, length, children);
        assert_eq!(number, 0, "a store is started");
        State {
            store,
            slice: vec![1; length],
            bytes: (0..bytes).map(|at| (at * 7 + at / 256) as u8).collect(),
            out: vec![2; bytes],
            next: 0,
        }
    }

    fn append(&mut self, side: Side) -> u64 {
        (side.append)(&mut self.store, &mut self.slice, black_box(&self.bytes))
    }

    fn take(&mut self, side: Side, child: usize) -> u64 {
        let slice = black_box(&self.slice);
        (side.take)(&mut self.store, slice, child, &mut self.out)
    }

    /// What is timed: what the calls give, or'ed. The numbers that it changes besides are few,
    /// and those that calls could leave.
    fn make(&mut self, timed: Timed, side: Side) -> u64 {
        let children = self.store.children;
        match timed {
            Timed::Append => {
                // As if all had taken.
                self.store.waiting[..children].fill(0);
                self.append(side)
            }
            Timed::Take => {
                // As if as much had been appended, and all others had taken it.
                let child = self.next;
                self.next = if child + 1 == children { 0 } else { child + 1 };
                let place = self.store.place + self.bytes.len();
                let length = self.store.length;
                self.store.place = if place >= length {
                    place - length
                } else {
                    place
                };
                self.store.waiting[child] = self.bytes.len();
                self.take(side, child)
            }
            Timed::Round => {
                let mut numbers = self.append(side);
                for child in 0..children {
                    numbers |= self.take(side, child);
                }
                numbers
            }
        }
    }

    /// The numbers of calls of all sorts, answered and refused, one after the other.
    fn numbers(&mut self, side: Side) -> Vec<u64> {
        let last = self.store.children - 1;
        let mut numbers = vec![self.append(side), self.append(side), self.take(side, last)];
        numbers.push(self.take(side, last + 1));
        while self.append(side) == 0 {}
        numbers.push(self.append(side));
        for child in 0..=last {
            while self.take(side, child) == 0 {}
        }
        numbers.push(self.take(side, 0));
        let byte = self.slice.pop();
        numbers.extend([self.append(side), self.take(side, 0)]);
        self.slice.extend(byte);
        let place = std::mem::replace(&mut self.store.place, self.slice.len());
        numbers.extend([self.append(side), self.take(side, 0)]);
        self.store.place = place;
        numbers
    }
}

/// The numbers that those calls should have.
const NUMBERS: [u64; 10] = [0, 0, 0, 17, 18, 19, 17, 17, 17, 17];

/// What the library and a peer differ in, if anything.
fn difference(size: (usize, usize), peer: Side) -> Option<String> {
    let (mut ours, mut theirs) = (State::new(size), State::new(size));
    for round in 0..COMPARED {
        for state in [&mut ours, &mut theirs] {
            // Other bytes each time.
            let byte = |byte: &mut u8| *byte = byte.wrapping_mul(5).wrapping_add(round as u8);
            state.bytes.iter_mut().for_each(byte);
        }
        let (number, other) = (ours.numbers(LIBRARY), theirs.numbers(peer));
        if number != NUMBERS || other != NUMBERS {
            return Some(format!("round {round}: library {number:?}, peer {other:?}"));
        }
        for timed in ALL {
            let (number, other) = (ours.make(timed, LIBRARY), theirs.make(timed, peer));
            let stream = timed != Timed::Round || ours.bytes == ours.out;
            if (number, other) != (0, 0) || ours != theirs || !stream {
                return Some(format!(
                    "{} {round}: library {number}, peer {other}; or stores, slices or outputs differ",
                    timed.name()
                ));
            }
            for state in [&mut ours, &mut theirs] {
                state.store.waiting.fill(0);
            }
        }
    }
    None
}

/// The best times of the library and of a peer; none where a call was refused.
fn times(timed: Timed, size: (usize, usize), peer: Side) -> Option<Times> {
    let (mut ours, mut theirs) = (State::new(size), State::new(size));
    let (mut number, mut other) = (0, 0);
    let times = best(
        || seconds(|| number |= ours.make(timed, LIBRARY)),
        || seconds(|| other |= theirs.make(timed, peer)),
    );
    (number | other == 0).then_some(times)
}

/// Compares the library with a peer and times them.
fn compared(timed: Timed, size: (usize, usize), peer: Side) -> Result<Times, String> {
    match difference(size, peer) {
        Some(what) => Err(what),
        None => times(timed, size, peer).ok_or("a call was refused".to_string()),
    }
}

/// Prints a row, with the growth since the one before or else the ratio to the peer that
/// copies by memcpy.
fn row(timed: Timed, size: (usize, usize), growth: Option<&mut Growth>, tally: &mut Tally) {
    let (children, bytes) = size;
    let label = format!("{:<6} {bytes:>6} {children:>8}", timed.name());
    let work = timed.work(size);
    let row = compared(timed, size, PEER).and_then(|times| {
        let more = match growth {
            Some(growth) => growth.since(work, times.library),
            None => {
                let other = compared(timed, size, MEMCPY_PEER)?;
                format!(" {:>13.2}", other.ratio())
            }
        };
        Ok((times, more))
    });
    let (times, more) = match row {
        Ok(row) => row,
        Err(what) => return tally.mismatch(&label, &what),
    };
    let bar = (size == BARRED).then_some(BAR);
    println!(
        "{label} {:>11.0} {:>9.3} {:>8.0}{more} {}",
        times.library * 1e9,
        times.library * 1e9 / work,
        times.peer * 1e9,
        tally.judge(&label, times.ratio(), bar),
    );
}

fn heading(what: &str, growth: bool) {
    println!("\nbyte store, {what}:");
    println!(
        "{:<6} {:>6} {:>8} {:>11} {:>9} {:>8}{} {:>6} {:>4}",
        "call",
        "bytes",
        "children",
        "library ns",
        "ns / work",
        "peer ns",
        if growth { GROWTH } else { "     by memcpy" },
        "ratio",
        "bar"
    );
}

/// Prints all rows of the byte store; says whether the two sides agreed.
pub fn print() -> bool {
    let mut tally = Tally::new("byte store");
    heading(
        "the work of a call is its bytes and its children (a round: an append and a take by\n\
         each child; by memcpy: the ratio to a peer that copies so)",
        false,
    );
    for timed in [Timed::Append, Timed::Take] {
        for bytes in BYTES {
            for children in CHILDREN {
                row(timed, (children, bytes), None, &mut tally);
            }
        }
    }
    row(Timed::Round, BARRED, None, &mut tally);
    for (what, sizes) in [
        ("the bytes double", &BYTES_DOUBLE[..]),
        ("the children double", &CHILDREN_DOUBLE),
    ] {
        heading(what, true);
        for timed in [Timed::Append, Timed::Take] {
            let mut growth = Growth::new();
            for &size in sizes {
                row(timed, size, Some(&mut growth), &mut tally);
            }
        }
    }
    tally.close()
}

/// A call by one side alone, where it is named.
pub fn alone(library: bool, name: &str, size: (usize, usize)) -> Option<Box<dyn FnMut()>> {
    let timed = ALL.into_iter().find(|timed| timed.name() == name)?;
    if !(1..=63).contains(&size.0) || size.1 > 1 << 30 {
        return None;
    }
    let mut state = State::new(size);
    let side = if library { LIBRARY } else { PEER };
    Some(Box::new(move || {
        black_box(state.make(timed, side));
    }))
}
