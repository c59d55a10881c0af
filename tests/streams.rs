//! The independent byte store: the whole stream that was appended, and how many bytes of
//! it each child has received. What is due of a call, of the store's numbers and of the
//! slice follows from these alone.

use std::collections::HashSet;
use std::fmt::{Display, Formatter, Result as Written};

use crate::library::STORE_WORDS;

/// The most children of a store.
pub const MOST_CHILDREN: usize = 63;

/// The numbers that refuse a call.
pub const BAD_STORE: u64 = 17;
pub const NO_SPACE: u64 = 18;
pub const NOT_WAITING: u64 = 19;

/// A store's numbers as the header has them: its length, its children, its place and
/// what waits for each child.
pub type Words = [u64; STORE_WORDS];

/// A call of a store, with the length of the slice that is lent.
#[derive(Clone, PartialEq, Eq, Hash)]
pub enum Call {
    Append {
        slice: usize,
        bytes: Vec<u8>,
    },
    Take {
        slice: usize,
        child: usize,
        count: usize,
    },
}

impl Call {
    pub fn slice(&self) -> usize {
        match self {
            Call::Append { slice, .. } | Call::Take { slice, .. } => *slice,
        }
    }

    /// The bytes that it lends: those to append, or room for those to take.
    pub fn size(&self) -> usize {
        match self {
            Call::Append { bytes, .. } => bytes.len(),
            Call::Take { count, .. } => *count,
        }
    }
}

impl Display for Call {
    fn fmt(&self, f: &mut Formatter) -> Written {
        let (size, slice) = (self.size(), self.slice());
        match self {
            Call::Append { .. } => write!(f, "append of {size}, slice of {slice}"),
            Call::Take { child, .. } => {
                write!(f, "take of {size} by child {child}, slice of {slice}")
            }
        }
    }
}

#[derive(Clone)]
pub struct Streams {
    /// The slice before the first byte.
    blank: Vec<u8>,
    length: usize,
    stream: Vec<u8>,
    /// How many bytes of the stream each child has.
    received: Vec<usize>,
}

impl Streams {
    /// A store with nothing appended. Where no slice can be as long as `length`, `blank`
    /// is shorter.
    pub fn start(blank: Vec<u8>, length: usize, children: usize) -> Self {
        Streams {
            blank,
            length,
            stream: Vec::new(),
            received: vec![0; children],
        }
    }

    /// Streams that leave these numbers, which calls could leave, and this slice: it has
    /// been filled up to its place, then from there on to the same place.
    pub fn of(words: &Words, slice: &[u8]) -> Self {
        let [length, children, place] = [0, 1, 2].map(|at| words[at] as usize);
        let mut streams = Streams::start(slice.to_vec(), length, children);
        if children > 0 {
            streams.stream = [&slice[..place], &slice[place..], &slice[..place]].concat();
            let all = streams.stream.len();
            let waits = words[3..].iter().take(children);
            streams.received = waits.map(|&waits| all - waits as usize).collect();
        }
        streams
    }

    pub fn length(&self) -> usize {
        self.length
    }

    pub fn children(&self) -> usize {
        self.received.len()
    }

    pub fn appended(&self) -> usize {
        self.stream.len()
    }

    /// Where in the slice the byte with this number in the stream lies.
    fn place_of(&self, byte: usize) -> usize {
        byte.checked_rem(self.length).unwrap_or(0)
    }

    /// How many places of the slice there are from the next byte on to its end.
    pub fn to_end(&self) -> usize {
        self.length - self.place_of(self.appended())
    }

    /// The same from the next byte of a child on.
    pub fn child_to_end(&self, child: usize) -> usize {
        self.length - self.place_of(self.received[child])
    }

    /// The child that has received least, where there is one.
    pub fn last_child(&self) -> Option<usize> {
        (0..self.children()).min_by_key(|&child| self.received[child])
    }

    pub fn waits(&self, child: usize) -> usize {
        self.appended() - self.received[child]
    }

    /// The space that is free: a byte has its own until every child has received it.
    pub fn free(&self) -> usize {
        let needed = self.last_child().map_or(0, |child| self.waits(child));
        self.length - needed
    }

    /// The number that is due of a call.
    pub fn number(&self, call: &Call) -> u64 {
        if call.slice() != self.length {
            return BAD_STORE;
        }
        match call {
            Call::Append { .. } if self.children() == 0 => BAD_STORE,
            Call::Append { bytes, .. } if bytes.len() > self.free() => NO_SPACE,
            Call::Take { child, .. } if *child >= self.children() => BAD_STORE,
            Call::Take { child, count, .. } if *count > self.waits(*child) => NOT_WAITING,
            _ => 0,
        }
    }

    /// Makes a call that isn't refused: what the child gets, or nothing by an append.
    pub fn make(&mut self, call: &Call) -> Vec<u8> {
        match call {
            Call::Append { bytes, .. } => {
                self.stream.extend(bytes);
                Vec::new()
            }
            Call::Take { child, count, .. } => {
                let from = self.received[*child];
                self.received[*child] += count;
                self.stream[from..from + count].to_vec()
            }
        }
    }

    /// The store's numbers.
    pub fn words(&self) -> Words {
        let mut words = [0; STORE_WORDS];
        words[0] = self.length as u64;
        words[1] = self.children() as u64;
        words[2] = self.place_of(self.appended()) as u64;
        for child in 0..self.children() {
            words[3 + child] = self.waits(child) as u64;
        }
        words
    }

    /// The slice: in each place the last byte that was written there, or what was there
    /// before any.
    pub fn slice(&self) -> Vec<u8> {
        let mut slice = self.blank.clone();
        let first = self.appended().saturating_sub(self.length);
        for byte in first..self.appended() {
            slice[self.place_of(byte)] = self.stream[byte];
        }
        slice
    }

    /// Calls from a start that leave the store and the slice of which `of` made these.
    pub fn calls(&self) -> Vec<Call> {
        let (slice, children) = (self.length, 0..self.children());
        let early = self.appended().saturating_sub(slice);
        let (first, second) = self.stream.split_at(early);
        let append = |bytes: &[u8]| Call::Append {
            slice,
            bytes: bytes.to_vec(),
        };
        let take = |child, count| Call::Take {
            slice,
            child,
            count,
        };
        let mut calls = vec![append(first)];
        calls.extend(children.clone().map(|child| take(child, early)));
        calls.push(append(second));
        calls.extend(children.map(|child| take(child, self.received[child] - early)));
        calls
    }
}

/// What is wrong with a store's numbers; nothing where calls could leave it.
pub fn wrongs(words: &Words) -> Vec<&'static str> {
    let [length, children, place] = [words[0], words[1], words[2]];
    let own = (children as usize).min(MOST_CHILDREN);
    let (own, absent) = words[3..].split_at(own);
    let clauses = [
        ("too many children", children > MOST_CHILDREN as u64),
        ("place past the end", place > length.saturating_sub(1)),
        ("place moved without children", children == 0 && place != 0),
        (
            "count above the length",
            own.iter().any(|&waits| waits > length),
        ),
        (
            "count of an absent child",
            absent.iter().any(|&waits| waits != 0),
        ),
    ];
    let wrong = clauses.into_iter().filter(|(_, wrong)| *wrong);
    wrong.map(|(clause, _)| clause).collect()
}

/// Every store that calls leave from this start, found by making them all.
pub fn every_left(length: usize, children: usize) -> HashSet<Words> {
    let slice = length;
    let mut found = HashSet::new();
    let mut ahead = vec![Streams::start(vec![0; length], length, children)];
    while let Some(streams) = ahead.pop() {
        if !found.insert(streams.words()) {
            continue;
        }
        for count in 0..=length {
            let bytes = vec![0; count];
            let takes = (0..children).map(|child| Call::Take {
                slice,
                child,
                count,
            });
            for call in takes.chain([Call::Append { slice, bytes }]) {
                if streams.number(&call) == 0 {
                    let mut next = streams.clone();
                    next.make(&call);
                    ahead.push(next);
                }
            }
        }
    }
    found
}
