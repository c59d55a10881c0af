//! Runs of calls of a byte store, and stores as they stand.

use crate::library::STORE_WORDS;
use crate::rng::Rng;
use crate::storing::{Case, LONGEST};
use crate::streams::{every_left, wrongs, Call, Streams, Words, MOST_CHILDREN};

/// Numbers past the length of any slice here, some small in their low bits alone.
const FAR: [u64; 8] = [
    1 << 24,
    1 << 32,
    (1 << 32) + 1,
    1 << 48,
    1 << 63,
    (1 << 63) + 2,
    u64::MAX - 1,
    u64::MAX,
];

/// A run with its streams, to which calls are added.
struct Run {
    streams: Streams,
    children: usize,
    calls: Vec<Call>,
}

impl Run {
    fn new(length: usize, children: usize) -> Self {
        let blank = vec![0; length.min(LONGEST)];
        Run {
            streams: Streams::start(blank, length, children),
            children,
            calls: Vec::new(),
        }
    }

    fn add(&mut self, call: Call) {
        if self.streams.number(&call) == 0 {
            self.streams.make(&call);
        }
        self.calls.push(call);
    }

    fn append(&mut self, size: usize, rng: &mut Rng) {
        let (slice, bytes) = (self.streams.length(), rng.bytes(size));
        self.add(Call::Append { slice, bytes });
    }

    fn take(&mut self, child: usize, count: usize) {
        let slice = self.streams.length();
        self.add(Call::Take {
            slice,
            child,
            count,
        });
    }

    /// Each child takes so many, or all that waits for it.
    fn take_all(&mut self, most: usize) {
        for child in 0..self.streams.children() {
            self.take(child, self.streams.waits(child).min(most));
        }
    }

    fn case(self) -> Case {
        Case::Run {
            length: self.streams.length(),
            children: self.children,
            calls: self.calls,
            left: None,
        }
    }
}

/// A slice of 5 bytes and 2 children, by hand. A line has who takes, if anybody, the bytes,
/// and what is then left: the place and what waits, and the slice.
pub fn by_hand(_: &mut Rng) -> Vec<Case> {
    type Line = (Option<usize>, &'static [u8], [u64; 3], &'static [u8; 5]);
    let lines: [Line; 9] = [
        (None, b"abc", [3, 3, 3], b"abc.."),
        (Some(0), b"ab", [3, 1, 3], b"abc.."),
        (None, b"de", [0, 3, 5], b"abcde"),
        (Some(1), b"abcd", [0, 3, 1], b"abcde"),
        (None, b"fg", [2, 5, 3], b"fgcde"),
        (Some(0), b"cdefg", [2, 0, 3], b"fgcde"),
        (None, b"hi", [4, 2, 5], b"fghie"),
        (Some(1), b"efg", [4, 2, 2], b"fghie"),
        (Some(0), b"hi", [4, 0, 2], b"fghie"),
    ];
    let mut streams = Streams::start(b".....".to_vec(), 5, 2);
    let mut run = Run::new(5, 2);
    for (child, bytes, numbers, slice) in lines {
        let call = match child {
            None => Call::Append {
                slice: 5,
                bytes: bytes.to_vec(),
            },
            Some(child) => Call::Take {
                slice: 5,
                child,
                count: bytes.len(),
            },
        };
        let taken = if child.is_some() { bytes } else { &[] };
        assert_eq!(streams.number(&call), 0, "number by hand");
        assert_eq!(streams.make(&call), taken, "bytes by hand");
        assert_eq!(streams.words()[2..5], numbers, "numbers by hand");
        assert_eq!(streams.slice(), slice, "slice by hand");
        run.add(call);
    }
    vec![run.case()]
}

/// From each place of slices of up to 9 bytes each count of bytes, of which one child
/// takes each count and then the rest, another all at once; then as many as fit, and one
/// more. So each stretch of the slice is written and read, round the end or not.
pub fn every_place(rng: &mut Rng) -> Vec<Case> {
    let mut cases = Vec::new();
    for length in 1..=9 {
        for place in 0..length {
            for size in 0..=length {
                for part in 0..=size {
                    let mut run = Run::new(length, 2);
                    run.append(place, rng);
                    run.take_all(place);
                    run.append(size, rng);
                    run.take(1, part);
                    run.take(0, size + 1);
                    run.take(0, size);
                    run.append(length - size + part + 1, rng);
                    run.append(length - size + part, rng);
                    run.take(1, size - part);
                    run.take_all(length);
                    cases.push(run.case());
                }
            }
        }
    }
    cases
}

/// Slices of 0, 1 and 2 bytes with up to 2 children: each run of 4 calls, of sizes up to
/// one byte more than the slice. Without children 2 calls do.
pub fn every_few(rng: &mut Rng) -> Vec<Case> {
    let mut cases = Vec::new();
    for (length, children) in (0..=2).flat_map(|length| (0..=2).map(move |n| (length, n))) {
        let mut calls = Vec::new();
        for size in 0..=length + 1 {
            calls.push((None, size));
            // A child that isn't there takes too where there is no other.
            calls.extend((0..children.max(1)).map(|child| (Some(child), size)));
        }
        let (sorts, count) = (calls.len(), if children == 0 { 2 } else { 4 });
        for number in 0..sorts.pow(count) {
            let mut run = Run::new(length, children);
            for at in 0..count {
                match calls[number / sorts.pow(at) % sorts] {
                    (None, size) => run.append(size, rng),
                    (Some(child), size) => run.take(child, size),
                }
            }
            cases.push(run.case());
        }
    }
    cases
}

/// Calls of a store as it stands: appends and takes of sizes about what fits and waits, by
/// children that it has and by some that it hasn't, in slices as long as it says and as
/// long as the one there is.
fn any_calls(words: &Words, slice: usize, rng: &mut Rng) -> Vec<Call> {
    let mut slices = vec![slice];
    if words[0] != slice as u64 && words[0] <= LONGEST as u64 {
        slices.push(words[0] as usize);
    }
    let children = words[1].min(MOST_CHILDREN as u64) as usize;
    let mut calls = Vec::new();
    for slice in slices {
        let most = words[3..].iter().copied().max().unwrap_or(0);
        let free = (slice as u64).saturating_sub(most) as usize;
        let mut sizes = vec![0, 1, free, free + 1, slice + 1];
        sizes.sort_unstable();
        sizes.dedup();
        for size in sizes {
            let bytes = rng.bytes(size);
            calls.push(Call::Append { slice, bytes });
        }
        let mut takers = vec![0, children / 2, children.saturating_sub(1), children];
        takers.push(MOST_CHILDREN);
        takers.dedup();
        for child in takers {
            let waits = words.get(3 + child).copied().unwrap_or(0);
            let waits = waits.min(slice as u64) as usize;
            let mut counts = vec![0, 1, waits, waits + 1];
            counts.sort_unstable();
            counts.dedup();
            calls.extend(counts.into_iter().map(|count| Call::Take {
                slice,
                child,
                count,
            }));
        }
    }
    calls
}

/// A store as it stands in a slice of so many bytes.
fn stands(words: Words, slice: usize, rng: &mut Rng) -> Case {
    let calls = any_calls(&words, slice, rng);
    Case::Stands {
        words,
        slice: rng.bytes(slice),
        calls,
    }
}

/// Every store of small numbers, in slices of up to 3 bytes with up to 3 children, each
/// number up to one too many. Those that the clauses allow are just those that a search
/// over all calls finds, and calls by the library lead to each of them.
pub fn every_small(rng: &mut Rng) -> Vec<Case> {
    let mut cases = Vec::new();
    for (length, children) in (0..=3).flat_map(|length| (0..=3).map(move |n| (length, n))) {
        let left = every_left(length, children);
        let mut allowed = 0;
        let base = length as u64 + 2;
        for number in 0..base.pow(4) {
            let mut words = [0; STORE_WORDS];
            words[0] = length as u64;
            words[1] = children as u64;
            for at in 0..4 {
                words[2 + at] = number / base.pow(at as u32) % base;
            }
            let case = stands(words, length, rng);
            let possible = wrongs(&words).is_empty();
            assert_eq!(possible, left.contains(&words), "store of {words:?}");
            if let (true, Case::Stands { slice, .. }) = (possible, &case) {
                allowed += 1;
                cases.push(led_to(words, slice, children));
            }
            cases.push(case);
        }
        assert_eq!(allowed, left.len(), "every store that was found");
    }
    cases
}

/// A run to this store and this slice. Without children nothing is ever written.
fn led_to(words: Words, slice: &[u8], children: usize) -> Case {
    let left = Some((words, slice.to_vec())).filter(|_| children > 0);
    Case::Run {
        length: slice.len(),
        children,
        calls: Streams::of(&words, slice).calls(),
        left,
    }
}

/// Each count of children that matters, in slices of each length that does: what fits and
/// one byte more, each child in turn, several times round the slice, and children that
/// aren't there.
pub fn child_counts(rng: &mut Rng) -> Vec<Case> {
    let mut counts = vec![
        0, 1, 2, 3, 31, 32, 62, 63, 64, 65, 127, 128, 255, 256, 257, 65_538,
    ];
    counts.extend(FAR.map(|far| far as usize));
    let mut lengths = vec![0, 1, 2, 3, 63, 64, 65, 300];
    lengths.extend(FAR.map(|far| far as usize));
    let mut cases = Vec::new();
    for &children in &counts {
        for &length in &lengths {
            let mut run = Run::new(length, children.min(MOST_CHILDREN));
            run.children = children;
            let absent = [children, 62, 63, 64, usize::MAX];
            if length > LONGEST {
                // No slice is as long as this.
                for slice in [0, 1, 9] {
                    let bytes = rng.bytes(slice);
                    run.add(Call::Append { slice, bytes });
                    for child in [0, 62, 63] {
                        let count = slice;
                        run.add(Call::Take {
                            slice,
                            child,
                            count,
                        });
                    }
                }
                cases.push(run.case());
                continue;
            }
            // Not a divisor of most lengths, so that the places differ.
            for size in [length, length / 2 + 1, length / 3 + 1, 1] {
                run.append(size.min(length), rng);
                run.append(run.streams.free() + 1, rng);
                for child in absent {
                    run.take(child, size);
                    run.take(child, 0);
                }
                run.take_all(size / 2);
                run.append(run.streams.free(), rng);
                run.take_all(length);
            }
            cases.push(run.case());
        }
    }
    cases
}

/// Each child in turn behind all others, so that it alone leaves no space; then ahead of
/// them, so that any other does.
pub fn each_behind(rng: &mut Rng) -> Vec<Case> {
    let mut cases = Vec::new();
    for children in [1, 2, 3, 62, 63] {
        for behind in 0..children {
            let mut run = Run::new(9, children);
            run.append(4, rng);
            run.take_all(4);
            run.append(7, rng);
            let others = (0..children).filter(|&child| child != behind);
            others.for_each(|child| run.take(child, 7));
            for part in [0, 1, 3] {
                run.take(behind, part);
                run.append(run.streams.free() + 1, rng);
            }
            run.append(run.streams.free(), rng);
            run.take(behind, 9);
            run.append(1, rng);
            run.take_all(9);
            cases.push(run.case());
        }
    }
    cases
}

/// Long slices, each filled some times over in large parts.
pub fn large(rng: &mut Rng) -> Vec<Case> {
    let mut cases = Vec::new();
    for length in [4_096, 65_535, 65_536, 65_537, 1_048_583] {
        for children in [1, 3, 63] {
            let mut run = Run::new(length, children);
            let last = children - 1;
            for _ in 0..3 {
                run.append(length / 2 + rng.index(length / 4), rng);
                run.append(run.streams.free() + 1, rng);
                run.take(last, rng.index(run.streams.waits(last)));
                run.append(run.streams.free(), rng);
                run.take(last, run.streams.waits(last) + 1);
                // All at once by the last child, in turn by the others.
                run.take(last, run.streams.waits(last));
                let all = if children > 3 { 0 } else { length };
                run.take_all(all);
            }
            if children > 3 {
                run.take_all(length);
                run.append(length, rng);
                run.take(0, length);
                run.take(last, length);
            }
            cases.push(run.case());
        }
    }
    cases
}

/// Stores that calls leave, empty, full and between: the slice's length, the children, and
/// how many bytes are appended from the middle of the slice on.
const LEFT: [(usize, usize, usize); 12] = [
    (0, 0, 0),
    (0, 1, 0),
    (0, 63, 0),
    (1, 1, 0),
    (1, 2, 1),
    (2, 2, 1),
    (5, 0, 0),
    (5, 1, 5),
    (5, 3, 4),
    (9, 62, 0),
    (70, 62, 40),
    (70, 63, 70),
];

fn left((length, children, size): (usize, usize, usize), rng: &mut Rng) -> Run {
    let mut run = Run::new(length, children);
    run.append(length / 2, rng);
    run.take_all(length);
    run.append(size, rng);
    if children > 1 {
        run.take(0, size / 2);
        run.take(children - 1, size / 3);
    }
    run
}

/// Each number of such stores one lower and one higher, and the place, the children and
/// the counts at their bounds and one past them.
pub fn each_by_one(rng: &mut Rng) -> Vec<Case> {
    let mut cases = Vec::new();
    for sort in LEFT {
        let (length, words) = (sort.0, left(sort, rng).streams.words());
        for at in 0..STORE_WORDS {
            let most = if at == 1 {
                MOST_CHILDREN as u64
            } else {
                words[0]
            };
            let mut numbers = vec![words[at] + 1, words[at].saturating_sub(1)];
            numbers.extend([most.saturating_sub(1), most, most + 1]);
            numbers.sort_unstable();
            numbers.dedup();
            for number in numbers {
                let mut words = words;
                words[at] = number;
                cases.push(stands(words, length, rng));
            }
        }
    }
    cases
}

/// Such stores with slices of other lengths: all calls are refused, whatever they ask.
pub fn wrong_slices(rng: &mut Rng) -> Vec<Case> {
    let mut cases = Vec::new();
    for sort in LEFT {
        let mut run = left(sort, rng);
        let (length, free) = (sort.0, run.streams.free());
        for slice in [
            0,
            length.saturating_sub(1),
            length + 1,
            2 * length + 1,
            length + 64,
        ] {
            for size in [0, 1, free, free + 1, length + 2] {
                let bytes = rng.bytes(size);
                run.add(Call::Append { slice, bytes });
                for child in [0, 1, 62, 63] {
                    let count = size;
                    run.add(Call::Take {
                        slice,
                        child,
                        count,
                    });
                }
            }
        }
        // The run goes on as if they had not been made.
        run.append(free, rng);
        run.take_all(length);
        cases.push(run.case());
    }
    cases
}

/// A store with a number or two far from any slice's, and with all of them so.
pub fn extremes(rng: &mut Rng) -> Vec<Case> {
    let mut cases = Vec::new();
    for (length, children) in [(0, 0), (0, 1), (5, 0), (5, 1), (9, 2), (70, 62), (70, 63)] {
        let mut run = Run::new(length, children);
        run.append(length / 2 + 1, rng);
        run.take_all(length);
        run.append(length - length / 3, rng);
        let words = run.streams.words();
        cases.push(stands(words, length, rng));
        for far in FAR {
            let places = [
                0,
                1,
                2,
                3,
                3 + children / 2,
                2 + children.max(1),
                STORE_WORDS - 1,
            ];
            for first in places {
                for second in places {
                    let mut words = words;
                    words[first] = far;
                    words[second] = far;
                    cases.push(stands(words, length, rng));
                }
            }
            let mut counts = words;
            counts[3..].fill(far);
            // As much as is free and waits together wraps to little.
            let mut around = words;
            around[3] = far.wrapping_sub(length as u64).wrapping_add(1);
            cases.push(stands([far; STORE_WORDS], length, rng));
            cases.push(stands(counts, length, rng));
            cases.push(stands(around, length, rng));
        }
    }
    cases
}

/// How the calls of a run are drawn.
struct Taste {
    /// One in so many has a slice of another length or a child that isn't there.
    odd: u64,
    /// One in so many has any size, fitting or not; the others fit, and move bytes where
    /// any can be moved.
    any: u64,
}

const MIXED: Taste = Taste { odd: 8, any: 3 };

/// Adds the next call.
fn add_call(run: &mut Run, taste: &Taste, rng: &mut Rng) {
    let streams = &run.streams;
    let (length, children) = (streams.length(), streams.children());
    let [slice_odd, child_odd] = [(); 2].map(|()| rng.one_in(2 * taste.odd));
    let slices = [
        length + 1,
        length.saturating_sub(1),
        0,
        length + 8,
        2 * length,
    ];
    let slice = if slice_odd { rng.pick(&slices) } else { length };
    let any = rng.one_in(taste.any);
    let free = streams.free();
    // An empty store has nothing to take, a full one no room.
    let append = match any {
        true => rng.one_in(3),
        false => free > 0 && (free == length || rng.one_in(3)),
    };
    if append {
        let size = any_size(free, streams.to_end(), length, any, rng);
        let bytes = rng.bytes(size);
        run.add(Call::Append { slice, bytes });
        return;
    }
    let absent = [
        children,
        children + 1,
        63,
        64,
        256,
        1 << 16,
        1 << 32,
        usize::MAX,
    ];
    let each = rng.index(children.max(1));
    let child = match streams.last_child() {
        Some(last) if !child_odd => rng.pick(&[last, last, 0, children - 1, each, each]),
        _ => rng.pick(&absent),
    };
    let (waits, end) = match child < children {
        true => (streams.waits(child), streams.child_to_end(child)),
        false => (rng.index(length + 1), length),
    };
    let count = any_size(waits, end, length, any, rng);
    run.add(Call::Take {
        slice,
        child,
        count,
    });
}

/// A size that fits, or any, where so many bytes fit and so many places lie before the
/// end of the slice.
fn any_size(fits: usize, end: usize, length: usize, any: bool, rng: &mut Rng) -> usize {
    let within = rng.index(fits + 1);
    let over = (end + 1 + rng.index(length + 1)).min(fits);
    let sizes = [
        0,
        1,
        fits,
        fits + 1,
        end,
        end + 1,
        length,
        length + 2,
        within,
    ];
    match any {
        true => rng.pick(&sizes),
        false => rng.pick(&[fits, over, within, within, within, end.min(fits)]),
    }
}

fn drawn(length: usize, children: usize, taste: &Taste, rng: &mut Rng) -> Run {
    let mut run = Run::new(length, children.min(MOST_CHILDREN));
    run.children = children;
    for _ in 0..rng.within(1..=60) {
        add_call(&mut run, taste, rng);
    }
    run
}

fn any_length(rng: &mut Rng) -> usize {
    let most = rng.pick(&[0, 1, 2, 9, 9, 40, 40, 40, 300, 300]);
    match rng.below(64) {
        0 => rng.within(4_000..=4_200) as usize,
        _ => rng.within(most / 2..=most) as usize,
    }
}

fn any_children(rng: &mut Rng) -> usize {
    let any = rng.index(MOST_CHILDREN + 1);
    rng.pick(&[0, 0, 1, 1, 2, 2, 3, 4, any, any, any, 62, 63, 64])
}

/// A run in a small slice with few children, which goes round often.
pub fn small_run(rng: &mut Rng) -> Case {
    let (length, children) = (rng.index(13), 1 + rng.index(4));
    drawn(length, children, &MIXED, rng).case()
}

/// A run in any slice with any children.
pub fn any_run(rng: &mut Rng) -> Case {
    let (length, children) = (any_length(rng), any_children(rng));
    drawn(length, children, &MIXED, rng).case()
}

/// A run in which nearly all is answered.
pub fn full_run(rng: &mut Rng) -> Case {
    let taste = Taste { odd: 64, any: 16 };
    let (length, children) = (any_length(rng), 1 + rng.index(3));
    drawn(length, children, &taste, rng).case()
}

/// A run with many children, of which one is behind the others: all the rest take what
/// there is, and it holds them up.
pub fn many_children(rng: &mut Rng) -> Case {
    let children = rng.within(3..=MOST_CHILDREN as u64) as usize;
    let length = 1 + rng.index(100);
    let mut run = Run::new(length, children);
    let behind = rng.index(children);
    run.append(rng.index(length + 1), rng);
    let others = (0..children).filter(|&child| child != behind);
    for child in others.take(58) {
        run.take(child, run.streams.waits(child));
    }
    while run.calls.len() < 60 {
        add_call(&mut run, &MIXED, rng);
    }
    run.case()
}

/// The store that some run leaves, with one number of it changed by one or two, or none.
pub fn changed(rng: &mut Rng) -> Case {
    let (length, children) = (any_length(rng), any_children(rng).min(MOST_CHILDREN));
    let mut words = drawn(length, children, &MIXED, rng).streams.words();
    let child = 3 + rng.index(children.max(1));
    let absent = 3 + children + rng.index((MOST_CHILDREN - children).max(1));
    match rng.below(14) {
        0 => words[0] += 1,
        1 => words[0] = words[0].saturating_sub(1),
        2 => words[1] += 1,
        3 => words[1] = words[1].saturating_sub(1),
        4 => words[2] += 1,
        5 => words[2] = words[2].saturating_sub(1),
        6 => words[2] = words[0],
        7 => words[child] += 1,
        8 => words[child] = words[child].saturating_sub(1),
        9 => words[child] = words[0] + 1,
        10 => words[child] = words[0],
        11 => words[absent.min(STORE_WORDS - 1)] = 1,
        12 => words[1] = MOST_CHILDREN as u64 + 1,
        _ => {}
    }
    stands(words, length, rng)
}
