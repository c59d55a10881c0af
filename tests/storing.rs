//! The byte store: runs of calls against whole streams, and stores as they stand.

use std::hash::Hash;

use crate::lending::Lent;
use crate::library::{store_append, store_start, store_take, STORE_WORDS};
use crate::problem::{equal, holds, same, Problem};
use crate::section::Kind::{self, Fixed, Random};
use crate::section::Wanted::{self, All};
use crate::section::{Count, Section, Tally, ONE};
use crate::stores;
use crate::streams::{wrongs, Call, Streams, Words, BAD_STORE, MOST_CHILDREN};

/// No slice is longer than this.
pub const LONGEST: usize = 1 << 21;

pub enum Case {
    /// Calls from a start on, each given the store and the slice that the one before
    /// left.
    Run {
        length: usize,
        children: usize,
        calls: Vec<Call>,
        /// What the last call leaves, where it is known by construction.
        left: Option<(Words, Vec<u8>)>,
    },
    /// Calls of a store as it stands, which others may have left or not; each is given
    /// this one.
    Stands {
        words: Words,
        slice: Vec<u8>,
        calls: Vec<Call>,
    },
}

pub struct Storing;

impl Section for Storing {
    type Case = Case;

    const NAME: &'static str = "byte store";
    const CASES: &'static str = "stores";
    const GATE: u64 = 25_000;
    const STREAM: u64 = 8_000;
    const KINDS: &'static [Kind<Case>] = &[
        Fixed("by hand", stores::by_hand),
        Fixed("every place", stores::every_place),
        Fixed("every few calls", stores::every_few),
        Fixed("every small store", stores::every_small),
        Fixed("each number by one", stores::each_by_one),
        Fixed("wrong slices", stores::wrong_slices),
        Fixed("child counts", stores::child_counts),
        Fixed("each child behind", stores::each_behind),
        Fixed("large", stores::large),
        Fixed("extremes", stores::extremes),
        Random("small runs", 320, |_, rng| stores::small_run(rng)),
        Random("any runs", 200, |_, rng| stores::any_run(rng)),
        Random("full runs", 200, |_, rng| stores::full_run(rng)),
        Random("many children", 110, |_, rng| stores::many_children(rng)),
        Random("changed by one", 170, |_, rng| stores::changed(rng)),
    ];
    /// Calls are counted once, not for each round.
    const COUNTS: &'static [Count] = &[
        ("stores", ONE, All(60_000)),
        ("runs", ONE, Wanted::Random(20_000)),
        ("calls of runs", ONE, Wanted::Random(500_000)),
        ("runs of 60 calls", ONE, Wanted::Random(200)),
        ("runs of {} children", 0..=MOST_CHILDREN, Wanted::Random(20)),
        ("runs in slices of {} bytes", 0..=2, Wanted::Random(500)),
        ("runs in slices of 4,096 bytes or more", ONE, All(60)),
        (
            "runs that fill the slice 3 times",
            ONE,
            Wanted::Random(3_000),
        ),
        ("runs to a store that is known", ONE, All(300)),
        ("start, number {}", 0..=0, Wanted::Random(19_000)),
        ("start, number {}", 17..=17, Wanted::Random(200)),
        ("append, number {}", 0..=0, Wanted::Random(100_000)),
        ("append, number {}", 17..=18, Wanted::Random(10_000)),
        ("append of nothing", ONE, Wanted::Random(5_000)),
        ("append that just fits", ONE, Wanted::Random(10_000)),
        ("append of one byte too many", ONE, Wanted::Random(5_000)),
        ("append of more than the slice", ONE, Wanted::Random(1_000)),
        ("append up to the end", ONE, Wanted::Random(5_000)),
        ("append round the end", ONE, Wanted::Random(10_000)),
        ("append refused in a full store", ONE, Wanted::Random(5_000)),
        (
            "append refused for child {} alone",
            0..=MOST_CHILDREN - 1,
            All(3),
        ),
        ("take, number {}", 0..=0, Wanted::Random(100_000)),
        ("take, number {}", 17..=17, Wanted::Random(20_000)),
        ("take, number {}", 19..=19, Wanted::Random(20_000)),
        ("take of nothing", ONE, Wanted::Random(5_000)),
        ("take of all that waits", ONE, Wanted::Random(10_000)),
        ("take of one byte too many", ONE, Wanted::Random(5_000)),
        ("take up to the end", ONE, Wanted::Random(5_000)),
        ("take round the end", ONE, Wanted::Random(10_000)),
        (
            "take by child {}",
            0..=MOST_CHILDREN - 1,
            Wanted::Random(50),
        ),
        (
            "take by a child that isn't there",
            ONE,
            Wanted::Random(5_000),
        ),
        ("slice one byte short", ONE, Wanted::Random(2_000)),
        ("slice one byte long", ONE, Wanted::Random(2_000)),
        ("no slice", ONE, Wanted::Random(2_000)),
        ("17 where 18 would follow", ONE, Wanted::Random(1_000)),
        ("17 where 19 would follow", ONE, Wanted::Random(2_000)),
        ("stands, could be left", ONE, Wanted::Random(500)),
        ("too many children", ONE, Wanted::Random(100)),
        ("place past the end", ONE, Wanted::Random(100)),
        ("place moved without children", ONE, Wanted::Random(20)),
        ("count above the length", ONE, Wanted::Random(100)),
        ("count of an absent child", ONE, Wanted::Random(100)),
        ("wrong in several ways", ONE, All(500)),
        ("calls of a store that stands", ONE, Wanted::Random(10_000)),
        ("number {} of a store that stands", 0..=0, All(1_000)),
        ("number {} of a store that stands", 17..=19, All(1_000)),
    ];

    fn key(case: &Case) -> impl Hash {
        match case {
            Case::Run {
                length,
                children,
                calls,
                ..
            } => (vec![*length as u64, *children as u64], None, calls.clone()),
            Case::Stands {
                words,
                slice,
                calls,
            } => (words.to_vec(), Some(slice.clone()), calls.clone()),
        }
    }

    /// The bytes that the calls append, one after the other.
    fn bytes(case: &Case) -> Vec<u8> {
        let (Case::Run { calls, .. } | Case::Stands { calls, .. }) = case;
        let appended = calls.iter().flat_map(|call| match call {
            Call::Append { bytes, .. } => &bytes[..],
            Call::Take { .. } => &[],
        });
        appended.copied().collect()
    }

    fn check(case: &Case, tally: &mut Tally) -> Result<bool, Problem> {
        match case {
            Case::Run {
                length,
                children,
                calls,
                left,
            } => {
                let said = |problem| format!("{length} bytes, {children} children: {problem}");
                let run = check_run(*length, *children, calls, tally).map_err(said)?;
                if let Some((words, slice)) = left {
                    same("word of the store known to be left", 0, words, &run.words())?;
                    same("byte of the slice known to be left", 0, slice, &run.slice())?;
                    tally.value("runs to a store that is known", 0);
                }
            }
            Case::Stands {
                words,
                slice,
                calls,
            } => {
                let end = words.iter().rposition(|&word| word != 0);
                let told = &words[..end.map_or(3, |last| 3.max(last + 1))];
                let said = |problem| format!("store of {told:?} and zeros: {problem}");
                check_stands(words, slice, calls, tally).map_err(said)?;
            }
        }
        Ok(true)
    }
}

/// Makes the calls from a start on, in two rounds; gives the streams after them.
fn check_run(
    length: usize,
    children: usize,
    calls: &[Call],
    tally: &mut Tally,
) -> Result<Streams, Problem> {
    let mut streams = start(length, 0, 0);
    for round in 0..2 {
        let mut words = check_start(length, children, round)?;
        let Some(store) = words.as_mut() else {
            continue;
        };
        streams = start(length, children, round);
        let mut slice = streams.slice();
        same("word of the store started", 0, &streams.words(), store)?;
        for (at, call) in calls.iter().enumerate() {
            if round == 0 {
                count(&streams, call, tally);
            }
            let lent = resized(&slice, call.slice());
            let after = compare(store, &lent, call, Some(&mut streams), round)
                .map_err(|problem| format!("call {at}, {call}: {problem}"))?;
            *store = after.0;
            // A slice of another length is no part of the run.
            if call.slice() == length {
                slice = after.1;
            }
            let wrong = wrongs(store);
            holds("a store that calls leave is told as one", wrong.is_empty())?;
        }
    }
    let started = children <= MOST_CHILDREN;
    tally.value("start, number {}", if started { 0 } else { 17 });
    tally.value("runs", 0);
    tally.add("calls of runs", 0, calls.len() as u64);
    tally.one_if("runs of 60 calls", calls.len() == 60);
    if started {
        tally.value("runs of {} children", children);
    }
    if length <= 2 {
        tally.value("runs in slices of {} bytes", length);
    }
    let long = (4_096..=LONGEST).contains(&length);
    tally.one_if("runs in slices of 4,096 bytes or more", long);
    let filled = length > 0 && streams.appended() / 3 >= length;
    tally.one_if("runs that fill the slice 3 times", filled);
    Ok(streams)
}

/// The streams at the start of a run. Where no slice is so long, one of 9 bytes is lent.
fn start(length: usize, children: usize, round: usize) -> Streams {
    let lent = if length <= LONGEST { length } else { 9 };
    // Other bytes than in the room for what is taken.
    let blank = Lent::room(lent, 1 - round).held().to_vec();
    Streams::start(blank, length, children)
}

/// A slice of another length, with the same bytes as far as they go.
fn resized(slice: &[u8], length: usize) -> Vec<u8> {
    let mut resized = slice.to_vec();
    resized.resize(length, 0x77);
    resized
}

/// Starts a store by the library, over any words: its words, where that isn't refused.
fn check_start(length: usize, children: usize, round: usize) -> Result<Option<Words>, Problem> {
    let mut store = Lent::output(STORE_WORDS, round as u64);
    let number = store_start(store.part(), length, children);
    let started = children <= MOST_CHILDREN;
    equal("start", if started { 0 } else { BAD_STORE }, number)?;
    holds("guards of the store started", store.guards_kept())?;
    if !started {
        holds("the store kept as its start is refused", store.untouched())?;
        return Ok(None);
    }
    Ok(Some(words(&store)))
}

fn words(store: &Lent<u64>) -> Words {
    let mut words = [0; STORE_WORDS];
    words.copy_from_slice(store.held());
    words
}

/// Makes a call of a store by the library, of which the model is given where calls could
/// leave it, and holds against it the number, what a child gets, the store and the slice
/// after it. Gives these two. What is lent is kept where the call is refused, and the
/// bytes appended and the slice of a take in any case; so are all guards.
fn compare(
    before: &Words,
    slice: &[u8],
    call: &Call,
    streams: Option<&mut Streams>,
    round: usize,
) -> Result<(Words, Vec<u8>), Problem> {
    let due = streams
        .as_ref()
        .map_or(BAD_STORE, |streams| streams.number(call));
    let mut store = Lent::words(before, round);
    let mut lent = Lent::bytes(slice, round);
    let mut other = match call {
        Call::Append { bytes, .. } => Lent::bytes(bytes, round),
        Call::Take { count, .. } => Lent::room(*count, round),
    };
    let number = match call {
        Call::Append { .. } => store_append(store.part(), lent.part(), other.part()),
        Call::Take { child, .. } => store_take(store.part(), lent.part(), *child, other.part()),
    };
    equal("number", due, number)?;
    let append = matches!(call, Call::Append { .. });
    let refused = number != 0;
    holds("guards of the store", store.guards_kept())?;
    holds("guards of the slice", lent.guards_kept())?;
    if let (0, Some(streams)) = (number, streams) {
        let bytes = streams.make(call);
        same("word of the store", 0, &streams.words(), store.held())?;
        match append {
            true => same("byte of the slice", 0, &streams.slice(), lent.held())?,
            false => same("byte taken", 0, &bytes, other.held())?,
        }
    }
    holds("the store kept", !refused || store.untouched())?;
    holds("the slice kept", append && !refused || lent.untouched())?;
    holds("guards of the bytes", other.guards_kept())?;
    holds("the bytes kept", !append && !refused || other.untouched())?;
    Ok((words(&store), lent.held().to_vec()))
}

/// Counts what a call of a store with these streams is.
fn count(streams: &Streams, call: &Call, tally: &mut Tally) {
    let number = streams.number(call) as usize;
    let (length, slice, size) = (streams.length(), call.slice(), call.size());
    let children = streams.children();
    tally.one_if("slice one byte short", slice.checked_add(1) == Some(length));
    tally.one_if("slice one byte long", length.checked_add(1) == Some(slice));
    tally.one_if("no slice", slice == 0 && length > 0);
    let answered = |is| is && number == 0;
    let refused = |is| is && number > 17;
    match call {
        Call::Append { .. } => {
            let (free, end) = (streams.free(), streams.to_end());
            let fits = |child: &usize| size <= length - streams.waits(*child);
            let mut tight = (0..children).filter(|child| !fits(child));
            tally.value("append, number {}", number);
            tally.one_if("append of nothing", answered(size == 0));
            tally.one_if("append that just fits", answered(size > 0 && size == free));
            tally.one_if("append of one byte too many", refused(size == free + 1));
            tally.one_if("append of more than the slice", refused(size > length));
            tally.one_if("append up to the end", answered(size > 0 && size == end));
            tally.one_if("append round the end", answered(size > end));
            tally.one_if("append refused in a full store", refused(free == 0));
            if let (true, Some(child), None) = (refused(children > 1), tight.next(), tight.next()) {
                tally.value("append refused for child {} alone", child);
            }
            tally.one_if("17 where 18 would follow", number == 17 && size > free);
        }
        Call::Take { child, .. } => {
            tally.value("take, number {}", number);
            if *child >= children {
                tally.value("take by a child that isn't there", 0);
                tally.one_if("17 where 19 would follow", size > 0);
                return;
            }
            let (waits, end) = (streams.waits(*child), streams.child_to_end(*child));
            tally.one_if("take of nothing", answered(size == 0));
            tally.one_if(
                "take of all that waits",
                answered(size > 0 && size == waits),
            );
            tally.one_if("take of one byte too many", refused(size == waits + 1));
            tally.one_if("take up to the end", answered(size > 0 && size == end));
            tally.one_if("take round the end", answered(size > end));
            tally.one_if("17 where 19 would follow", number == 17 && size > waits);
            if number == 0 {
                tally.value("take by child {}", *child);
            }
        }
    }
}

/// Makes each call of the store as it stands, in two rounds.
fn check_stands(
    words: &Words,
    slice: &[u8],
    calls: &[Call],
    tally: &mut Tally,
) -> Result<(), Problem> {
    let wrong = wrongs(words);
    for call in calls {
        let lent = resized(slice, call.slice());
        let fits = wrong.is_empty() && words[0] == call.slice() as u64;
        for round in 0..2 {
            let mut streams = fits.then(|| Streams::of(words, &lent));
            compare(words, &lent, call, streams.as_mut(), round)
                .map_err(|problem| format!("{call}: {problem}"))?;
        }
        let streams = fits.then(|| Streams::of(words, &lent));
        let number = streams.map_or(BAD_STORE, |streams| streams.number(call));
        tally.value("number {} of a store that stands", number as usize);
    }
    tally.add("calls of a store that stands", 0, calls.len() as u64);
    match wrong[..] {
        [] => tally.value("stands, could be left", 0),
        [alone] => tally.value(alone, 0),
        _ => tally.value("wrong in several ways", 0),
    }
    Ok(())
}
