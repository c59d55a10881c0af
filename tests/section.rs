//! A section of the harness: cases of several kinds, each held against the library,
//! counted and reported.
//!
//! A new section costs a file with:
//!
//! 1. its case: what is lent to the library, and what the generator knows of the answer;
//! 2. its check of one case: what is due by independent code, the library called in two
//!    rounds (`lending.rs`), the first difference as a `Problem` (`problem.rs`), and a
//!    count of what the case came to;
//! 3. its generators, each a function that gives a list of fixed cases or one random case;
//! 4. its `impl Section`: the tables of its kinds and of what is counted, with the least
//!    counts that the gate demands.
//!
//! It goes into `SECTIONS` in `main.rs`, and into the table of docs/TESTING.md. All else
//! is here: shares, seeds, cases met again, counts, the report, the least counts.

use std::collections::{BTreeMap, HashSet};
use std::hash::{DefaultHasher, Hash, Hasher};
use std::ops::RangeInclusive;

use crate::problem::{holds, Problem};
use crate::rng::Rng;

/// Most bytes of a case that are printed.
const HEX_BYTES: usize = 4_096;

/// A row of more counts than this is reported by the least of them.
const MOST_SHOWN: usize = 20;

/// What a section is.
pub trait Section {
    type Case: 'static;

    const NAME: &'static str;
    /// What its cases are called; of each that passes, one is counted under this name.
    const CASES: &'static str;
    /// Random cases in the gate.
    const GATE: u64;
    /// The first of the thousand streams of random numbers that are its own. The kinds
    /// have them in turn, so that a new kind at the end leaves the others theirs.
    const STREAM: u64;
    const KINDS: &'static [Kind<Self::Case>];
    const COUNTS: &'static [Count];

    /// Whether it can be run: false where it is left out.
    fn ready(_random: u64) -> Result<bool, Problem> {
        Ok(true)
    }

    /// What makes a case the same as another; one met again is left out.
    fn key(case: &Self::Case) -> impl Hash;

    /// The bytes of a case's job, for whoever looks into a problem.
    fn bytes(case: &Self::Case) -> Vec<u8>;

    /// Holds the library against what is due. False leaves the case out.
    fn check(case: &Self::Case, tally: &mut Tally) -> Result<bool, Problem>;
}

/// A kind of cases with its name.
pub enum Kind<C> {
    /// As many as there are.
    Fixed(&'static str, fn(&mut Rng) -> Vec<C>),
    /// Random ones, with their share among the other random kinds. Each is made with its
    /// number.
    Random(&'static str, u64, fn(u64, &mut Rng) -> C),
}

/// What is counted: its name, in which {} stands for the value, the values, and how
/// often each is wanted.
pub type Count = (&'static str, RangeInclusive<usize>, Wanted);

/// The value of what has none.
pub const ONE: RangeInclusive<usize> = 0..=0;

#[derive(Clone, Copy)]
pub enum Wanted {
    Any,
    /// So many in all.
    All(u64),
    /// So many among the random cases.
    Random(u64),
    /// So many of every 100 that are counted under this name, in all.
    Share(u64, &'static str),
    /// The same among the random cases.
    RandomShare(u64, &'static str),
}

/// How often something was met.
#[derive(Clone, Copy, Default)]
pub struct Met {
    pub random: u64,
    pub all: u64,
}

/// What the cases of a section came to.
#[derive(Default)]
pub struct Tally {
    random: bool,
    counts: BTreeMap<(&'static str, usize), Met>,
}

impl Tally {
    pub fn add(&mut self, what: &'static str, value: usize, more: u64) {
        let met = self.counts.entry((what, value)).or_default();
        met.all += more;
        met.random += if self.random { more } else { 0 };
    }

    /// Counts a value.
    pub fn value(&mut self, what: &'static str, value: usize) {
        self.add(what, value, 1);
    }

    /// Counts what has no values, where it is so.
    pub fn one_if(&mut self, what: &'static str, is: bool) {
        self.add(what, 0, u64::from(is));
    }

    pub fn met(&self, what: &'static str, value: usize) -> Met {
        self.counts.get(&(what, value)).copied().unwrap_or_default()
    }
}

impl Wanted {
    /// Which count is looked at, and how much of it is wanted.
    fn of(self, met: Met, tally: &Tally) -> (u64, u64) {
        let share = |percent: u64, base: u64| (percent * base).div_ceil(100);
        match self {
            Wanted::Any => (met.all, 0),
            Wanted::All(wanted) => (met.all, wanted),
            Wanted::Random(wanted) => (met.random, wanted),
            Wanted::Share(percent, base) => (met.all, share(percent, tally.met(base, 0).all)),
            Wanted::RandomShare(percent, base) => {
                (met.random, share(percent, tally.met(base, 0).random))
            }
        }
    }
}

/// `total` in parts as the shares say; they add up to it, where some share is above 0.
pub fn split(total: u64, shares: &[u64]) -> Vec<u64> {
    let all = shares.iter().sum::<u64>().max(1);
    let up_to = |share: u64| (u128::from(total) * u128::from(share) / u128::from(all)) as u64;
    let mut end = 0;
    let part = |&share: &u64| {
        let start = end;
        end += share;
        up_to(end) - up_to(start)
    };
    shares.iter().map(part).collect()
}

/// What a section comes to.
pub struct Outcome {
    /// Cases that passed.
    pub passed: u64,
    /// Whether none failed, and the least counts were met.
    pub well: bool,
}

/// Compares all cases of a section, `random` of them random.
pub fn run<S: Section>(random: u64, seed: u64) -> Outcome {
    let mut tally = Tally::default();
    let well = all_well::<S>(random, seed, &mut tally).unwrap_or_else(|problem| {
        println!("{}: {problem}", S::NAME);
        false
    });
    let passed = tally.met(S::CASES, 0).all;
    Outcome { passed, well }
}

fn all_well<S: Section>(random: u64, seed: u64, tally: &mut Tally) -> Result<bool, Problem> {
    println!(
        "{}: seed {seed:#018x}, random {} asked for {random}",
        S::NAME,
        S::CASES
    );
    if !S::ready(random)? {
        println!("{}: LEFT OUT", S::NAME);
        return Ok(true);
    }
    println!(
        "{:<22}{:>20}{:>10}{:>10}",
        "kind",
        "seed",
        S::CASES,
        "left out"
    );
    let shares: Vec<u64> = S::KINDS.iter().map(Kind::share).collect();
    let (mut seen, mut drawn) = (HashSet::new(), 0);
    for ((kind, count), index) in S::KINDS.iter().zip(split(random, &shares)).zip(S::STREAM..) {
        let seed = Rng::stream_seed(seed, index);
        tally.random = matches!(kind, Kind::Random(..));
        let (met, left_out) = compare::<S>(kind, count, seed, &mut seen, tally)?;
        drawn += if tally.random { met + left_out } else { 0 };
        println!("{:<22}{seed:>#20x}{met:>10}{left_out:>10}", kind.name());
    }
    assert_eq!(drawn, random, "random cases drawn and asked for");
    report::<S>(tally);
    Ok(least_counts::<S>(random, tally).met())
}

impl<C> Kind<C> {
    fn name(&self) -> &'static str {
        match self {
            Kind::Fixed(name, _) | Kind::Random(name, ..) => name,
        }
    }

    fn share(&self) -> u64 {
        match self {
            Kind::Fixed(..) => 0,
            Kind::Random(_, share, _) => *share,
        }
    }

    /// Its cases, `count` of them where they are random.
    fn cases(&self, count: u64, mut rng: Rng) -> Box<dyn Iterator<Item = C> + '_> {
        match self {
            Kind::Fixed(_, make) => Box::new(make(&mut rng).into_iter()),
            Kind::Random(_, _, make) => Box::new((0..count).map(move |i| make(i, &mut rng))),
        }
    }
}

/// Compares the cases of one kind: how many passed, and how many were left out.
fn compare<S: Section>(
    kind: &Kind<S::Case>,
    count: u64,
    seed: u64,
    seen: &mut HashSet<u64>,
    tally: &mut Tally,
) -> Result<(u64, u64), Problem> {
    let (mut met, mut left_out) = (0, 0);
    for (i, case) in kind.cases(count, Rng::new(seed)).enumerate() {
        let said = |problem| {
            let place = format!("kind \"{}\", seed {seed:#018x}, case {i}", kind.name());
            format!("{place}: {problem}\n{}", shown(&S::bytes(&case)))
        };
        let mut hasher = DefaultHasher::new();
        S::key(&case).hash(&mut hasher);
        if seen.insert(hasher.finish()) && S::check(&case, tally).map_err(said)? {
            tally.value(S::CASES, 0);
            met += 1;
        } else {
            left_out += 1;
        }
    }
    Ok((met, left_out))
}

/// Bytes in hexadecimal digits, the first of them where they are many.
fn shown(bytes: &[u8]) -> String {
    let first = &bytes[..bytes.len().min(HEX_BYTES)];
    let digits: String = first.iter().map(|byte| format!("{byte:02x}")).collect();
    format!(
        "{} bytes, the first {}:\n{digits}",
        bytes.len(),
        first.len()
    )
}

fn label(what: &str, value: usize) -> String {
    what.replace("{}", &value.to_string())
}

fn report<S: Section>(tally: &Tally) {
    for (what, value) in tally.counts.keys() {
        let told = |(name, values, _): &Count| name == what && values.contains(value);
        assert!(
            S::COUNTS.iter().any(told),
            "{} is counted and not told",
            label(what, *value)
        );
    }
    println!("{:<60}{:>10}{:>10}", "counted", "random", "all");
    for (what, values, _) in S::COUNTS {
        let mut rows: Vec<usize> = values.clone().collect();
        let mut note = String::new();
        if rows.len() > MOST_SHOWN {
            rows.sort_by_key(|&value| tally.met(what, value).all);
            note = format!(", the least of {}", rows.len());
            rows.truncate(1);
        }
        for value in rows {
            let Met { random, all } = tally.met(what, value);
            println!("{:<60}{random:>10}{all:>10}", label(what, value) + &note);
        }
    }
}

fn least_counts<S: Section>(random: u64, tally: &Tally) -> Least {
    let mut least = Least::new(random, S::GATE);
    for (what, values, wanted) in S::COUNTS {
        for value in values.clone() {
            let (count, wanted) = wanted.of(tally.met(what, value), tally);
            least.of(&label(what, value), count, wanted);
        }
    }
    least
}

/// The least counts of a section. They are demanded of a run as large as the gate's,
/// and a smaller one says that they are not.
struct Least {
    asked: u64,
    gate: u64,
    missed: Vec<String>,
}

impl Least {
    /// Of a section that is asked for so many random cases, by the gate for `gate`.
    fn new(asked: u64, gate: u64) -> Self {
        let missed = Vec::new();
        Least {
            asked,
            gate,
            missed,
        }
    }

    /// One count.
    fn of(&mut self, what: &str, count: u64, wanted: u64) {
        if count < wanted {
            let missed = format!("{what}: {count}, at least {wanted} wanted");
            self.missed.push(missed);
        }
    }

    fn demanded(&self) -> bool {
        self.asked >= self.gate
    }

    fn enough(&self) -> bool {
        !self.demanded() || self.missed.is_empty()
    }

    /// Whether all that is demanded was met; says what was not.
    fn met(self) -> bool {
        if self.demanded() {
            self.missed.iter().for_each(|missed| println!("{missed}"));
        } else {
            println!(
                "least counts not demanded: {} asked for, fewer than the gate's {}; missed: {}",
                self.asked,
                self.gate,
                self.missed.len()
            );
        }
        self.enough()
    }
}

/// Holds the functions above against values by hand, and sees that each section has
/// streams of its own, of which these are the first.
pub fn check<const SECTIONS: usize>(mut streams: [u64; SECTIONS]) {
    streams.sort_unstable();
    let apart = streams.windows(2).all(|pair| pair[1] - pair[0] >= 1_000);
    assert!(apart, "streams of each section: {streams:?}");
    assert_eq!(split(10, &[1, 1, 1]), [3, 3, 4], "parts that differ by one");
    assert_eq!(
        split(7, &[0, 2, 5]),
        [0, 2, 5],
        "parts as large as the shares"
    );
    assert_eq!(split(u64::MAX, &[1]), [u64::MAX], "the most");
    assert_eq!(split(0, &[0, 0]), [0, 0], "none, where no kind is random");
    for (asked, count, enough) in [(9, 4, true), (10, 4, false), (11, 4, false), (10, 5, true)] {
        let mut least = Least::new(asked, 10);
        least.of("cases", count, 5);
        assert_eq!(least.enough(), enough, "{asked} asked for, {count} met");
    }
    check_wanted();
    // Two numbers pass, the third is bad; all pass, and there are too few.
    for (outcome, passed) in [(run::<Toy<3>>(0, 0), 2), (run::<Toy<9>>(0, 0), 3)] {
        assert_eq!(
            (outcome.passed, outcome.well),
            (passed, false),
            "a toy that must fail"
        );
    }
}

/// A section that must fail, at its bad number or else as it has too few.
struct Toy<const BAD: u64>;

impl<const BAD: u64> Section for Toy<BAD> {
    type Case = u64;

    const NAME: &'static str = "toy, which must fail";
    const CASES: &'static str = "numbers";
    const GATE: u64 = 0;
    const STREAM: u64 = 0;
    const KINDS: &'static [Kind<u64>] = &[Kind::Fixed("numbers", |_| vec![1, 1, 2, 3])];
    const COUNTS: &'static [Count] = &[("numbers", ONE, Wanted::All(4))];

    fn key(case: &u64) -> impl Hash {
        *case
    }

    fn bytes(case: &u64) -> Vec<u8> {
        case.to_be_bytes().to_vec()
    }

    fn check(case: &u64, _: &mut Tally) -> Result<bool, Problem> {
        holds("good number", *case != BAD)?;
        Ok(true)
    }
}

fn check_wanted() {
    let mut tally = Tally::default();
    tally.add("cases", 0, 7);
    tally.random = true;
    tally.add("cases", 0, 4);
    let met = tally.met("cases", 0);
    for (wanted, due) in [
        (Wanted::Any, (11, 0)),
        (Wanted::All(9), (11, 9)),
        (Wanted::Random(9), (4, 9)),
        // 30 of every 100: 3.3 of 11, 1.2 of 4.
        (Wanted::Share(30, "cases"), (11, 4)),
        (Wanted::RandomShare(30, "cases"), (4, 2)),
    ] {
        assert_eq!(wanted.of(met, &tally), due, "what is wanted");
    }
    assert_eq!(tally.met("cases", 1).all, 0, "what was never counted");
    assert_eq!(label("number {} of all", 12), "number 12 of all", "a label");
}
