//! Constant rates: the library against the brute-force search and the independent
//! lines.

use std::hash::Hash;

use crate::films;
use crate::job::Job;
use crate::lending::Lent;
use crate::library::constant_rates;
use crate::problem::{equal, holds, same, Problem};
use crate::reader;
use crate::section::Kind::{self, Fixed, Random};
use crate::section::Wanted::{All, Any};
use crate::section::{Count, Section, Tally, ONE};
use crate::steady::Film;
use crate::steady_brute::{all_tried, as_found, long_tried, serving};

/// The most rates of a call.
const MOST_RATES: usize = 8;

/// Lists of every length up to this, which is that for one rate too many, are lent.
pub const LONGEST_LIST: usize = 27;

/// Frame counts about which the library may go on in another way, and the greatest.
pub const LENGTHS: [usize; 5] = [64, 1_024, 4_097, 16_385, 65_536];

pub type Line = [u64; 3];

/// What a generator knows of the lines.
pub enum Known {
    Nothing,
    /// The least delay at the first rate, past 4,096 too.
    Delay(u64),
    All(Vec<Line>),
}

/// A job, or bytes that are none, the rates and the length of the lent list.
pub struct Case {
    pub bytes: Vec<u8>,
    pub rates: Vec<u64>,
    pub list: usize,
    /// The number, known by construction.
    pub number: u64,
    pub known: Known,
    /// Whether the search tries all delays up to the longest.
    pub long: bool,
}

impl Case {
    /// A job and rates with three numbers for each, all of which is right.
    pub fn new(job: &Job, rates: Vec<u64>) -> Self {
        Case {
            bytes: job.encode(),
            list: 3 * rates.len(),
            rates,
            number: 0,
            known: Known::Nothing,
            long: false,
        }
    }

    /// The same where something of the lines is known.
    pub fn knowing(self, known: Known) -> Self {
        Case { known, ..self }
    }
}

pub struct Sending;

impl Section for Sending {
    type Case = Case;

    const NAME: &'static str = "constant rates";
    const CASES: &'static str = "calls";
    const GATE: u64 = 28_000;
    const STREAM: u64 = 7_000;
    const KINDS: &'static [Kind<Case>] = &[
        Fixed("examples", films::examples),
        Fixed("every small film", films::every_small),
        Fixed("longest delays", films::longest_delays),
        Fixed("extremes", films::extremes),
        Fixed("long films", films::long),
        Fixed("one large frame", films::one_large),
        Fixed("counts and lists", films::counts_and_lists),
        Fixed("refusals in order", films::refusals),
        Random("tiny", 30, films::tiny),
        Random("films", 120, films::any),
        Random("borderline", 30, films::borderline),
        Random("faults", 36, films::faulty),
        Random("wrong counts", 12, films::wrong_count),
        Random("wrong lists", 12, films::wrong_list),
        Fixed("all at their bounds", films::all_at_bounds),
    ];
    const COUNTS: &'static [Count] = &[
        ("calls", ONE, All(20_000)),
        ("number {}", 0..=0, All(20_000)),
        ("number {}", 1..=11, All(300)),
        ("number {}", 16..=16, All(1_000)),
        ("1 to 10 with a wrong count of rates", ONE, All(300)),
        ("1 to 10 with a wrong list", ONE, All(300)),
        ("16 with a list of 3 for each rate", ONE, All(300)),
        ("16 with a list of another length", ONE, All(300)),
        ("16 for no rate", ONE, All(300)),
        ("16 for 9 rates", ONE, All(300)),
        ("16 for more", ONE, All(300)),
        (
            "11 for rates and length, pair {}",
            0..=WRONG_LISTS - 1,
            All(2),
        ),
        ("answers to {} rates", 1..=MOST_RATES, All(500)),
        ("answers of 0 and 13 mixed", ONE, All(3_000)),
        ("answers of 13 alone", ONE, All(100)),
        ("answers for {} frames", 63..=65, All(4)),
        ("answers for {} frames", 1_023..=1_025, All(4)),
        ("answers for {} frames", 4_096..=4_098, All(4)),
        ("answers for {} frames", 16_384..=16_386, All(4)),
        ("answers for {} frames", 65_535..=65_536, All(4)),
        ("lines of 0", ONE, All(20_000)),
        ("lines of 13", ONE, All(5_000)),
        ("lines of films of zeros", ONE, All(500)),
        ("lines of films of zeros at rate 0", ONE, All(50)),
        ("lines at rate 0", ONE, All(1_000)),
        ("lines at rate 1", ONE, All(1_000)),
        ("lines at the mean frame", ONE, All(1_000)),
        ("lines at the largest frame", ONE, All(1_000)),
        ("lines at T(M)", ONE, All(1_000)),
        ("lines at 2^64-1", ONE, All(1_000)),
        ("lines at the least rate that serves", ONE, All(1_000)),
        ("lines at one below it", ONE, All(1_000)),
        (
            "lines at a rate that runs over 64 bits to less than T(M)",
            ONE,
            All(1_000),
        ),
        ("lines with delay 0", ONE, All(1_000)),
        ("lines with a delay between", ONE, All(1_000)),
        ("lines with delay 4,096", ONE, All(500)),
        ("lines with memory 0", ONE, All(500)),
        ("lines with a memory between", ONE, All(1_000)),
        ("lines with memory T(M)", ONE, All(500)),
        ("lines known by construction", ONE, Any),
        ("lines searched by brute force", ONE, All(5_000)),
        ("searched, and no delay serves", ONE, All(300)),
    ];

    fn key(case: &Case) -> impl Hash {
        (&case.bytes, &case.rates, case.list)
    }

    fn bytes(case: &Case) -> Vec<u8> {
        case.bytes.clone()
    }

    fn check(case: &Case, tally: &mut Tally) -> Result<bool, Problem> {
        let asked = |problem| {
            let first = &case.rates[..case.rates.len().min(MOST_RATES + 1)];
            let rates = case.rates.len();
            format!("{rates} rates {first:?}, list of {}: {problem}", case.list)
        };
        check(case, tally).map_err(asked)?;
        Ok(true)
    }
}

/// Compares one case.
fn check(case: &Case, tally: &mut Tally) -> Result<(), Problem> {
    let number = due(case);
    let known = "independent number against the generator";
    equal(known, case.number, number)?;
    tally.value("number {}", number as usize);
    if number != 0 {
        for round in 0..2 {
            equal("number", number, call(case, round)?.0)?;
        }
        count_refusal(case, tally);
        return Ok(());
    }
    let frames = Job::decode(&case.bytes).frames;
    let film = Film::new(&frames);
    let lines: Vec<Line> = case.rates.iter().map(|&rate| film.line(rate)).collect();
    hold_known(&case.known, &lines, tally)?;
    search(case, &frames, &lines, tally)?;
    for round in 0..2 {
        let (got, list) = call(case, round)?;
        equal("number", 0, got)?;
        same("place in the list", 0, &lines.concat(), &list)?;
    }
    count_answer(&frames, &lines, tally);
    for (&rate, line) in case.rates.iter().zip(&lines) {
        count_line(*line, &film, tally);
        count_rate(rate, &film, &frames, tally);
        let serves = rate >= film.least_rate();
        equal(
            "independent line against the least rate",
            serves,
            line[0] == 0,
        )?;
    }
    Ok(())
}

/// The number that is due: the bytes' own refusal, then how many rates there are, and
/// the length of the list.
fn due(case: &Case) -> u64 {
    let read = reader::refusal(&case.bytes);
    if read != 0 {
        return read;
    }
    if case.rates.is_empty() || case.rates.len() > 8 {
        return 16;
    }
    if case.list != case.rates.len() * 3 {
        return 11;
    }
    0
}

/// Holds the independent lines against what the generator knows.
fn hold_known(known: &Known, lines: &[Line], tally: &mut Tally) -> Result<(), Problem> {
    let what = "independent line against the generator, number";
    let count = match known {
        Known::Nothing => 0,
        Known::Delay(delay) => {
            let due = if *delay > 4_096 { [13, 0] } else { [0, *delay] };
            same(what, 0, &due, &lines[0][..2])?;
            1
        }
        Known::All(due) => {
            same(what, 0, &due.concat(), &lines.concat())?;
            due.len()
        }
    };
    tally.add("lines known by construction", 0, count as u64);
    Ok(())
}

/// Holds the library's lines and the independent ones against the search, where the
/// film is small or the case says so.
fn search(case: &Case, frames: &[u32], lines: &[Line], tally: &mut Tally) -> Result<(), Problem> {
    let long = case.long.then(|| long_tried(frames));
    let Some(tried) = long.or_else(|| all_tried(frames)) else {
        return Ok(());
    };
    let (_, list) = call(case, 0)?;
    for ((&rate, line), got) in case.rates.iter().zip(lines).zip(list.chunks(3)) {
        let found = serving(frames, rate, &tried);
        as_found(&found, *line)
            .map_err(|problem| format!("brute force against the independent line: {problem}"))?;
        as_found(&found, [got[0], got[1], got[2]])
            .map_err(|problem| format!("brute force against the library: {problem}"))?;
        tally.value("lines searched by brute force", 0);
        tally.one_if("searched, and no delay serves", line[0] == 13);
    }
    Ok(())
}

/// Asks the library: its number and the list. Guards, the job's bytes, the rates and,
/// on a refusal, the list must be as they were. The words and the alignment differ from
/// round to round.
fn call(case: &Case, round: usize) -> Result<(u64, Vec<u64>), Problem> {
    let mut job = Lent::bytes(&case.bytes, round);
    let mut rates = Lent::words(&case.rates, round);
    let mut list = Lent::output(case.list, 1 + round as u64);

    let number = constant_rates(job.part(), rates.part(), list.part());

    holds("guard words kept", list.guards_kept())?;
    holds("the job's bytes kept", job.untouched())?;
    holds("the rates and their guards kept", rates.untouched())?;
    if number != 0 {
        holds("lent words kept on a refusal", list.untouched())?;
    }
    Ok((number, list.held().to_vec()))
}

/// Pairs of a count of rates that is taken and a length up to the longest that is not
/// that of its list.
const WRONG_LISTS: usize = MOST_RATES * LONGEST_LIST;

/// The place of such a pair among them.
fn wrong_list(rates: usize, list: usize) -> Option<usize> {
    let place = if list < 3 * rates { list } else { list - 1 };
    (list <= LONGEST_LIST).then_some((rates - 1) * LONGEST_LIST + place)
}

/// Counts what a refused call came to.
fn count_refusal(case: &Case, tally: &mut Tally) {
    let rates = case.rates.len();
    let wrong_count = rates == 0 || rates > MOST_RATES;
    let fits = case.list == 3 * rates;
    match case.number {
        16 => {
            tally.one_if("16 with a list of 3 for each rate", fits);
            tally.one_if("16 with a list of another length", !fits);
            tally.one_if("16 for no rate", rates == 0);
            tally.one_if("16 for 9 rates", rates == 9);
            tally.one_if("16 for more", rates > 9);
        }
        11 => {
            if let Some(pair) = wrong_list(rates, case.list) {
                tally.value("11 for rates and length, pair {}", pair);
            }
        }
        _ => {
            tally.one_if("1 to 10 with a wrong count of rates", wrong_count);
            tally.one_if("1 to 10 with a wrong list", !fits && !wrong_count);
        }
    }
}

/// Counts what an answered call came to.
fn count_answer(frames: &[u32], lines: &[Line], tally: &mut Tally) {
    let served = lines.iter().filter(|line| line[0] == 0).count();
    tally.value("answers to {} rates", lines.len());
    let mixed = served > 0 && served < lines.len();
    tally.one_if("answers of 0 and 13 mixed", mixed);
    tally.one_if("answers of 13 alone", served == 0);
    if LENGTHS
        .iter()
        .any(|length| length.abs_diff(frames.len()) <= 1)
    {
        tally.value("answers for {} frames", frames.len());
    }
}

/// Counts what a line came to.
fn count_line([number, delay, memory]: Line, film: &Film, tally: &mut Tally) {
    tally.one_if("lines of 0", number == 0);
    tally.one_if("lines of 13", number == 13);
    tally.one_if("lines of films of zeros", film.total() == 0);
    if number == 0 && film.total() > 0 {
        tally.one_if("lines with delay 0", delay == 0);
        tally.one_if("lines with a delay between", (1..4_096).contains(&delay));
        tally.one_if("lines with delay 4,096", delay == 4_096);
        tally.one_if("lines with memory 0", memory == 0);
        tally.one_if(
            "lines with a memory between",
            (1..film.total()).contains(&memory),
        );
        tally.one_if("lines with memory T(M)", memory == film.total());
    }
}

/// Counts which rate it was for its film.
fn count_rate(rate: u64, film: &Film, frames: &[u32], tally: &mut Tally) {
    let (total, least) = (film.total(), film.least_rate());
    if total == 0 {
        tally.one_if("lines of films of zeros at rate 0", rate == 0);
        return;
    }
    tally.one_if("lines at rate 0", rate == 0);
    tally.one_if("lines at rate 1", rate == 1);
    tally.one_if("lines at the mean frame", rate == films::mean(frames));
    tally.one_if("lines at the largest frame", rate == films::largest(frames));
    tally.one_if("lines at T(M)", rate == total);
    tally.one_if("lines at 2^64-1", rate == u64::MAX);
    tally.one_if("lines at the least rate that serves", rate == least);
    tally.one_if("lines at one below it", least.checked_sub(1) == Some(rate));
    let runs_over = |slot: u64| rate.checked_mul(slot).is_none() && rate.wrapping_mul(slot) < total;
    let small = rate > total && (2..=frames.len() as u64).any(runs_over);
    tally.one_if(
        "lines at a rate that runs over 64 bits to less than T(M)",
        small,
    );
}
