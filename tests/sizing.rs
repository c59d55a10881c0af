//! The rate question asked of the library, held against the brute-force search and
//! the independent implementation. Each answer is put back and asked about again.

use crate::answer::peak;
use crate::asking::{ask, kept, lengths};
use crate::job::Job;
use crate::lending::Lent;
use crate::library::{rate_question, RateAnswer};
use crate::problem::{equal, holds, same, Problem};
use crate::putting::put;
use crate::rules::Rules;
use crate::section::Tally;
use crate::{choice, lazy, reader, sizes_brute, writer};

/// Plans of more numbers are asked for only where a case says so.
const MOST_ASKED: usize = 40_000;

/// A job, or bytes that are none, and the length of the lent memories.
pub struct Case {
    pub bytes: Vec<u8>,
    job: Option<Job>,
    pub memories: usize,
    /// The number and, with 0, the delay, where the generator knows them.
    known: Option<(u64, u64)>,
    /// Whether the memory question is asked of the job put back, however large.
    asked: bool,
}

impl Case {
    /// A job with memories of the right length.
    pub fn job(job: Job) -> Self {
        let links = job.records.len();
        Case::lent(job, links)
    }

    /// A job with memories of this length.
    pub fn lent(job: Job, memories: usize) -> Self {
        Case {
            bytes: job.encode(),
            job: Some(job),
            memories,
            known: None,
            asked: false,
        }
    }

    /// Bytes that are no job, of which this refusal is known.
    pub fn broken(bytes: Vec<u8>, memories: usize, number: u64) -> Self {
        Case {
            bytes,
            job: None,
            memories,
            known: Some((number, 0)),
            asked: false,
        }
    }

    /// A job whose least delay is known; past 4,096 it is refused.
    pub fn known(job: Job, delay: u64) -> Self {
        let known = if delay > 4_096 { (13, 0) } else { (0, delay) };
        Case {
            known: Some(known),
            ..Case::job(job)
        }
    }

    /// The same case, its plan asked for after all.
    pub fn asked(self) -> Self {
        Case {
            asked: true,
            ..self
        }
    }
}

/// Compares one case.
pub fn check(case: &Case, tally: &mut Tally) -> Result<(), Problem> {
    let (number, sizes) = expected(case)?;
    let tiny = case.job.as_ref().filter(|job| sizes_brute::is_tiny(job));
    if let Some(job) = tiny.filter(|_| matches!(number, 0 | 13)) {
        search(job, case, &sizes, tally)?;
    }
    let (delay, total) = sizes.as_ref().map_or((0, 0), |s| (s.delay, s.total));
    for round in 0..2 {
        let (got, memories) = call(&case.bytes, case.memories, round)?;
        equal("number", number, got.number)?;
        equal("delay", delay, got.delay)?;
        equal("total", total, got.total)?;
        if let Some(sizes) = &sizes {
            same("memory of node", 1, &sizes.memories, memories.held())?;
        }
    }
    tally.value("number {}", number as usize);
    tally.one_if(
        "number and delay known by construction",
        case.known.is_some(),
    );
    if let (Some(job), Some(sizes)) = (&case.job, &sizes) {
        tally.value("answers", 0);
        tally.one_if("answers with delay 4,096", sizes.delay == 4_096);
        choice::count(job, sizes, tally);
        put_back(job, sizes, case.asked, tally)?;
    }
    Ok(())
}

/// Holds the library's answer and the independent sizes against the search.
fn search(
    job: &Job,
    case: &Case,
    sizes: &Option<lazy::Sizes>,
    tally: &mut Tally,
) -> Result<(), Problem> {
    let found = sizes_brute::search(job);
    tally.value("searched by brute force", 0);
    tally.one_if("searched, with a delay", found.is_some());
    let several = found.as_ref().is_some_and(|found| found.sets > 1);
    tally.one_if("searched, with several sets of least total", several);
    let independent = sizes.as_ref().map(|s| (s.delay, s.total, &s.memories[..]));
    as_found(&found, independent)
        .map_err(|problem| format!("brute force against the independent sizes: {problem}"))?;
    let (got, memories) = call(&case.bytes, case.memories, 0)?;
    let library = (got.number == 0).then_some((got.delay, got.total, memories.held()));
    as_found(&found, library)
        .map_err(|problem| format!("brute force against the library: {problem}"))
}

/// Puts an answer back, by the library and by the independent writer, and asks the
/// memory question of it, where its plan isn't too large or it is `asked` for.
fn put_back(job: &Job, sizes: &lazy::Sizes, asked: bool, tally: &mut Tally) -> Result<(), Problem> {
    let due = writer::put_back(job, sizes.delay, &sizes.memories);
    let (number, got) = put(&job.encode(), sizes.delay, &sizes.memories, 0)?;
    equal("number of putting back", 0, number)?;
    same("the job put back, byte", 0, &due.encode(), &got)?;
    tally.value("answers put back", 0);
    if asked || lengths(&due).0 <= MOST_ASKED {
        plan_within(job, &due, &got).map_err(|problem| format!("put back: {problem}"))?;
        tally.value("answers put back and asked about", 0);
    }
    Ok(())
}

/// Whether the memory question has a plan of the job put back, whose peaks are within
/// the rates of `job`.
fn plan_within(job: &Job, put: &Job, bytes: &[u8]) -> Result<(), Problem> {
    let (plan, links) = lengths(put);
    let (answer, plan, peaks) = ask(bytes, plan, links, 1)?;
    equal("number", 0, answer.number)?;
    let rules = Rules::new(put);
    let last = rules.last_slot();
    equal("last slot", last as u64, answer.last_slot)?;
    equal("total", rules.total(), answer.total)?;
    kept(put, plan.held())?;
    let rises: Vec<u64> = plan.held().chunks(last + 1).map(peak).collect();
    same("peak of node", 1, &rises, peaks.held())?;
    for (node, (rise, record)) in (1..).zip(rises.iter().zip(&job.records)) {
        let within = *rise <= record.rate;
        holds(
            &format!("peak {rise} of node {node} within its rate"),
            within,
        )?;
    }
    Ok(())
}

/// The number that is due, and the sizes where it is 0.
fn expected(case: &Case) -> Result<(u64, Option<lazy::Sizes>), Problem> {
    let read = reader::refusal(&case.bytes);
    let (number, sizes) = match &case.job {
        None => {
            assert!(read != 0, "the bytes of no job");
            (read, None)
        }
        Some(job) => {
            equal("number of a valid job", 0, read)?;
            match lazy::sizes(job) {
                _ if case.memories != job.records.len() => (11, None),
                None => (13, None),
                sizes => (0, sizes),
            }
        }
    };
    if let Some((known, delay)) = case.known {
        equal("independent number against the generator", known, number)?;
        let got = sizes.as_ref().map_or(0, |s| s.delay);
        equal("independent delay against the generator", delay, got)?;
    }
    Ok((number, sizes))
}

/// Whether a delay, a total and memories are what the search finds least.
fn as_found(
    found: &Option<sizes_brute::Found>,
    sizes: Option<(u64, u64, &[u64])>,
) -> Result<(), Problem> {
    equal("some delay serves", found.is_some(), sizes.is_some())?;
    let (Some(found), Some((delay, total, memories))) = (found, sizes) else {
        return Ok(());
    };
    equal("delay", found.delay, delay)?;
    equal("least total", found.total, total)?;
    same("least memory of node", 1, &found.memories, memories)
}

/// Asks the library. Guards, the job's bytes and, on a refusal, the lent words
/// must be as they were. The words and the alignment differ from round to round.
fn call(bytes: &[u8], memories: usize, round: usize) -> Result<(RateAnswer, Lent<u64>), Problem> {
    let mut job = Lent::bytes(bytes, round);
    let mut memories = Lent::output(memories, 1 + round as u64);

    let got = rate_question(job.part(), memories.part());

    holds("guard words kept", memories.guards_kept())?;
    holds("the job's bytes kept", job.untouched())?;
    if got.number != 0 {
        holds("lent words kept on a refusal", memories.untouched())?;
    }
    Ok((got, memories))
}
