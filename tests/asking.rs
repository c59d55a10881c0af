//! The memory question asked of the library, held against the brute-force search
//! and the independent planner.

use crate::answer::{peak, Answer};
use crate::job::Job;
use crate::lending::Lent;
use crate::library::{memory_question, MemoryAnswer};
use crate::problem::{equal, holds, same, Problem};
use crate::relax::{binding, Planner};
use crate::rules::Rules;
use crate::section::Tally;
use crate::{brute, reader};

/// A job, or bytes that are none, and the lengths of the lent outputs.
pub struct Case {
    pub bytes: Vec<u8>,
    job: Option<Job>,
    pub plan: usize,
    pub peaks: usize,
    /// Of a job too large for the whole search, links whose peaks are tried one lower.
    tried: Option<usize>,
}

impl Case {
    /// A job with outputs of the right lengths.
    pub fn job(job: Job) -> Self {
        let (plan, peaks) = lengths(&job);
        Case::lent(job, plan, peaks)
    }

    /// A job with outputs of these lengths.
    pub fn lent(job: Job, plan: usize, peaks: usize) -> Self {
        Case {
            job: Some(job.clone()),
            ..Case::broken(job.encode(), plan, peaks)
        }
    }

    /// Bytes that are no job.
    pub fn broken(bytes: Vec<u8>, plan: usize, peaks: usize) -> Self {
        Case {
            bytes,
            job: None,
            plan,
            peaks,
            tried: None,
        }
    }

    /// A job too large for the whole search.
    pub fn large(job: Job, tried: usize) -> Self {
        Case {
            tried: Some(tried),
            ..Case::job(job)
        }
    }
}

/// The right lengths of the plan and the peaks.
pub fn lengths(job: &Job) -> (usize, usize) {
    let links = job.records.len();
    (links * (Rules::new(job).last_slot() + 1), links)
}

/// Compares one case.
pub fn check(case: &Case, tally: &mut Tally) -> Result<(), Problem> {
    let number = match (&case.job, case.tried) {
        (Some(job), Some(tried)) => compare_large(job, &case.bytes, tried)?,
        _ => compare(case, tally)?,
    };
    tally.value("number {}", number as usize);
    let largest = number == 0 && case.plan == 63 * 69_633;
    tally.one_if("plans of 4,386,879 numbers", largest);
    Ok(())
}

/// Compares a job, or bytes that are none, with the planner, and gives the number.
fn compare(case: &Case, tally: &mut Tally) -> Result<u64, Problem> {
    let (number, answer) = expected(case, tally)?;
    let (last_slot, total) = answer.as_ref().map_or((0, 0), |a| (a.last_slot, a.total));
    for round in 0..2 {
        let (got, plan, peaks) = ask(&case.bytes, case.plan, case.peaks, round)?;
        equal("number", number, got.number)?;
        equal("last slot", last_slot, got.last_slot)?;
        equal("total", total, got.total)?;
        if let (Some(answer), Some(job)) = (&answer, &case.job) {
            filled(answer, plan.held(), peaks.held())?;
            kept(job, plan.held())?;
        }
    }
    if let (Some(answer), Some(job)) = (&answer, &case.job) {
        tally.one_if("accepted with P3 binding", binding(job, answer));
    }
    Ok(number)
}

/// The number that is due, and the answer where it is 0.
fn expected(case: &Case, tally: &mut Tally) -> Result<(u64, Option<Answer>), Problem> {
    let read = reader::refusal(&case.bytes);
    let Some(job) = &case.job else {
        assert!(read != 0, "the bytes of no job");
        return Ok((read, None));
    };
    equal("number of a valid job", 0, read)?;
    if (case.plan, case.peaks) != lengths(job) {
        return Ok((11, None));
    }
    let answer = Planner::new(job).answer();
    if brute::is_tiny(job) {
        let searched = brute::search(job);
        same_answer(&searched, &answer)
            .map_err(|problem| format!("brute force against the independent planner: {problem}"))?;
        tally.value("searched by brute force", 0);
        tally.one_if("searched, with a plan", searched.is_some());
    }
    Ok(match answer {
        Some(_) => (0, answer),
        None => (12, None),
    })
}

/// Compares a job too large for the whole search, and gives its number, 0: the answer
/// keeps the rules, its peaks are those of its rows, its rows are the least with those
/// peaks, no peak of `tried` links can be lower, and a second call says the same.
fn compare_large(job: &Job, bytes: &[u8], tried: usize) -> Result<u64, Problem> {
    let (plan_length, links) = lengths(job);
    let rules = Rules::new(job);
    let (got, plan, peaks) = ask(bytes, plan_length, links, 0)?;
    equal("number", 0, got.number)?;
    equal("last slot", rules.last_slot() as u64, got.last_slot)?;
    equal("total", rules.total(), got.total)?;
    kept(job, plan.held())?;

    let planner = Planner::new(job);
    let rows: Vec<Vec<u64>> = planner
        .least(peaks.held())
        .ok_or("no plan with these peaks")?
        .chunks(plan_length / links)
        .map(<[u64]>::to_vec)
        .collect();
    let answer = Answer {
        last_slot: got.last_slot,
        total: got.total,
        peaks: rows.iter().map(|row| peak(row)).collect(),
        rows,
    };
    filled(&answer, plan.held(), peaks.held())?;
    for i in 0..tried {
        let link = i * (links - 1) / (tried - 1).max(1);
        let peak = answer.peaks[link];
        let lower = peak > 0 && planner.can(link, peak - 1);
        holds(
            &format!("peak {peak} of node {} is least", link + 1),
            !lower,
        )?;
    }

    let (again, plan, peaks) = ask(bytes, plan_length, links, 1)?;
    holds("same numbers again", got == again)?;
    filled(&answer, plan.held(), peaks.held())?;
    Ok(0)
}

/// Asks the library. Guards, the job's bytes and, on a refusal, the lent words
/// must be as they were. The words and the alignment differ from round to round.
pub fn ask(
    bytes: &[u8],
    plan: usize,
    peaks: usize,
    round: usize,
) -> Result<(MemoryAnswer, Lent<u64>, Lent<u64>), Problem> {
    let mut job = Lent::bytes(bytes, round);
    let mut plan = Lent::output(plan, 1 + 2 * round as u64);
    let mut peaks = Lent::output(peaks, 2 + 2 * round as u64);

    let got = memory_question(job.part(), plan.part(), peaks.part());

    holds(
        "guard words kept",
        plan.guards_kept() && peaks.guards_kept(),
    )?;
    holds("the job's bytes kept", job.untouched())?;
    if got.number != 0 {
        let untouched = plan.untouched() && peaks.untouched();
        holds("lent words kept on a refusal", untouched)?;
    }
    Ok((got, plan, peaks))
}

/// Whether two answers are the same.
fn same_answer(one: &Option<Answer>, other: &Option<Answer>) -> Result<(), Problem> {
    equal("there is a plan", one.is_some(), other.is_some())?;
    if let (Some(one), Some(other)) = (one, other) {
        equal("last slot", one.last_slot, other.last_slot)?;
        equal("total", one.total, other.total)?;
        filled(one, &other.rows.concat(), &other.peaks)?;
    }
    Ok(())
}

/// Whether the lent words hold the answer.
fn filled(answer: &Answer, plan: &[u64], peaks: &[u64]) -> Result<(), Problem> {
    same("peak of node", 1, &answer.peaks, peaks)?;
    let slots = answer.last_slot as usize + 1;
    equal("length of the plan", answer.rows.len() * slots, plan.len())?;
    for (node, (row, part)) in (1..).zip(answer.rows.iter().zip(plan.chunks(slots))) {
        same(&format!("row of node {node}, slot"), 0, row, part)?;
    }
    Ok(())
}

/// Whether the plan keeps P1 to P3.
pub fn kept(job: &Job, plan: &[u64]) -> Result<(), Problem> {
    let slots = plan.len() / job.records.len();
    match Rules::new(job).broken(slots, |i, slot| plan[i * slots + slot]) {
        None => Ok(()),
        Some(slot) => Err(format!("P1 to P3 are broken at slot {slot}")),
    }
}
