//! The running tree: steps of the library against the independent model.

use std::hash::Hash;

use crate::asking::lengths;
use crate::edges::example_jobs;
use crate::faults::{one_or_two, with_faults};
use crate::job::{Job, Record, GREATEST_AMOUNT, GREATEST_DELAY, GREATEST_FRAME, MOST_NODES};
use crate::library::{memory_question, Running, PLACES};
use crate::problem::Problem;
use crate::rng::Rng;
use crate::rules::Rules;
use crate::section::Kind::{self, Fixed, Random};
use crate::section::{Count, Section, Tally, Wanted, ONE};
use crate::shapes::{at_bounds, few_frames, Shape, SHAPES, TREES_OF_2, TREES_OF_3, TREES_OF_4};
use crate::stepping::{self, due, Breach, Case, Due, BROKEN, DONE, TAKEN, WRONG_LENGTH};
use crate::trees;

/// Least count of foreign plans that keep the rules, and of those that do not.
const LEAST_FOREIGN: u64 = 500;

/// Random jobs whose plans are run to the end.
const PLANNED: u64 = 500;

/// Numbers at the edges of 64 bits.
const WORDS: [u64; 6] = [0, 1, 1 << 63, (1 << 63) - 1, u64::MAX - 1, u64::MAX];

pub struct Steps;

impl Section for Steps {
    type Case = Case;

    const NAME: &'static str = "running tree";
    const CASES: &'static str = "steps";
    const GATE: u64 = 60_000;
    const STREAM: u64 = 2_000;
    const KINDS: &'static [Kind<Case>] = &[
        Fixed("examples", examples),
        Fixed("each way to break", each_breach),
        Fixed("refusals in order", refusals),
        Fixed("foreign plans", foreign),
        Fixed("planned jobs", planned),
        Fixed("largest", |rng| largest(trees::largest(rng), rng)),
        Random("fitting", 250, |_, rng| fitting(rng)),
        Random("changed", 450, |_, rng| changed(rng)),
        Random("anything", 100, |_, rng| anything(rng)),
        Random("slots past the last", 50, |_, rng| past(rng)),
        Random("wrong lengths", 75, wrong_length),
        Random("faults", 75, faulty),
        Fixed("all at their bounds", |rng| {
            largest(at_bounds(Shape::Random, rng), rng)
        }),
    ];
    /// Numbers are those of taken (0), refused, broken (14) and done (100) steps.
    const COUNTS: &'static [Count] = &[
        ("steps", ONE, Wanted::Random(50_000)),
        ("number {}", 0..=0, Wanted::Random(1_000)),
        ("number {}", 1..=10, Wanted::Random(100)),
        ("number {}", 11..=11, Wanted::Random(1_000)),
        ("number {}", 14..=14, Wanted::Random(1_000)),
        ("number {}", 100..=100, Wanted::Random(1_000)),
        ("falls, alone", ONE, Wanted::Random(500)),
        ("passes all frames, alone", ONE, Wanted::Random(500)),
        ("starves, alone", ONE, Wanted::Random(500)),
        ("overflows, alone", ONE, Wanted::Random(500)),
        ("child ahead, alone", ONE, Wanted::Random(500)),
        ("parent ahead, alone", ONE, Wanted::Random(500)),
    ];

    fn key(case: &Case) -> impl Hash {
        (&case.bytes, &case.tree, &case.plan, case.sent, case.held)
    }

    fn bytes(case: &Case) -> Vec<u8> {
        case.bytes.clone()
    }

    fn check(case: &Case, tally: &mut Tally) -> Result<bool, Problem> {
        stepping::check(case, tally)
            .map_err(|problem| format!("slot number {}: {problem}", case.tree.slot))?;
        Ok(true)
    }
}

/// The library's plan of `job`, if there is one.
fn plan_of(job: &Job) -> Option<Vec<u64>> {
    let (plan, links) = lengths(job);
    let (mut plan, mut peaks) = (vec![0; plan], vec![0; links]);
    let mut bytes = job.encode();
    let parts = (0..bytes.len(), 0..plan.len());
    let answer = memory_question(
        (&mut bytes, parts.0),
        (&mut plan, parts.1),
        (&mut peaks, 0..links),
    );
    (answer.number == 0).then_some(plan)
}

/// The steps of a plan from the first tree on. Of its columns `taken` are taken, no node
/// then holds more than its memory, and the next step has the number `last`.
fn run_plan(job: &Job, plan: Vec<u64>, taken: usize, last: u64) -> Vec<Case> {
    let mut case = Case::new(job.clone(), Running::start(), plan);
    let mut cases = Vec::new();
    for slot in 1..=taken as u64 {
        let before = case.tree;
        cases.push(case.known(TAKEN));
        case.tree = case.after();
        assert_eq!(case.tree.slot, slot, "the model's slot number");
        let within = within_memories(job, &before, &case.tree);
        assert!(within, "the model holds bytes within the memories");
    }
    cases.push(case.known(last));
    cases
}

/// Whether, after a step, each node holds at most its memory: what came in less
/// what went out, on the way that lags most, or was played.
fn within_memories(job: &Job, before: &Running, after: &Running) -> bool {
    let rules = Rules::new(job);
    job.records.iter().zip(1..).all(|(record, node)| {
        let own = after.carried[node];
        let children = (1..=job.records.len())
            .filter(|&child| usize::from(job.records[child - 1].parent) == node);
        let out = children
            .map(|child| after.carried[child])
            .min()
            .unwrap_or_else(|| rules.played(node, after.slot as usize));
        own >= before.carried[node] && own >= out && own - out <= record.memory
    })
}

/// The first three examples, run to the end; their plans are the document's.
fn examples(_: &mut Rng) -> Vec<Case> {
    let [first, second, third, ..] = example_jobs();
    let rows: [(Job, &[u64]); 3] = [
        (first, &[0, 7, 14, 15, 0, 7, 14, 15, 0, 7, 14, 15]),
        (second, &[0, 7, 14, 15, 0, 4, 14, 15, 0, 7, 14, 15]),
        (
            third,
            &[0, 7, 14, 15, 15, 0, 4, 14, 15, 15, 0, 5, 10, 14, 15],
        ),
    ];
    let run = |(job, rows): (Job, &[u64])| {
        let plan = plan_of(&job).unwrap_or_default();
        assert_eq!(plan, rows, "the plan is the document's");
        run_plan(&job, plan, Rules::new(&job).last_slot(), DONE)
    };
    rows.into_iter().flat_map(run).collect()
}

/// A slot number, carried bytes and a column.
type Column = (u64, [u64; 3], [u64; 3]);

/// Tree Q with a column that breaks a rule in one way, for each way, by hand. The
/// memories are 4, 0, 6; 14 and 4 bytes are played by slot 2, 15 and 15 by slot 4.
fn each_breach(rng: &mut Rng) -> Vec<Case> {
    let [_, _, job, ..] = example_jobs();
    let columns: [(Breach, Column, &[u64]); 9] = [
        (Breach::Falls, (1, [15, 4, 5], [14, 14, 10]), &[1]),
        (Breach::Falls, (1, [7, 4, 11], [14, 14, 10]), &[3]),
        (Breach::Passes, (3, [15, 15, 14], [16, 15, 15]), &[1]),
        (Breach::Starves, (1, [7, 4, 5], [14, 13, 10]), &[2]),
        (Breach::Overflows, (1, [7, 4, 5], [14, 14, 11]), &[3]),
        (Breach::ChildAhead, (1, [7, 4, 5], [13, 14, 10]), &[1, 2]),
        (Breach::ParentAhead, (1, [7, 4, 5], [14, 14, 9]), &[1, 3]),
        (Breach::ParentAhead, (1, [0, 0, 0], [14, 14, 4]), &[1, 3]),
        (Breach::ParentAhead, (0, [0, 0, 0], [5, 4, 0]), &[1, 3]),
    ];
    let case = |(breach, (slot, carried, column), links): (_, Column, &[u64])| {
        let mut case = drawn(&job, slot, &column, rng);
        case.tree.carried[1..4].copy_from_slice(&carried);
        let Due::Broken(breaches) = due(&case) else {
            unreachable!("the column breaks a rule");
        };
        let by_hand: Vec<_> = links.iter().map(|&link| (breach, link)).collect();
        assert_eq!(breaches, by_hand, "the model against the column by hand");
        case.known(BROKEN)
    };
    columns.into_iter().map(case).collect()
}

/// A job at this slot number with this next column, where it has one. All else in
/// the plan and the tree is drawn.
fn drawn(job: &Job, slot: u64, column: &[u64], rng: &mut Rng) -> Case {
    let (plan, links) = lengths(job);
    let slots = plan / links;
    let mut plan: Vec<u64> = (0..plan).map(|_| rng.word()).collect();
    let next = slot.checked_add(1).filter(|&next| next < slots as u64);
    if let Some(next) = next {
        for (row, &number) in plan.chunks_mut(slots).zip(column) {
            row[next as usize] = number;
        }
    }
    let tree = Running {
        slot,
        carried: [0; PLACES].map(|_| rng.word()),
    };
    Case::new(job.clone(), tree, plan)
}

/// The lengths one short, one over and 0.
fn wrong(right: usize) -> [usize; 3] {
    [right - 1, right + 1, 0]
}

/// Refusals where later numbers apply too: those of the bytes with wrong lengths
/// and any slot, a wrong length with slots past the last and broken columns, done
/// with broken columns.
fn refusals(rng: &mut Rng) -> Vec<Case> {
    let [_, _, job, ..] = example_jobs();
    let last = Rules::new(&job).last_slot() as u64;
    let mut cases = Vec::new();
    for slot in [0, 1, last - 1, last, last + 1, 1 << 63, u64::MAX] {
        let case = drawn(&job, slot, &[u64::MAX; 3], rng);
        let number = if slot < last { BROKEN } else { DONE };
        cases.push(case.known(number));
        let mut kept = drawn(&job, slot, &[15, 15, 15], rng);
        kept.tree.carried[1..4].fill(0);
        let number = if slot == last - 1 { TAKEN } else { number };
        cases.push(kept.known(number));
        for case in [case, kept] {
            cases.extend(wrong_lengths(&case));
            cases.extend(refused(&case, &job, rng));
        }
    }
    cases
}

/// A step with its plan, one of its rows or both of wrong lengths.
fn wrong_lengths(case: &Case) -> Vec<Case> {
    let case = case.known(WRONG_LENGTH);
    let mut cases = Vec::new();
    for length in wrong(case.plan.len()) {
        let mut case = case.clone();
        case.plan.resize(length, 7);
        cases.push(case);
    }
    for length in wrong(case.sent) {
        for (sent, held) in [(length, case.held), (case.sent, length), (length, length)] {
            let case = case.clone();
            cases.push(Case { sent, held, ..case });
        }
    }
    cases
}

/// A step with each fault of the bytes, and with wrong lengths besides.
fn refused(case: &Case, job: &Job, rng: &mut Rng) -> Vec<Case> {
    let mut cases = Vec::new();
    for number in 1..=10 {
        let mut case = case.known(number);
        case.bytes = with_faults(job.clone(), &[number], rng);
        case.job = None;
        cases.push(case.clone());
        case.plan.truncate(rng.index(case.plan.len()));
        (case.sent, case.held) = (rng.index(6), rng.index(6));
        cases.push(case);
    }
    cases
}

/// Small jobs of each tree of 2 to 4 nodes with each plan of small numbers. A
/// plan is taken to the slot before the first that breaks a rule, where column 0
/// stands for zeros, which it does not hold.
fn foreign(rng: &mut Rng) -> Vec<Case> {
    let (mut kept, mut broken, mut cases) = (0, 0, Vec::new());
    for job in foreign_jobs() {
        let rules = Rules::new(&job);
        let (last, links) = (rules.last_slot(), job.records.len());
        for numbers in each_list(links * last, rules.total() + 1) {
            let plan: Vec<u64> = numbers
                .chunks(last)
                .flat_map(|row| std::iter::once(rng.word()).chain(row.iter().copied()))
                .collect();
            let at = |i: usize, slot: usize| match slot {
                0 => 0,
                _ => numbers[i * last + slot - 1],
            };
            cases.extend(match rules.broken(last + 1, at) {
                None => {
                    kept += 1;
                    run_plan(&job, plan, last, DONE)
                }
                Some(slot) => {
                    broken += 1;
                    run_plan(&job, plan, slot - 1, BROKEN)
                }
            });
        }
    }
    println!("foreign plans: {kept} keep the rules, {broken} break one");
    assert!(
        kept >= LEAST_FOREIGN && broken >= LEAST_FOREIGN,
        "foreign plans of both sorts, at least {LEAST_FOREIGN} each"
    );
    cases
}

/// Each list of `length` numbers up to `most`, as one counts, the first place fastest.
fn each_list(length: usize, most: u64) -> impl Iterator<Item = Vec<u64>> {
    std::iter::successors(Some(vec![0; length]), move |numbers| {
        let place = numbers.iter().position(|&number| number < most)?;
        let mut next = numbers.clone();
        next[..place].fill(0);
        next[place] += 1;
        Some(next)
    })
}

/// Trees, as the parents of their nodes, films, and the greatest memory and delay.
type Family = (
    &'static [&'static [u8]],
    &'static [&'static [u32]],
    u64,
    u16,
);

const FAMILIES: [Family; 7] = [
    (&TREES_OF_2, &[&[0], &[1], &[3]], 3, 1),
    (
        &TREES_OF_2,
        &[&[0, 1], &[1, 0], &[1, 1], &[2, 1], &[1, 2]],
        3,
        1,
    ),
    (&TREES_OF_3, &[&[1], &[2]], 2, 1),
    (&TREES_OF_3, &[&[0, 1], &[1, 0], &[1, 1]], 2, 0),
    (&TREES_OF_4, &[&[0], &[1], &[2]], 2, 0),
    (&[&[0, 1, 2]], &[&[1]], 1, 1),
    (&[&[0, 1, 1]], &[&[0, 1], &[1, 0]], 1, 0),
];

/// Jobs of each tree of 2 to 4 nodes, with one frame or two.
fn foreign_jobs() -> Vec<Job> {
    let mut jobs = Vec::new();
    for (trees, films, memory, delay) in FAMILIES {
        for parents in trees {
            for frames in films {
                jobs.extend(each_record(parents, frames, memory, delay));
            }
        }
    }
    jobs
}

/// Each job of this tree with memories up to `memory` and delays up to `delay`.
fn each_record(parents: &[u8], frames: &[u32], memory: u64, delay: u16) -> Vec<Job> {
    let mut lists = vec![Vec::new()];
    for (i, &parent) in parents.iter().enumerate() {
        let inner = parents.iter().any(|&other| usize::from(other) == i + 1);
        let most = if inner { 0 } else { delay };
        let records = (0..=memory).flat_map(|memory| {
            (0..=most).map(move |delay| Record {
                parent,
                delay,
                memory,
                rate: 1,
            })
        });
        let records: Vec<Record> = records.collect();
        lists = lists
            .iter()
            .flat_map(|list| {
                records
                    .iter()
                    .map(move |record| [&list[..], &[record.clone()]].concat())
            })
            .collect();
    }
    lists
        .into_iter()
        .map(|records| Job::new(records, frames.to_vec()))
        .collect()
}

/// Random jobs whose plans, given by the library, are run to the end.
fn planned(rng: &mut Rng) -> Vec<Case> {
    let mut cases = Vec::new();
    for _ in 0..PLANNED {
        let job = trees::small_job(rng);
        if let Some(plan) = plan_of(&job) {
            let last = Rules::new(&job).last_slot();
            cases.extend(run_plan(&job, plan, last, DONE));
        }
    }
    cases
}

/// A job of the most nodes and frames and the greatest delay: the plan's first steps, its
/// last one and done; and columns that fit and do not.
fn largest(job: Job, rng: &mut Rng) -> Vec<Case> {
    let (plan, links) = lengths(&job);
    let slots = plan / links;
    let plan = plan_of(&job).expect("the largest job has a plan");
    let mut case = Case::new(job, Running::start(), plan);
    let mut cases = Vec::new();
    for _ in 0..2 {
        cases.push(case.known(TAKEN));
        case.tree = case.after();
    }
    for slot in [slots / 2, slots - 2] {
        case.tree.slot = slot as u64;
        for link in 1..=links {
            case.tree.carried[link] = case.plan[(link - 1) * slots + slot];
        }
        let node = 1 + rng.index(links);
        let mut broken = case.known(BROKEN);
        broken.plan[(node - 1) * slots + slot + 1] = u64::MAX;
        cases.push(broken);
        cases.push(case.known(TAKEN));
        case.tree = case.after();
    }
    cases.push(case.known(DONE));
    cases
}

/// A random job whose memories are not yet drawn.
fn shaped(rng: &mut Rng) -> Job {
    let most = rng.pick(&[4, 4, 9, 9, 20, MOST_NODES as u64]);
    let nodes = rng.within(2..=most) as usize;
    let parents = rng.pick(&SHAPES).parents(nodes, rng);
    let records = parents.into_iter().map(|parent| Record {
        parent,
        rate: rng.up_to(GREATEST_AMOUNT),
        ..Record::default()
    });
    let records = records.collect();
    let frame = rng.pick(&[0, 1, 3, 30, 1_000, u64::from(GREATEST_FRAME)]);
    let frames = (0..few_frames(rng)).map(|_| rng.up_to(frame) as u32);
    let mut job = Job::new(records, frames.collect());
    let delay = match rng.below(100) {
        0 if nodes <= 9 => u64::from(GREATEST_DELAY),
        _ => rng.pick(&[0, 1, 4]),
    };
    for leaf in job.nodes(false) {
        job.record(leaf).delay = rng.up_to(delay) as u16;
    }
    job
}

/// A column for `slot`, and memories with which it keeps P2 and P3, often just so.
fn fit(job: &mut Job, slot: usize, rng: &mut Rng) -> Vec<u64> {
    let rules = Rules::new(job);
    let (total, links) = (rules.total(), job.records.len());
    let played: Vec<u64> = (1..=links).map(|node| rules.played(node, slot)).collect();
    let mut column = vec![0; links];
    for i in (0..links).rev() {
        let children = (0..links).filter(|&c| usize::from(job.records[c].parent) == i + 1);
        let below: Vec<u64> = children.map(|c| column[c]).collect();
        let least = below.iter().min().unwrap_or(&played[i]);
        let greatest = below.iter().max().unwrap_or(&played[i]);
        let most = total - greatest;
        let any = rng.up_to(most);
        let own = greatest + rng.pick(&[0, 0, most.min(1), any]);
        let any = rng.up_to(GREATEST_AMOUNT);
        let room = rng.pick(&[0, 0, 1, any]);
        column[i] = own;
        job.records[i].memory = (own - least + room).min(GREATEST_AMOUNT);
    }
    column
}

/// A step that is taken: memories and carried bytes fit the column.
fn fitting(rng: &mut Rng) -> Case {
    let mut job = shaped(rng);
    let last = Rules::new(&job).last_slot() as u64;
    let any = rng.below(last);
    let slot = rng.pick(&[0, last - 1, any, any]);
    let column = fit(&mut job, slot as usize + 1, rng);
    let mut case = drawn(&job, slot, &column, rng);
    for (node, &number) in (1..).zip(&column) {
        case.tree.carried[node] = rng.up_to(number);
    }
    case
}

/// A fitting step with one to three numbers changed.
fn changed(rng: &mut Rng) -> Case {
    let mut case = fitting(rng);
    for _ in 0..rng.pick(&[1, 1, 1, 2, 3]) {
        change(&mut case, rng);
    }
    case
}

/// A number just beside another, or at an edge.
fn beside(number: u64, rng: &mut Rng) -> u64 {
    let edge = rng.pick(&WORDS);
    let up = number.wrapping_add(1);
    rng.pick(&[up, up, number.wrapping_sub(1), number, edge])
}

fn change(case: &mut Case, rng: &mut Rng) {
    let Some(job) = &mut case.job else {
        return;
    };
    let rules = Rules::new(job);
    let (total, last) = (rules.total(), rules.last_slot());
    let links = job.records.len();
    let node = 1 + rng.index(links).min(rng.index(links));
    let next = (case.tree.slot as usize).wrapping_add(1).min(last);
    let at = (node - 1) * (last + 1) + next;
    let record = &job.records[node - 1];
    match rng.below(18) {
        0 => case.tree.slot = a_slot(last as u64, rng),
        1..=3 | 16 | 17 => {
            let memory = record.memory;
            let less = memory.saturating_sub(rng.pick(&[1, 1, memory]));
            job.record(node).memory = less;
            case.bytes = job.encode();
        }
        4 | 5 => {
            let sent = case.plan[at];
            case.tree.carried[node] = beside(sent, rng);
        }
        6 => case.plan[at] = beside(total, rng),
        7 | 8 => {
            let played = rules.played(node, next);
            let full = played + record.memory;
            let near = rng.pick(&[played, full, full]);
            case.plan[at] = beside(near, rng);
        }
        9..=11 => {
            // Less, and not less than is carried.
            case.plan[at] = case.plan[at].wrapping_sub(1);
            case.tree.carried[node] = case.tree.carried[node].min(case.plan[at]);
        }
        12 | 13 => case.plan[at] = case.plan[at].wrapping_add(1),
        _ => case.plan[at] = beside(case.plan[at], rng),
    }
}

/// Any slot number, often near the last slot.
fn a_slot(last: u64, rng: &mut Rng) -> u64 {
    let any = rng.word();
    let before = rng.below(last);
    rng.pick(&[0, before, last - 1, last, last + 1, 1 << 63, u64::MAX, any])
}

/// A job with any numbers in the plan and the tree.
fn anything(rng: &mut Rng) -> Case {
    let mut job = shaped(rng);
    for record in &mut job.records {
        record.memory = rng.up_to(GREATEST_AMOUNT);
    }
    let rules = Rules::new(&job);
    let total = rules.total();
    let mut number = || {
        let edges = [0, total, total + 1, rng.up_to(total), rng.word()];
        let edge = rng.pick(&WORDS);
        rng.pick(&[edge, edges[0], edges[1], edges[2], edges[3], edges[4]])
    };
    let plan = (0..lengths(&job).0).map(|_| number()).collect();
    let carried = [0; PLACES].map(|_| number());
    let slot = a_slot(rules.last_slot() as u64, rng);
    Case::new(job, Running { slot, carried }, plan)
}

/// A step at a slot number with no slot left.
fn past(rng: &mut Rng) -> Case {
    let mut case = changed(rng);
    if let Some(job) = &case.job {
        let last = Rules::new(job).last_slot() as u64;
        let any = rng.within(last..=u64::MAX);
        let near = last + rng.below(4);
        case.tree.slot = rng.pick(&[last, last + 1, near, 1 << 63, u64::MAX, any]);
    }
    case
}

/// A step, of any sort, with a plan or a row one short, one over or empty, or all
/// of them.
fn wrong_length(i: u64, rng: &mut Rng) -> Case {
    let mut case = match rng.below(3) {
        0 => fitting(rng),
        1 => changed(rng),
        _ => past(rng),
    };
    let which = 1 + i % 63;
    let length = |right: usize, which: u64| match which {
        0 => right,
        _ => wrong(right)[which as usize - 1],
    };
    case.plan.resize(length(case.plan.len(), which % 4), 0);
    case.sent = length(case.sent, which / 4 % 4);
    case.held = length(case.held, which / 16);
    case
}

/// A step, of any sort, with one fault or two of 1 to 10 in the bytes.
fn faulty(i: u64, rng: &mut Rng) -> Case {
    let mut case = match rng.below(3) {
        0 => fitting(rng),
        1 => past(rng),
        _ => wrong_length(rng.below(63), rng),
    };
    if let Some(job) = case.job.take() {
        let numbers = one_or_two(1 + i % 10, rng);
        case.bytes = with_faults(job, &numbers, rng);
    }
    case
}
