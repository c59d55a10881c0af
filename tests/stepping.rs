//! One step of a running tree, held against an independent model of it.

use crate::job::Job;
use crate::lending::Lent;
use crate::library::{step, Running, StepNumbers};
use crate::problem::{equal, holds, same, Problem};
use crate::reader;
use crate::section::Tally;

/// The numbers of a step that are not of the job's bytes.
pub const TAKEN: u64 = 0;
pub const WRONG_LENGTH: u64 = 11;
pub const BROKEN: u64 = 14;
pub const DONE: u64 = 100;

/// A job, or bytes that are none, with a running tree, a plan and the lengths of
/// the lent rows.
#[derive(Clone)]
pub struct Case {
    pub bytes: Vec<u8>,
    pub job: Option<Job>,
    pub tree: Running,
    pub plan: Vec<u64>,
    pub sent: usize,
    pub held: usize,
    /// The number, where the generator knows it.
    pub known: Option<u64>,
}

impl Case {
    /// A job with rows of the right lengths.
    pub fn new(job: Job, tree: Running, plan: Vec<u64>) -> Self {
        let links = job.records.len();
        Case {
            bytes: job.encode(),
            job: Some(job),
            tree,
            plan,
            sent: links,
            held: links,
            known: None,
        }
    }

    /// The same case, whose number is known.
    pub fn known(&self, number: u64) -> Self {
        let known = Some(number);
        Case {
            known,
            ..self.clone()
        }
    }

    /// The tree after the step, by the model.
    pub fn after(&self) -> Running {
        match due(self) {
            Due::Taken { tree, .. } => *tree,
            _ => self.tree,
        }
    }
}

/// A way to break a rule.
#[derive(Clone, Copy, PartialEq, Eq, Debug)]
pub enum Breach {
    /// P1: less than is carried.
    Falls,
    /// P1: more than all frames.
    Passes,
    /// P2: a leaf has less than it plays.
    Starves,
    /// P2: a leaf has more than it can hold.
    Overflows,
    /// P3: a child has more than its parent.
    ChildAhead,
    /// P3: a parent has more than it can hold back from a child.
    ParentAhead,
}

impl Breach {
    /// What is counted where a step breaks rules in this way alone.
    fn alone(self) -> &'static str {
        match self {
            Breach::Falls => "falls, alone",
            Breach::Passes => "passes all frames, alone",
            Breach::Starves => "starves, alone",
            Breach::Overflows => "overflows, alone",
            Breach::ChildAhead => "child ahead, alone",
            Breach::ParentAhead => "parent ahead, alone",
        }
    }
}

/// What the library's step gives, and the tree after it.
#[derive(Clone, Copy, PartialEq, Eq)]
pub struct StepAnswer {
    pub number: u64,
    pub link: u64,
    pub tree: Running,
}

/// What a step must come to.
pub enum Due {
    Taken {
        tree: Box<Running>,
        sent: Vec<u64>,
        held: Vec<u64>,
    },
    Done,
    Refused(u64),
    /// Each breach and a link on which it is one.
    Broken(Vec<(Breach, u64)>),
}

impl Due {
    fn number(&self) -> u64 {
        match self {
            Due::Taken { .. } => TAKEN,
            Due::Done => DONE,
            Due::Refused(number) => *number,
            Due::Broken(_) => BROKEN,
        }
    }
}

/// The model: what a step must come to, from the words of the document.
pub fn due(case: &Case) -> Due {
    let read = reader::refusal(&case.bytes);
    let Some(job) = &case.job else {
        assert!(read != 0, "the bytes of no job");
        return Due::Refused(read);
    };
    assert!(read == 0, "the bytes of a job");
    let links = job.records.len();
    let delays = job.records.iter().map(|record| usize::from(record.delay));
    let slots = job.frames.len() + delays.max().expect("a link") + 1;
    if case.plan.len() != links * slots || case.sent != links || case.held != links {
        return Due::Refused(WRONG_LENGTH);
    }
    let next = i128::from(case.tree.slot) + 1;
    if next >= slots as i128 {
        return Due::Done;
    }
    Slot::new(job, case, slots, next).due()
}

/// The numbers of one slot. Wide ones, so that none runs over.
struct Slot<'a> {
    job: &'a Job,
    tree: &'a Running,
    next: i128,
    /// What each link is to have carried by the end of the slot.
    column: Vec<i128>,
}

impl<'a> Slot<'a> {
    fn new(job: &'a Job, case: &'a Case, slots: usize, next: i128) -> Self {
        let rows = case.plan.chunks(slots);
        Slot {
            job,
            tree: &case.tree,
            next,
            column: rows.map(|row| i128::from(row[next as usize])).collect(),
        }
    }

    /// The sum of the first frames, as many as that; of all where there are fewer.
    fn sum(&self, count: i128) -> i128 {
        let frames = self.job.frames.iter().zip(0..count);
        frames.map(|(&frame, _)| i128::from(frame)).sum()
    }

    fn children(&self, node: usize) -> Vec<usize> {
        let parents = self.job.records.iter().map(|record| record.parent);
        let with = parents.zip(1..);
        with.filter(|&(parent, _)| usize::from(parent) == node)
            .map(|(_, child)| child)
            .collect()
    }

    fn played(&self, leaf: usize) -> i128 {
        self.sum(self.next - i128::from(self.job.records[leaf - 1].delay))
    }

    fn due(&self) -> Due {
        let total = self.sum(self.job.frames.len() as i128);
        let mut breaches = Vec::new();
        let mut tree = Box::new(*self.tree);
        tree.slot = self.next as u64;
        let (mut sent, mut held) = (Vec::new(), Vec::new());
        for node in 1..=self.column.len() {
            let mut broken = |is: bool, breach: Breach, links: &[usize]| {
                if is {
                    breaches.extend(links.iter().map(|&link| (breach, link as u64)));
                }
            };
            let own = self.column[node - 1];
            let before = i128::from(self.tree.carried[node]);
            let memory = i128::from(self.job.records[node - 1].memory);
            broken(own < before, Breach::Falls, &[node]);
            broken(own > total, Breach::Passes, &[node]);
            let mut left = own;
            let children = self.children(node);
            if children.is_empty() {
                left = self.played(node);
                broken(own < left, Breach::Starves, &[node]);
                broken(own > left + memory, Breach::Overflows, &[node]);
            }
            for (at, child) in children.into_iter().enumerate() {
                let below = self.column[child - 1];
                broken(below > own, Breach::ChildAhead, &[node, child]);
                broken(own > below + memory, Breach::ParentAhead, &[node, child]);
                left = if at == 0 { below } else { left.min(below) };
            }
            // Where a rule is broken these are not used.
            tree.carried[node] = own as u64;
            sent.push((own - before) as u64);
            held.push((own - left) as u64);
        }
        if breaches.is_empty() {
            Due::Taken { tree, sent, held }
        } else {
            Due::Broken(breaches)
        }
    }
}

/// Steps in two rounds, both of which must come to what is due and be the same.
pub fn check(case: &Case, tally: &mut Tally) -> Result<(), Problem> {
    let due = due(case);
    if let Some(known) = case.known {
        equal(
            "independent number against the generator",
            known,
            due.number(),
        )?;
    }
    let (first, sent, held) = call(case, 0)?;
    judge(case, &due, &first, &sent, &held)?;
    let (again, sent, held) = call(case, 1)?;
    judge(case, &due, &again, &sent, &held)?;
    holds("same answer again", first == again)?;
    tally.value("number {}", due.number() as usize);
    if let Due::Broken(breaches) = due {
        let (breach, _) = breaches[0];
        let alone = breaches.iter().all(|&(other, _)| other == breach);
        tally.one_if(breach.alone(), alone);
    }
    Ok(())
}

/// Whether an answer and the rows after it are what is due.
fn judge(
    case: &Case,
    due: &Due,
    got: &StepAnswer,
    sent: &Lent<u64>,
    held: &Lent<u64>,
) -> Result<(), Problem> {
    equal("number", due.number(), got.number)?;
    let tree = match due {
        Due::Taken { tree, .. } => tree,
        _ => &case.tree,
    };
    equal("slot number handed on", tree.slot, got.tree.slot)?;
    same("carried bytes, place", 0, &tree.carried, &got.tree.carried)?;
    match due {
        Due::Broken(breaches) => {
            let allowed = breaches.iter().any(|&(_, link)| link == got.link);
            holds(&format!("link {} breaks a rule", got.link), allowed)?;
        }
        _ => equal("link", 0, got.link)?,
    }
    match due {
        Due::Taken {
            sent: due_sent,
            held: due_held,
            ..
        } => {
            same("sent bytes of link", 1, due_sent, sent.held())?;
            same("held bytes of node", 1, due_held, held.held())
        }
        _ => {
            let untouched = sent.untouched() && held.untouched();
            holds("rows kept where none is taken", untouched)
        }
    }
}

/// Steps the library. Guards, the job's bytes and the plan must be as they were.
/// The guards, the rows and the alignment differ from round to round.
fn call(case: &Case, round: usize) -> Result<(StepAnswer, Lent<u64>, Lent<u64>), Problem> {
    let mut tree = Lent::words(&case.tree.words(), round);
    let mut job = Lent::bytes(&case.bytes, round);
    let mut plan = Lent::words(&case.plan, round);
    let mut sent = Lent::output(case.sent, 1 + 2 * round as u64);
    let mut held = Lent::output(case.held, 2 + 2 * round as u64);

    let StepNumbers { number, link } = step(
        tree.part(),
        job.part(),
        plan.part(),
        sent.part(),
        held.part(),
    );

    let guards = sent.guards_kept() && held.guards_kept();
    holds("guard words of the rows kept", guards)?;
    holds("guard words of the tree kept", tree.guards_kept())?;
    holds("the job's bytes and guards kept", job.untouched())?;
    holds("the plan's words and guards kept", plan.untouched())?;
    let tree = Running::of(tree.held());
    Ok((StepAnswer { number, link, tree }, sent, held))
}
