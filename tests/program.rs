//! The program: what it prints for a job on its standard input, against the text
//! that the independent reader, planner and sizes make.

use std::hash::Hash;
use std::io::{self, Read as _, Write as _};
use std::path::Path;
use std::process::{Child, ChildStdin, Command, ExitStatus, Stdio};
use std::sync::mpsc::{channel, RecvTimeoutError};
use std::sync::Mutex;
use std::thread::{self, sleep};
use std::time::Duration;

use crate::asking::lengths;
use crate::edges::{example_jobs, TREE_Q};
use crate::faults::{one_or_two, with_faults};
use crate::job::{Job, FRAME_BYTES, GREATEST_DELAY, HEADER_BYTES, MOST_FRAMES, MOST_NODES};
use crate::problem::Problem;
use crate::relax::Planner;
use crate::rng::Rng;
use crate::section::Kind::{self, Fixed, Random};
use crate::section::Wanted::All;
use crate::section::{Count, Section, Tally, ONE};
use crate::shapes::{any_valid, valid, Shape, SHAPES};
use crate::{lazy, rated, reader, trees, writer};

/// The program, where the variable `RELAY_PROGRAM` names no other.
const PATH: &str = "target/bin/relay";

/// How long the program may take for one job, and how many bytes of what it prints
/// are read: more than any answer has.
const LIMIT: Duration = Duration::from_secs(60);
const MOST_TEXT: u64 = 1_000_000;

/// The most bytes of a job and numbers of a plan that the program takes.
const MOST_BYTES: usize = 32_768;
const MOST_NUMBERS: usize = 4_096;

/// The most random jobs of a run, as the program is started for each of them.
pub const MOST: u64 = 20_000;

/// Most bytes of a text that are shown.
const SHOWN: usize = 2_000;

/// The listing of the documents.
const LISTING: &str = "0 4 15
1 7 0 7 14 15 15
2 10 0 4 14 15 15
3 5 0 5 10 14 15
0 2 12 0 6 6
";

pub struct Program;

impl Section for Program {
    type Case = Vec<u8>;

    const NAME: &'static str = "program";
    const CASES: &'static str = "jobs";
    const GATE: u64 = 2_400;
    const STREAM: u64 = 5_000;
    const KINDS: &'static [Kind<Vec<u8>>] = &[
        Fixed("examples", examples),
        Fixed("plan at the limit", plan_limit),
        Fixed("bytes at the limit", byte_limit),
        Fixed("large", large),
        Random("memories", 250, |_, rng| planned(rng)),
        Random("rates", 250, |_, rng| answered(rng)),
        Random("any valid", 60, |_, rng| any_valid(rng).encode()),
        Random("faults", 240, faulty),
        Random("bits flipped", 150, flipped),
        Random("cut or lengthened", 50, cut),
    ];
    /// Only jobs with 0 or 12 on the first line have the rate question's last line.
    const COUNTS: &'static [Count] = &[
        ("jobs", ONE, All(2_000)),
        ("damaged jobs", ONE, All(400)),
        ("number {} on the first line", 0..=0, All(300)),
        ("number {} on the first line", 1..=10, All(20)),
        ("number {} on the first line", 12..=12, All(100)),
        ("number {} on the first line", 15..=15, All(100)),
        ("number {} on the last line", 0..=0, All(300)),
        ("number {} on the last line", 13..=13, All(50)),
    ];

    /// With no random jobs asked for, it is left out.
    fn ready(random: u64) -> Result<bool, Problem> {
        match random > 0 && !Path::new(&path()).is_file() {
            true => Err(format!("{} is missing", path())),
            false => Ok(random > 0),
        }
    }

    fn key(bytes: &Vec<u8>) -> impl Hash {
        bytes
    }

    fn bytes(bytes: &Vec<u8>) -> Vec<u8> {
        bytes.clone()
    }

    fn check(bytes: &Vec<u8>, tally: &mut Tally) -> Result<bool, Problem> {
        let due = text(bytes);
        let got = printed(&path(), bytes, Feed::of(tally.met("jobs", 0).all))?;
        if due.text != got {
            let cut = |text: &str| text.chars().take(SHOWN).collect::<String>();
            return Err(format!("expected\n{}\ngot\n{}", cut(&due.text), cut(&got)));
        }
        tally.one_if("damaged jobs", (1..=10).contains(&due.first));
        tally.value("number {} on the first line", due.first);
        if let Some(last) = due.last {
            tally.value("number {} on the last line", last);
        }
        Ok(true)
    }
}

fn path() -> String {
    std::env::var("RELAY_PROGRAM").unwrap_or(PATH.to_string())
}

/// What is due: the text, the number on its first line and, where it has one, that
/// of the rate question on its last.
struct Due {
    text: String,
    first: usize,
    last: Option<usize>,
}

impl Due {
    fn refused(number: u64) -> Self {
        Due {
            text: format!("{number}\n"),
            first: number as usize,
            last: None,
        }
    }
}

fn text(bytes: &[u8]) -> Due {
    if bytes.len() > MOST_BYTES {
        return Due::refused(15);
    }
    let read = reader::refusal(bytes);
    if read != 0 {
        return Due::refused(read);
    }
    let job = Job::decode(bytes);
    assert!(job.encode() == bytes, "the decoder against the encoder");
    if lengths(&job).0 > MOST_NUMBERS {
        return Due::refused(15);
    }
    let mut due = memory_lines(&job);
    match lazy::sizes(&job) {
        None => {
            due.text += "13\n";
            due.last = Some(13);
        }
        Some(sizes) => {
            let numbers = [&[0, sizes.delay, sizes.total], &sizes.memories[..]].concat();
            due.text += &line(&numbers);
            due.last = Some(0);
        }
    }
    due
}

fn memory_lines(job: &Job) -> Due {
    let Some(answer) = Planner::new(job).answer() else {
        return Due::refused(12);
    };
    let mut text = line(&[0, answer.last_slot, answer.total]);
    for (node, (peak, row)) in (1..).zip(answer.peaks.iter().zip(&answer.rows)) {
        text += &line(&[&[node, *peak], &row[..]].concat());
    }
    Due {
        text,
        first: 0,
        last: None,
    }
}

/// Numbers with one space between, and the end of the line.
fn line(numbers: &[u64]) -> String {
    let words: Vec<String> = numbers.iter().map(u64::to_string).collect();
    words.join(" ") + "\n"
}

/// How the job is fed to the program.
#[derive(Clone, Copy)]
enum Feed {
    Whole,
    /// In two parts, with a pause between.
    Parted,
    /// A few bytes at a time.
    Pieces,
}

impl Feed {
    fn of(case: u64) -> Self {
        match case % 16 {
            0 => Feed::Parted,
            1 => Feed::Pieces,
            _ => Feed::Whole,
        }
    }

    fn parts(self, bytes: &[u8]) -> Vec<&[u8]> {
        match self {
            Feed::Whole => vec![bytes],
            Feed::Parted => {
                let (first, second) = bytes.split_at(bytes.len() / 2);
                vec![first, second]
            }
            Feed::Pieces => bytes.chunks(bytes.len() / 20 + 1).collect(),
        }
    }

    fn write(self, bytes: &[u8], mut input: ChildStdin) {
        for (i, part) in self.parts(bytes).into_iter().enumerate() {
            if i == 1 {
                sleep(Duration::from_millis(4));
            }
            // A program that has read more than it takes may end before the rest.
            if input.write_all(part).is_err() {
                break;
            }
        }
    }
}

/// What the program prints.
fn printed(path: &str, bytes: &[u8], feed: Feed) -> Result<String, String> {
    let failed = |what: &str, why: String| format!("program {path}: {what}: {why}");
    let mut child = Command::new(path)
        .stdin(Stdio::piped())
        .stdout(Stdio::piped())
        .spawn()
        .map_err(|error| failed("not started", error.to_string()))?;
    let input = child.stdin.take().expect("piped");
    let output = child.stdout.take().expect("piped");
    let child = Mutex::new(child);
    let ((text, status), late) = watched(&child, || {
        feed.write(bytes, input);
        let mut text = String::new();
        let read = output.take(MOST_TEXT).read_to_string(&mut text);
        (read.map(|_| text), ended(&child))
    });
    if late {
        return Err(failed("not ended", format!("killed after {LIMIT:?}")));
    }
    let status = status.map_err(|error| failed("not ended", error.to_string()))?;
    if !status.success() {
        return Err(failed("ended", status.to_string()));
    }
    text.map_err(|error| failed("no text", error.to_string()))
}

/// What `work` gives, and whether it took longer than the limit; the child is then
/// killed.
fn watched<T>(child: &Mutex<Child>, work: impl FnOnce() -> T) -> (T, bool) {
    let (done, waiting) = channel::<()>();
    thread::scope(|scope| {
        let watchdog = scope.spawn(move || {
            let late = waiting.recv_timeout(LIMIT) == Err(RecvTimeoutError::Timeout);
            if late {
                let _ = child.lock().expect("no panic").kill();
            }
            late
        });
        let result = work();
        drop(done);
        (result, watchdog.join().expect("no panic"))
    })
}

/// Waits for the child's end, and leaves it to the watchdog between two looks.
fn ended(child: &Mutex<Child>) -> io::Result<ExitStatus> {
    loop {
        if let Some(status) = child.lock().expect("no panic").try_wait()? {
            return Ok(status);
        }
        sleep(Duration::from_micros(100));
    }
}

/// The document's examples, no bytes at all, and Tree Q cut to each length.
fn examples(_: &mut Rng) -> Vec<Vec<u8>> {
    assert_eq!(text(&TREE_Q).text, LISTING, "the text against the listing");
    let mut cases: Vec<Vec<u8>> = example_jobs().iter().map(Job::encode).collect();
    cases.extend((0..TREE_Q.len()).map(|length| TREE_Q[..length].to_vec()));
    cases
}

/// A job with a plan of so many rows and slots.
fn sized(links: usize, slots: usize, rng: &mut Rng) -> Job {
    let last = slots - 1;
    let delay = rng.index(last.min(usize::from(GREATEST_DELAY) + 1));
    let shape = rng.pick(&SHAPES);
    let mut job = valid(shape, links + 1, last - delay, rng);
    for record in &mut job.records {
        record.delay = 0;
        record.memory = record.memory.max(1 << 36);
        record.rate >>= rng.below(20);
    }
    let leaf = rng.pick(&job.nodes(false));
    job.record(leaf).delay = delay as u16;
    job
}

/// Plans of 4,096 numbers, and of the next more and fewer that their rows allow;
/// with a frame that is too large, which is told first.
fn plan_limit(rng: &mut Rng) -> Vec<Vec<u8>> {
    let mut cases = Vec::new();
    for links in [1, 2, 4, 8, 16, 17, 32, 63] {
        for slots in MOST_NUMBERS / links - 1..=MOST_NUMBERS / links + 2 {
            let job = sized(links, slots, rng);
            cases.push(job.encode());
            cases.push(with_faults(job, &[10], rng));
        }
    }
    cases
}

/// 32,768 bytes and a few more or fewer: damaged in any way or in none, or none of
/// a job's.
fn byte_limit(rng: &mut Rng) -> Vec<Vec<u8>> {
    let mut cases = Vec::new();
    for length in MOST_BYTES - 2..=MOST_BYTES + 2 {
        cases.push(vec![0; length]);
        cases.push(rng.bytes(length));
        for number in 2..=10 {
            let job = valid(Shape::Random, 9, 20, rng);
            let mut bytes = with_faults(job, &[number], rng);
            bytes.resize(length, 0);
            cases.push(bytes);
        }
    }
    // 10 + 19 × 2 + 4 × 8,180 is 32,768.
    for (nodes, frames) in [(3, 8_179), (3, 8_180), (3, 8_181), (7, 8_161)] {
        for shape in [Shape::Chain, Shape::Star] {
            let job = valid(shape, nodes, frames, rng);
            cases.push(job.encode());
            cases.push(with_faults(job, &[7], rng));
        }
    }
    cases
}

/// Jobs of many times the most bytes, and such bytes that are none.
fn large(rng: &mut Rng) -> Vec<Vec<u8>> {
    let mut cases = Vec::new();
    for nodes in [2, MOST_NODES] {
        let job = valid(Shape::Random, nodes, MOST_FRAMES, rng);
        cases.push(job.encode());
        cases.push(with_faults(job, &[2], rng));
    }
    cases.push(vec![0; 1_000_000]);
    cases.push(rng.bytes(100_000));
    cases
}

/// A job for the memory question, at times with a memory of 0.
fn planned(rng: &mut Rng) -> Vec<u8> {
    let mut job = trees::small_job(rng);
    if rng.one_in(2) {
        let at = rng.index(job.records.len());
        job.records[at].memory = 0;
    }
    // A rate near the mean frame, so that the rate question has an answer too.
    let total: u64 = job.frames.iter().map(|&frame| u64::from(frame)).sum();
    let mean = total / job.frames.len() as u64;
    for record in &mut job.records {
        record.rate = rng.within(mean / 2..=2 * mean + 1);
    }
    job.encode()
}

/// A job for the rate question with delays and memories that often have a plan: the
/// answer put back, at times with less memory.
fn answered(rng: &mut Rng) -> Vec<u8> {
    let mut job = rated::small_job(rng);
    let delay = rng.below(3) as u16;
    for leaf in job.nodes(false) {
        job.record(leaf).delay = delay;
    }
    if let (Some(sizes), false) = (lazy::sizes(&job), rng.one_in(4)) {
        let put = writer::put_back(&job, sizes.delay, &sizes.memories);
        if lengths(&put).0 <= MOST_NUMBERS {
            job = put;
        }
    }
    if rng.one_in(4) {
        let at = rng.index(job.records.len());
        job.records[at].memory /= 2;
    }
    job.encode()
}

/// Bytes with one fault or two of 1 to 10.
fn faulty(i: u64, rng: &mut Rng) -> Vec<u8> {
    let numbers = one_or_two(1 + i % 10, rng);
    with_faults(trees::small_job(rng), &numbers, rng)
}

/// One to three bits flipped anywhere, or in the header.
fn flipped(_: u64, rng: &mut Rng) -> Vec<u8> {
    let mut bytes = rated::small_job(rng).encode();
    for _ in 0..rng.within(1..=3) {
        let end = rng.pick(&[HEADER_BYTES, bytes.len()]);
        bytes[rng.index(end)] ^= 1 << rng.below(8);
    }
    bytes
}

fn cut(_: u64, rng: &mut Rng) -> Vec<u8> {
    let mut bytes = trees::small_job(rng).encode();
    let any = rng.index(2 * bytes.len());
    let whole = bytes.len();
    bytes.resize(
        rng.pick(&[whole - 1, whole + 1, whole + FRAME_BYTES, any]),
        0,
    );
    bytes
}
