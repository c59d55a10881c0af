//! The library's C functions, declared as in `include/relay.h`, and safe
//! functions over them.

use std::ops::Range;

/// The sizes of a job; or a refusal's number, and 0 four times.
#[repr(C)]
#[derive(Clone, Copy, Default)]
pub struct JobSizes {
    pub number: u64,
    pub nodes: usize,
    pub frames: usize,
    pub last_slot: usize,
    pub plan_length: usize,
}

#[repr(C)]
#[derive(Clone, Copy, PartialEq, Eq)]
pub struct MemoryAnswer {
    pub number: u64,
    pub last_slot: u64,
    pub total: u64,
}

#[repr(C)]
#[derive(Clone, Copy, PartialEq, Eq)]
pub struct RateAnswer {
    pub number: u64,
    pub delay: u64,
    pub total: u64,
}

/// Places of a running tree.
pub const PLACES: usize = 64;

/// A running tree; the library has it as its slot number and its places in turn.
#[derive(Clone, Copy, PartialEq, Eq, Hash)]
pub struct Running {
    pub slot: u64,
    pub carried: [u64; PLACES],
}

impl Running {
    /// The first running tree: slot 0, and nothing carried.
    pub fn start() -> Self {
        Running::of(&[0; 1 + PLACES])
    }

    /// The running tree that `words` are.
    pub fn of(words: &[u64]) -> Self {
        let mut carried = [0; PLACES];
        carried.copy_from_slice(&words[1..]);
        Running {
            slot: words[0],
            carried,
        }
    }

    pub fn words(&self) -> [u64; 1 + PLACES] {
        let mut words = [self.slot; 1 + PLACES];
        words[1..].copy_from_slice(&self.carried);
        words
    }
}

#[repr(C)]
pub struct StepNumbers {
    pub number: u64,
    pub link: u64,
}

/// Where the row of one link lies in a plan; 0 twice where it is empty.
#[repr(C)]
#[derive(Clone, Copy, PartialEq, Eq)]
pub struct Row {
    pub start: usize,
    pub length: usize,
}

/// The numbers of a byte store, all of which have 64 bits: its length, its children, its
/// place and what waits for each child.
pub const STORE_WORDS: usize = 3 + 63;

/// The numbers of `relay_limits` in turn, all of which have 64 bits.
#[repr(C)]
struct Limits([u64; LIMITS]);

pub const LIMITS: usize = 12;

extern "C" {
    fn relay_library_limits() -> Limits;

    fn relay_refusal(job: *const u8, length: usize) -> u64;

    fn relay_job_sizes(job: *const u8, length: usize) -> JobSizes;

    fn relay_memory_question(
        job: *const u8,
        job_length: usize,
        plan: *mut u64,
        plan_length: usize,
        peaks: *mut u64,
        peaks_length: usize,
    ) -> MemoryAnswer;

    fn relay_row_of(job: *const u8, job_length: usize, plan_length: usize, link: usize) -> Row;

    fn relay_rate_question(
        job: *const u8,
        job_length: usize,
        memories: *mut u64,
        memories_length: usize,
    ) -> RateAnswer;

    fn relay_constant_rates(
        job: *const u8,
        job_length: usize,
        rates: *const u64,
        rates_length: usize,
        lines: *mut u64,
        lines_length: usize,
    ) -> u64;

    fn relay_put_back(
        job: *mut u8,
        job_length: usize,
        delay: u64,
        memories: *const u64,
        memories_length: usize,
    ) -> u64;

    fn relay_step(
        tree: *mut u64,
        tree_length: usize,
        job: *const u8,
        job_length: usize,
        plan: *const u64,
        plan_length: usize,
        sent: *mut u64,
        sent_length: usize,
        held: *mut u64,
        held_length: usize,
    ) -> StepNumbers;

    fn relay_store_start(store: *mut u64, length: usize, children: usize) -> u64;

    fn relay_store_append(
        store: *mut u64,
        slice: *mut u8,
        slice_length: usize,
        bytes: *const u8,
        bytes_length: usize,
    ) -> u64;

    fn relay_store_take(
        store: *mut u64,
        slice: *const u8,
        slice_length: usize,
        child: usize,
        out: *mut u8,
        out_length: usize,
    ) -> u64;
}

/// A buffer and the part of it that is lent.
pub type Part<'a, T> = (&'a mut [T], Range<usize>);

/// The start of the lent part, which lies within its buffer, and its length.
fn lend<T>((buffer, part): Part<T>) -> (*mut T, usize) {
    assert!(part.start <= part.end && part.end <= buffer.len());
    (
        buffer.as_mut_ptr().wrapping_add(part.start),
        part.end - part.start,
    )
}

/// The library's limits, in the order of the header.
pub fn limits() -> [u64; LIMITS] {
    // SAFETY: nothing is lent.
    let Limits(limits) = unsafe { relay_library_limits() };
    limits
}

/// The library's refusal of a job's bytes.
///
/// The bytes are lent mutably, so that a write by the library, which would be a
/// fault, can be seen by the caller.
pub fn refusal(job: Part<u8>) -> u64 {
    let (job, length) = lend(job);
    // SAFETY: the part lies within its buffer.
    unsafe { relay_refusal(job, length) }
}

/// The library's sizes of a job. The bytes are lent mutably for the same reason.
pub fn job_sizes(job: Part<u8>) -> JobSizes {
    let (job, length) = lend(job);
    // SAFETY: the part lies within its buffer.
    unsafe { relay_job_sizes(job, length) }
}

/// The library's answer to the memory question.
pub fn memory_question(job: Part<u8>, plan: Part<u64>, peaks: Part<u64>) -> MemoryAnswer {
    let (job, job_length) = lend(job);
    let (plan, plan_length) = lend(plan);
    let (peaks, peaks_length) = lend(peaks);
    // SAFETY: each part lies within its buffer, and the buffers do not overlap,
    // as each is lent mutably for the whole call.
    unsafe { relay_memory_question(job, job_length, plan, plan_length, peaks, peaks_length) }
}

/// The library's row of a link in a plan of so many numbers, none of which is lent.
/// The job is lent mutably, so that a write can be seen.
pub fn row_of(job: Part<u8>, plan_length: usize, link: usize) -> Row {
    let (job, job_length) = lend(job);
    // SAFETY: the part lies within its buffer.
    unsafe { relay_row_of(job, job_length, plan_length, link) }
}

/// The library's answer to the rate question.
///
/// The job is lent mutably, so that a write by the library, which would be a fault,
/// can be seen by the caller.
pub fn rate_question(job: Part<u8>, memories: Part<u64>) -> RateAnswer {
    let (job, job_length) = lend(job);
    let (memories, memories_length) = lend(memories);
    // SAFETY: each part lies within its buffer, and the buffers do not overlap,
    // as each is lent mutably for the whole call.
    unsafe { relay_rate_question(job, job_length, memories, memories_length) }
}

/// The library's number for constant rates, whose lines it writes. The job and the
/// rates are lent mutably, so that a write can be seen.
pub fn constant_rates(job: Part<u8>, rates: Part<u64>, lines: Part<u64>) -> u64 {
    let (job, job_length) = lend(job);
    let (rates, rates_length) = lend(rates);
    let (lines, lines_length) = lend(lines);
    // SAFETY: each part lies within its buffer, and the buffers do not overlap,
    // as each is lent mutably for the whole call.
    unsafe { relay_constant_rates(job, job_length, rates, rates_length, lines, lines_length) }
}

/// An answer put back into the job by the library. The memories are lent mutably
/// for the same reason.
pub fn put_back(job: Part<u8>, delay: u64, memories: Part<u64>) -> u64 {
    let (job, job_length) = lend(job);
    let (memories, memories_length) = lend(memories);
    // SAFETY: each part lies within its buffer, and the buffers do not overlap,
    // as each is lent mutably for the whole call.
    unsafe { relay_put_back(job, job_length, delay, memories, memories_length) }
}

/// The library's step of a running tree, which is lent as its numbers.
///
/// The job and the plan are lent mutably, so that a write by the library, which
/// would be a fault, can be seen by the caller.
pub fn step(
    tree: Part<u64>,
    job: Part<u8>,
    plan: Part<u64>,
    sent: Part<u64>,
    held: Part<u64>,
) -> StepNumbers {
    let (tree, tree_length) = lend(tree);
    let (job, job_length) = lend(job);
    let (plan, plan_length) = lend(plan);
    let (sent, sent_length) = lend(sent);
    let (held, held_length) = lend(held);
    // SAFETY: each part lies within its buffer, and the buffers do not overlap,
    // as each is lent mutably for the whole call.
    unsafe {
        relay_step(
            tree,
            tree_length,
            job,
            job_length,
            plan,
            plan_length,
            sent,
            sent_length,
            held,
            held_length,
        )
    }
}

/// The start of a byte store, which is lent as its numbers.
fn lend_store(store: Part<u64>) -> *mut u64 {
    let (store, words) = lend(store);
    assert_eq!(words, STORE_WORDS, "the numbers of a store");
    store
}

/// The library's start of a store.
pub fn store_start(store: Part<u64>, length: usize, children: usize) -> u64 {
    let store = lend_store(store);
    // SAFETY: the part lies within its buffer and is as long as a store.
    unsafe { relay_store_start(store, length, children) }
}

/// The library's append. The bytes are lent mutably, so that a write can be seen.
pub fn store_append(store: Part<u64>, slice: Part<u8>, bytes: Part<u8>) -> u64 {
    let store = lend_store(store);
    let (slice, slice_length) = lend(slice);
    let (bytes, bytes_length) = lend(bytes);
    // SAFETY: each part lies within its buffer, the first is as long as a store, and the
    // buffers do not overlap, as each is lent mutably for the whole call.
    unsafe { relay_store_append(store, slice, slice_length, bytes, bytes_length) }
}

/// The library's take. The slice is lent mutably for the same reason.
pub fn store_take(store: Part<u64>, slice: Part<u8>, child: usize, out: Part<u8>) -> u64 {
    let store = lend_store(store);
    let (slice, slice_length) = lend(slice);
    let (out, out_length) = lend(out);
    // SAFETY: each part lies within its buffer, the first is as long as a store, and the
    // buffers do not overlap, as each is lent mutably for the whole call.
    unsafe { relay_store_take(store, slice, slice_length, child, out, out_length) }
}
