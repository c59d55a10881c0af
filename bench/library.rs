//! The proved library, through its C interface.

use keeper::Store;

#[repr(C)]
#[derive(Clone, Copy, Debug, PartialEq, Eq)]
pub struct Answer {
    pub number: u64,
    pub last_slot: u64,
    pub total: u64,
}

#[repr(C)]
#[derive(Clone, Copy, Debug, PartialEq, Eq)]
pub struct RateAnswer {
    pub number: u64,
    pub delay: u64,
    pub total: u64,
}

/// A running tree: its slot number, and what the link into each node has carried.
pub type Running = [u64; 65];

#[repr(C)]
#[derive(Clone, Copy, Debug, PartialEq, Eq)]
pub struct StepAnswer {
    pub number: u64,
    pub link: u64,
}

extern "C" {
    fn relay_memory_question(
        job: *const u8,
        job_len: usize,
        plan: *mut u64,
        plan_len: usize,
        peaks: *mut u64,
        peaks_len: usize,
    ) -> Answer;

    fn relay_rate_question(
        job: *const u8,
        job_len: usize,
        memories: *mut u64,
        memories_len: usize,
    ) -> RateAnswer;

    fn relay_constant_rates(
        job: *const u8,
        job_len: usize,
        rates: *const u64,
        rates_len: usize,
        lines: *mut u64,
        lines_len: usize,
    ) -> u64;

    fn relay_step(
        tree: *mut u64,
        tree_len: usize,
        job: *const u8,
        job_len: usize,
        plan: *const u64,
        plan_len: usize,
        sent: *mut u64,
        sent_len: usize,
        held: *mut u64,
        held_len: usize,
    ) -> StepAnswer;

    fn relay_store_start(store: *mut Store, length: usize, children: usize) -> u64;

    fn relay_store_append(
        store: *mut Store,
        slice: *mut u8,
        slice_len: usize,
        bytes: *const u8,
        bytes_len: usize,
    ) -> u64;

    fn relay_store_take(
        store: *mut Store,
        slice: *const u8,
        slice_len: usize,
        child: usize,
        out: *mut u8,
        out_len: usize,
    ) -> u64;
}

/// The memory question, answered by the library.
pub fn memory_question(job: &[u8], plan: &mut [u64], peaks: &mut [u64]) -> Answer {
    // SAFETY: each pointer comes with the length of the slice it was taken from.
    unsafe {
        relay_memory_question(
            job.as_ptr(),
            job.len(),
            plan.as_mut_ptr(),
            plan.len(),
            peaks.as_mut_ptr(),
            peaks.len(),
        )
    }
}

/// The rate question, answered by the library.
pub fn rate_question(job: &[u8], memories: &mut [u64]) -> RateAnswer {
    // SAFETY: each pointer comes with the length of the slice it was taken from.
    unsafe {
        relay_rate_question(
            job.as_ptr(),
            job.len(),
            memories.as_mut_ptr(),
            memories.len(),
        )
    }
}

/// The lines of constant rates, by the library.
pub fn constant_rates(job: &[u8], rates: &[u64], lines: &mut [u64]) -> u64 {
    // SAFETY: each pointer comes with the length of the slice it was taken from.
    unsafe {
        relay_constant_rates(
            job.as_ptr(),
            job.len(),
            rates.as_ptr(),
            rates.len(),
            lines.as_mut_ptr(),
            lines.len(),
        )
    }
}

/// A step of a running tree.
pub fn step(
    tree: &mut Running,
    job: &[u8],
    plan: &[u64],
    sent: &mut [u64],
    held: &mut [u64],
) -> StepAnswer {
    // SAFETY: each pointer comes with the length of the slice it was taken from.
    unsafe {
        relay_step(
            tree.as_mut_ptr(),
            tree.len(),
            job.as_ptr(),
            job.len(),
            plan.as_ptr(),
            plan.len(),
            sent.as_mut_ptr(),
            sent.len(),
            held.as_mut_ptr(),
            held.len(),
        )
    }
}

/// A byte store's start.
pub fn store_start(store: &mut Store, length: usize, children: usize) -> u64 {
    // SAFETY: the pointer is to a store as C has it.
    unsafe { relay_store_start(store, length, children) }
}

/// Bytes appended to a store.
pub fn store_append(store: &mut Store, slice: &mut [u8], bytes: &[u8]) -> u64 {
    // SAFETY: each pointer to bytes comes with the length of the slice it was taken from.
    unsafe {
        relay_store_append(
            store,
            slice.as_mut_ptr(),
            slice.len(),
            bytes.as_ptr(),
            bytes.len(),
        )
    }
}

/// Bytes taken from a store by a child.
pub fn store_take(store: &mut Store, slice: &[u8], child: usize, out: &mut [u8]) -> u64 {
    // SAFETY: each pointer to bytes comes with the length of the slice it was taken from.
    unsafe {
        relay_store_take(
            store,
            slice.as_ptr(),
            slice.len(),
            child,
            out.as_mut_ptr(),
            out.len(),
        )
    }
}
