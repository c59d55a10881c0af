//! The independent writer of an answer into a job.

use crate::job::Job;

/// `job` with this delay at every leaf and these memories, all else as it was.
pub fn put_back(job: &Job, delay: u64, memories: &[u64]) -> Job {
    let mut put = job.clone();
    for node in job.nodes(false) {
        put.record(node).delay = u16::try_from(delay).expect("a delay within its limit");
    }
    for (record, &memory) in put.records.iter_mut().zip(memories) {
        record.memory = memory;
    }
    put
}
