//! What the memory question gives for a job that has a plan.

pub struct Answer {
    pub last_slot: u64,
    pub total: u64,
    /// Node 1's row first.
    pub rows: Vec<Vec<u64>>,
    pub peaks: Vec<u64>,
}

/// The greatest rise of `row` in one slot.
pub fn peak(row: &[u64]) -> u64 {
    row.windows(2)
        .map(|pair| pair[1].saturating_sub(pair[0]))
        .max()
        .unwrap_or(0)
}
