//! The independent lines of constant rates, as the document writes them: what the link
//! has carried and what the screen has played, slot by slot, in wide numbers.

/// The longest delay.
const LONGEST: usize = 4_096;

/// A film by its sums T(0) to T(M).
pub struct Film {
    sums: Vec<u128>,
}

impl Film {
    pub fn new(frames: &[u32]) -> Self {
        let mut sums = vec![0];
        for &frame in frames {
            sums.push(sums[sums.len() - 1] + u128::from(frame));
        }
        Film { sums }
    }

    fn frames(&self) -> usize {
        self.sums.len() - 1
    }

    fn whole(&self) -> u128 {
        self.sums[self.frames()]
    }

    pub fn total(&self) -> u64 {
        self.whole() as u64
    }

    /// What a link of this rate has carried by the end of `slot`.
    fn carried(&self, rate: u64, slot: usize) -> u128 {
        self.whole().min(u128::from(rate) * u128::from(slot as u64))
    }

    /// What a screen that waits for `delay` slots has played by the end of `slot`, which
    /// is at most M + `delay`.
    fn played(&self, slot: usize, delay: usize) -> u128 {
        self.sums[slot.saturating_sub(delay)]
    }

    /// The least delay: it grows by one as long as some frame comes too late.
    fn delay(&self, rate: u64) -> Option<usize> {
        let mut delay = 0;
        for (m, &due) in self.sums.iter().enumerate() {
            while self.carried(rate, m + delay) < due {
                delay += 1;
                if delay > LONGEST {
                    return None;
                }
            }
        }
        Some(delay)
    }

    /// The line of a rate: 0, the least delay and the least memory, which is the most
    /// that is carried and not played at any slot; or 13 and zeros.
    pub fn line(&self, rate: u64) -> [u64; 3] {
        let Some(delay) = self.delay(rate) else {
            return [13, 0, 0];
        };
        let slots = 0..=self.frames() + delay;
        let excess = |slot| self.carried(rate, slot) - self.played(slot, delay);
        let memory = slots.map(excess).max().expect("slot 0");
        [0, delay as u64, memory as u64]
    }

    /// The least rate at which some delay serves: the longest does.
    pub fn least_rate(&self) -> u64 {
        let rates = (LONGEST as u128..).zip(&self.sums);
        let rate = rates.map(|(slot, sum)| sum.div_ceil(slot)).max();
        rate.expect("T(0)") as u64
    }
}
