//! Constant rates again, in plain Rust that shares no code with the library.
//!
//! In slot m a link without a delay has sent R m. The delay makes up for the most that this is
//! behind the sum of the film; the memory takes what is then the most ahead of it. Each is
//! found in a pass that ends where the film is through.

use crate::peer::{add_up, read, Node, MOST_DELAY, MOST_FRAMES, MOST_NODES};

/// Numbers for each rate.
pub const LINE: usize = 3;
/// Sums that a pass takes or leaves out together. All of them: it looks at every slot.
pub const PLAIN: usize = MOST_FRAMES + 1;
/// Few: it looks at the first of each stretch, then at those that may have more.
pub const LEAPING: usize = 64;

const NO_DELAY: [u64; LINE] = [13, 0, 0];

/// Memory of this peer, written once when it is made.
pub struct Constant {
    /// The sums of the film from 0 frames on.
    sums: Vec<i64>,
}

impl Constant {
    pub fn new() -> Constant {
        let mut sums = vec![1; MOST_FRAMES + 1];
        sums[0] = 0;
        Constant { sums }
    }

    /// The lines of the rates, with passes in stretches of this length.
    pub fn rates(&mut self, job: &[u8], rates: &[u64], lines: &mut [u64], stretch: usize) -> u64 {
        let mut nodes = [Node::default(); MOST_NODES];
        let (_, frames, film) = match read(job, &mut nodes) {
            Ok(read) => read,
            Err(number) => return number,
        };
        if !(1..=8).contains(&rates.len()) {
            return 16;
        }
        if lines.len() != LINE * rates.len() {
            return 11;
        }
        add_up(film, &mut self.sums[1..]);
        let sums = &self.sums[..=frames];
        for (out, &rate) in lines.as_chunks_mut().0.iter_mut().zip(rates) {
            *out = line(sums, rate, stretch);
        }
        0
    }
}

/// The line of one rate.
fn line(sums: &[i64], rate: u64, stretch: usize) -> [u64; LINE] {
    let frames = sums.len() - 1;
    let total = sums[frames];
    if total == 0 {
        return [0; LINE];
    }
    // At a higher rate the film is through in slot 1 too.
    let rate = rate.min(total as u64) as i64;
    // The end of the film alone may come too late, and does at rate 0.
    if total > rate * (frames + MOST_DELAY) as i64 {
        return NO_DELAY;
    }
    // What is sent by this slot is the total, so the link is behind in none from here on.
    let through = up(total, rate) as usize;
    let late = &sums[..through.min(sums.len())];
    let delay = up(behind(late, rate, stretch), rate);
    if delay > MOST_DELAY as i64 {
        return NO_DELAY;
    }
    let (early, rest) = sums.split_at(through - delay as usize);
    let sent = rate * delay;
    let memory = sent + ahead(early, rate, stretch, total - rest[0] - sent);
    [0, delay as u64, memory as u64]
}

/// The quotient, rounded up.
fn up(bytes: i64, rate: i64) -> i64 {
    (bytes + rate - 1) / rate
}

/// The sums in stretches, each with what is sent by its first slot.
fn parts(sums: &[i64], rate: i64, stretch: usize) -> impl Iterator<Item = (&[i64], i64)> {
    let starts = (0..).step_by(stretch);
    let parts = sums.chunks(stretch).zip(starts);
    parts.map(move |(part, start)| (part, rate * start))
}

/// The most that the link is behind, or 0.
fn behind(sums: &[i64], rate: i64, stretch: usize) -> i64 {
    let firsts = parts(sums, rate, stretch).map(|(part, sent)| part[0] - sent);
    let mut most = firsts.fold(0, i64::max);
    for (part, mut sent) in parts(sums, rate, stretch) {
        if part[part.len() - 1] - sent > most {
            for &sum in part {
                most = most.max(sum - sent);
                sent += rate;
            }
        }
    }
    most
}

/// The most that the link is ahead, or `least`.
fn ahead(sums: &[i64], rate: i64, stretch: usize, least: i64) -> i64 {
    let firsts = parts(sums, rate, stretch).map(|(part, sent)| sent - part[0]);
    let mut most = firsts.fold(least, i64::max);
    for (part, mut sent) in parts(sums, rate, stretch) {
        let last = sent + rate * (part.len() as i64 - 1);
        if last - part[0] > most {
            for &sum in part {
                most = most.max(sent - sum);
                sent += rate;
            }
        }
    }
    most
}
