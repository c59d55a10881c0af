//! The rate question again, written for speed alone and sharing no code with the library.
//!
//! All numbers are whole and below 2^53, so floating point has them exactly; it is used
//! because the plainest machines can take the larger of two such numbers at once, several
//! at a time. Nodes of one floor rate have one need, which is found once.

use crate::library::RateAnswer;
use crate::peer::{read, Node, MOST_DELAY, MOST_FRAME, MOST_FRAMES, MOST_NODES};

/// Rates that go through the film together.
const LANES: usize = 8;

/// Memory of the sizer, written once when it is made.
pub struct Sizer {
    film: Vec<f64>,
}

fn refused(number: u64) -> RateAnswer {
    RateAnswer {
        number,
        delay: 0,
        total: 0,
    }
}

fn larger(a: f64, b: f64) -> f64 {
    if a > b {
        a
    } else {
        b
    }
}

impl Sizer {
    pub fn new() -> Sizer {
        Sizer {
            film: vec![1.0; MOST_FRAMES],
        }
    }

    /// The rate question, answered by the sizer.
    pub fn rate_question(&mut self, job: &[u8], memories: &mut [u64]) -> RateAnswer {
        let mut nodes = [Node::default(); MOST_NODES];
        let (n, frames, bytes) = match read(job, &mut nodes) {
            Ok(read) => read,
            Err(number) => return refused(number),
        };
        let nodes = &mut nodes[..n];
        if memories.len() != n - 1 {
            return refused(11);
        }
        let film = &mut self.film[..frames];
        for (frame, &size) in film.iter_mut().zip(bytes.as_chunks::<4>().0) {
            *frame = f64::from(i32::from_be_bytes(size));
        }

        let least = nodes[1..].iter().map(|node| node.rate).min().unwrap_or(0);
        let Some(delay) = delay(film, least) else {
            return refused(13);
        };
        for v in (1..n).rev() {
            let u = nodes[v].parent;
            nodes[u].rate = nodes[u].rate.min(nodes[v].rate);
        }
        choose(nodes, &needs_of(film, nodes), memories);
        RateAnswer {
            number: 0,
            delay,
            total: memories.iter().sum(),
        }
    }
}

/// The least delay, from the greatest excess of the film over the rate since its start.
fn delay(film: &[f64], rate: u64) -> Option<u64> {
    let (mut ahead, mut most) = (0.0, 0.0);
    // No frame is larger, so a higher rate is as good; the sums stay below 2^53.
    let slow = rate.min(u64::from(MOST_FRAME)) as f64;
    for &frame in film {
        ahead += frame - slow;
        most = larger(ahead, most);
    }
    let most = most as u64;
    if most == 0 {
        return Some(0);
    }
    let delay = most
        .checked_add(rate - u64::from(rate > 0))?
        .checked_div(rate)?;
    (delay <= MOST_DELAY as u64).then_some(delay)
}

/// The need of each node, whose rate is its floor rate.
fn needs_of(film: &[f64], nodes: &[Node]) -> [u64; MOST_NODES] {
    let mut floors: Vec<u64> = nodes[1..].iter().map(|node| node.rate).collect();
    floors.sort_unstable();
    floors.dedup();
    let mut found = Vec::with_capacity(MOST_NODES);
    for group in floors.chunks(LANES) {
        let mut rates = [group[0] as f64; LANES];
        for (lane, &rate) in rates.iter_mut().zip(group) {
            *lane = rate as f64;
        }
        let most = needs(film, &rates);
        found.extend(most[..group.len()].iter().map(|&need| need as u64));
    }
    let mut all = [0; MOST_NODES];
    for (need, node) in all.iter_mut().zip(nodes).skip(1) {
        let at = floors.partition_point(|&floor| floor < node.rate);
        *need = found[at];
    }
    all
}

/// The most that is held at each rate: what is over at the end of a slot is carried on.
fn needs(film: &[f64], rates: &[f64; LANES]) -> [f64; LANES] {
    let mut held = [0.0; LANES];
    let mut most = [0.0; LANES];
    for &frame in film {
        for lane in 0..LANES {
            held[lane] = larger(held[lane] + (frame - rates[lane]), 0.0);
            most[lane] = larger(held[lane], most[lane]);
        }
    }
    most
}

/// The memories. A node hands on what it is asked for as far as one child at most would hold
/// more than it needs: up to the second least need, or all of it to an only child.
fn choose(nodes: &[Node], needs: &[u64; MOST_NODES], memories: &mut [u64]) {
    let mut two_least = [[u64::MAX; 2]; MOST_NODES];
    for (node, &need) in nodes.iter().zip(needs).skip(1) {
        let [least, second] = &mut two_least[node.parent];
        *second = need.max(*least).min(*second);
        *least = need.min(*least);
    }
    let mut handed_on = [0; MOST_NODES];
    for (v, node) in nodes.iter().enumerate().skip(1) {
        let asked = needs[v].max(handed_on[node.parent]);
        if !node.leaf {
            handed_on[v] = asked.min(two_least[v][1]);
        }
        memories[v - 1] = asked - handed_on[v];
    }
}
