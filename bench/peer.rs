//! The memory question again, written for speed alone and sharing no code with the library.
//!
//! The rows of both curves are kept for all links. Passes over the tree go through a
//! stretch of slots at a time, so that the stretch stays in the cache for all links.

use crate::library::Answer;

pub const MOST_NODES: usize = 64;
pub const MOST_FRAMES: usize = 65_536;
pub const MOST_DELAY: usize = 4_096;
const MOST_BYTES: u64 = 17_592_186_044_415;
pub const MOST_FRAME: u32 = 268_435_455;
const MOST_SLOTS: usize = MOST_FRAMES + MOST_DELAY + 1;

/// Slots in a stretch of the passes over the tree.
const STRETCH: usize = 512;
/// Slots that the search for a peak looks at together.
const BLOCK: usize = 32;

/// Memory of the planner, written once when it is made.
pub struct Peer {
    sums: Vec<i64>,
    lower: Vec<i64>,
    upper: Vec<i64>,
}

#[derive(Clone, Copy, Default)]
pub struct Node {
    pub parent: usize,
    pub delay: usize,
    pub memory: i64,
    pub rate: u64,
    pub leaf: bool,
}

/// The part `a..e` of the row of node `u` with that of node `v`, where u < v.
fn two<T>(
    rows: &mut [T],
    slots: usize,
    u: usize,
    v: usize,
    a: usize,
    e: usize,
) -> (&mut [T], &mut [T]) {
    let (first, second) = rows.split_at_mut((v - 1) * slots);
    (
        &mut first[(u - 1) * slots + a..(u - 1) * slots + e],
        &mut second[a..e],
    )
}

fn refused(number: u64) -> Answer {
    Answer {
        number,
        last_slot: 0,
        total: 0,
    }
}

fn be_u64(bytes: &[u8]) -> u64 {
    bytes.iter().fold(0, |all, &b| all << 8 | u64::from(b))
}

impl Peer {
    pub fn new() -> Peer {
        let rows = (MOST_NODES - 1) * MOST_SLOTS;
        Peer {
            sums: vec![1; MOST_DELAY + MOST_SLOTS],
            lower: vec![1; rows],
            upper: vec![1; rows],
        }
    }

    /// The memory question, answered by the peer.
    pub fn memory_question(&mut self, job: &[u8], plan: &mut [u64], peaks: &mut [u64]) -> Answer {
        let mut nodes = [Node::default(); MOST_NODES];
        let (n, frames, film) = match read(job, &mut nodes) {
            Ok(read) => read,
            Err(number) => return refused(number),
        };
        let nodes = &mut nodes[..n];
        let last = last_slot(nodes, frames);
        let slots = last + 1;
        if plan.len() != (n - 1) * slots || peaks.len() != n - 1 {
            return refused(11);
        }
        // An inner node plays as early as the earliest leaf below it.
        for v in (1..n).rev() {
            let u = nodes[v].parent;
            nodes[u].delay = nodes[u].delay.min(nodes[v].delay);
        }

        // Sums of the film behind MOST_DELAY zeros, then the whole up to the last slot.
        self.sums[..=MOST_DELAY].fill(0);
        let total = add_up(film, &mut self.sums[MOST_DELAY + 1..]);
        self.sums[MOST_DELAY + frames + 1..MOST_DELAY + slots].fill(total);

        if !self.curves(nodes, slots, total) {
            return refused(12);
        }
        self.fill(nodes, slots, plan, peaks);
        for a in (0..slots).step_by(STRETCH) {
            close(nodes, plan, slots, a, (a + STRETCH).min(slots));
        }
        Answer {
            number: 0,
            last_slot: last as u64,
            total: total as u64,
        }
    }

    /// Both rows of every link; whether every leaf is served.
    fn curves(&mut self, nodes: &[Node], slots: usize, total: i64) -> bool {
        for a in (0..slots).step_by(STRETCH) {
            let e = (a + STRETCH).min(slots);
            self.lower_rows(nodes, slots, a, e);
            self.upper_rows(nodes, slots, total, a, e);
            if self.starves(nodes, slots, a, e) {
                return false;
            }
        }
        true
    }

    /// The least peak of every link, and its lazy row at that rate.
    fn fill(&self, nodes: &[Node], slots: usize, plan: &mut [u64], peaks: &mut [u64]) {
        // The slots that set each peak so far.
        let mut spans = Vec::with_capacity(MOST_NODES);
        for i in 0..nodes.len() - 1 {
            let row = i * slots..(i + 1) * slots;
            let (lower, upper) = (&self.lower[row.clone()], &self.upper[row.clone()]);
            let peak = least_peak(lower, upper, nodes[i + 1].delay, &mut spans);
            lazy(lower, peak, &mut plan[row]);
            peaks[i] = peak as u64;
        }
    }

    fn lower_rows(&mut self, nodes: &[Node], slots: usize, a: usize, e: usize) {
        for (v, node) in nodes.iter().enumerate().skip(1) {
            let start = MOST_DELAY - node.delay;
            let played = &self.sums[start + a..start + e];
            let u = node.parent;
            if u == 0 {
                self.lower[(v - 1) * slots + a..(v - 1) * slots + e].copy_from_slice(played);
            } else {
                let memory = nodes[u].memory;
                let (above, row) = two(&mut self.lower, slots, u, v, a, e);
                for ((r, &d), &x) in row.iter_mut().zip(played).zip(above.iter()) {
                    *r = d.max(x - memory);
                }
            }
        }
    }

    fn upper_rows(&mut self, nodes: &[Node], slots: usize, total: i64, a: usize, e: usize) {
        let mut begun = 0_u64;
        for (v, node) in nodes.iter().enumerate().skip(1).rev() {
            if node.leaf {
                let start = MOST_DELAY - node.delay;
                let played = &self.sums[start + a..start + e];
                let row = &mut self.upper[(v - 1) * slots + a..(v - 1) * slots + e];
                for (r, &d) in row.iter_mut().zip(played) {
                    *r = total.min(d + node.memory);
                }
            }
            let u = node.parent;
            if u != 0 {
                let memory = nodes[u].memory;
                let (above, row) = two(&mut self.upper, slots, u, v, a, e);
                if begun >> u & 1 == 0 {
                    begun |= 1 << u;
                    for (x, &r) in above.iter_mut().zip(row.iter()) {
                        *x = total.min(r + memory);
                    }
                } else {
                    for (x, &r) in above.iter_mut().zip(row.iter()) {
                        *x = (*x).min(r + memory);
                    }
                }
            }
        }
        for (v, node) in nodes.iter().enumerate().skip(1) {
            if node.parent != 0 {
                let (above, row) = two(&mut self.upper, slots, node.parent, v, a, e);
                for (r, &x) in row.iter_mut().zip(above.iter()) {
                    *r = (*r).min(x);
                }
            }
        }
        if a == 0 {
            for v in 1..nodes.len() {
                self.upper[(v - 1) * slots] = 0;
            }
        }
    }

    /// Whether some leaf's lower row passes its upper row; the other links then follow.
    fn starves(&self, nodes: &[Node], slots: usize, a: usize, e: usize) -> bool {
        (1..nodes.len()).filter(|&v| nodes[v].leaf).any(|v| {
            let part = (v - 1) * slots + a..(v - 1) * slots + e;
            let worst = self.lower[part.clone()]
                .iter()
                .zip(&self.upper[part])
                .map(|(&l, &u)| l - u)
                .max();
            worst.unwrap_or(0) > 0
        })
    }
}

/// The frames plus the greatest delay of a leaf.
pub fn last_slot(nodes: &[Node], frames: usize) -> usize {
    let delays = nodes.iter().filter(|node| node.leaf).map(|node| node.delay);
    frames + delays.max().unwrap_or(0)
}

/// The sums of the film after each frame; the last is given back too.
pub fn add_up(film: &[u8], sums: &mut [i64]) -> i64 {
    let mut total = 0;
    for (sum, &frame) in sums.iter_mut().zip(film.as_chunks::<4>().0) {
        total += i64::from(u32::from_be_bytes(frame));
        *sum = total;
    }
    total
}

/// The node count and the frame count of a job whose length fits them.
fn counts(job: &[u8]) -> Result<(usize, usize), u64> {
    if job.len() < 10 {
        return Err(1);
    }
    if &job[..3] != b"RLY" {
        return Err(2);
    }
    if be_u64(&job[3..5]) != 1 {
        return Err(3);
    }
    let n = usize::from(job[5]);
    if !(2..=MOST_NODES).contains(&n) {
        return Err(4);
    }
    let frames = be_u64(&job[6..10]) as usize;
    if !(1..=MOST_FRAMES).contains(&frames) {
        return Err(5);
    }
    if job.len() != 10 + 19 * (n - 1) + 4 * frames {
        return Err(6);
    }
    Ok((n, frames))
}

/// Reads the records into `nodes`; an inner node has the longest delay.
fn read_nodes(records: &[u8], nodes: &mut [Node]) -> Result<(), u64> {
    let mut too_large = false;
    nodes[0] = Node {
        delay: MOST_DELAY,
        ..Node::default()
    };
    for (i, record) in records.chunks_exact(19).enumerate() {
        let parent = usize::from(record[0]);
        if parent > i {
            return Err(7);
        }
        let memory = be_u64(&record[3..11]);
        let rate = be_u64(&record[11..19]);
        too_large |= memory > MOST_BYTES || rate > MOST_BYTES;
        nodes[i + 1] = Node {
            parent,
            delay: be_u64(&record[1..3]) as usize,
            memory: memory as i64,
            rate,
            leaf: true,
        };
        nodes[parent].leaf = false;
    }
    for node in &mut nodes[1..] {
        if node.delay > if node.leaf { MOST_DELAY } else { 0 } {
            return Err(8);
        }
        if !node.leaf {
            node.delay = MOST_DELAY;
        }
    }
    if too_large {
        return Err(9);
    }
    Ok(())
}

/// Reads the job into `nodes`: the node count, the frame count and the bytes of the film.
pub fn read<'a>(
    job: &'a [u8],
    nodes: &mut [Node; MOST_NODES],
) -> Result<(usize, usize, &'a [u8]), u64> {
    let (n, frames) = counts(job)?;
    let (records, film) = job[10..].split_at(19 * (n - 1));
    read_nodes(records, &mut nodes[..n])?;
    // MOST_FRAME is ones alone, so some frame is larger just where the bits of all are.
    let sizes = film.as_chunks::<4>().0.iter();
    let bits = sizes.fold(0, |all, &f| all | u32::from_ne_bytes(f));
    if u32::from_be(bits) > MOST_FRAME {
        return Err(10);
    }
    Ok((n, frames, film))
}

/// Two slots, before and after, and the least delay of the link they were found on.
struct Span {
    from: usize,
    to: usize,
    delay: usize,
}

/// The rate that two slots ask for; any two give a rate that is no larger than the peak.
fn asked(lower: &[i64], upper: &[i64], from: usize, to: usize) -> i64 {
    let gap = (to - from) as i64;
    (lower[to] - upper[from] + gap - 1) / gap
}

/// The least p with lower[k] <= upper[j] + p * (k - j) for all j < k, by Newton's method
/// from the rates asked for by the slots that set the peaks of earlier links.
fn least_peak(lower: &[i64], upper: &[i64], delay: usize, spans: &mut Vec<Span>) -> i64 {
    let last = lower.len() - 1;
    // Slot 0 carries nothing, so the whole must come in the slots up to `full`.
    let full = lower.partition_point(|&x| x < lower[last]);
    if full == 0 {
        return 0;
    }
    let mut p = asked(lower, upper, 0, full);
    for span in spans.iter() {
        p = p.max(asked(lower, upper, span.from, span.to));
        let (from, to) = (span.from + delay, span.to + delay);
        if from >= span.delay && to <= last + span.delay {
            p = p.max(asked(lower, upper, from - span.delay, to - span.delay));
        }
    }
    let mut found = None;
    while let Some((from, to)) = greatest_violation(lower, upper, p) {
        p = asked(lower, upper, from, to);
        found = Some(Span { from, to, delay });
    }
    spans.extend(found);
    p
}

/// The slots j < k with the greatest excess of lower[k] over upper[j] + p * (k - j), if any has one.
///
/// Both rows are seen less p for each slot. A block in which the highest of the lower row
/// passes the least of the upper row so far by no more than the greatest excess known holds
/// no greater one, and is not looked at slot by slot.
fn greatest_violation(lower: &[i64], upper: &[i64], p: i64) -> Option<(usize, usize)> {
    let mut ramp = [0; BLOCK];
    for (i, x) in ramp.iter_mut().enumerate() {
        *x = p * i as i64;
    }
    let mut base = 0;
    // The least of the upper row before this slot, and the block it lies in.
    let mut reach = i64::MAX / 2;
    let mut reach_at = 0;
    let mut violation = 0;
    let mut from = (0, 0);
    let mut to = 0;

    let whole = lower.len() / BLOCK * BLOCK;
    let blocks = lower[..whole]
        .chunks_exact(BLOCK)
        .zip(upper[..whole].chunks_exact(BLOCK));
    for (number, (low, high)) in blocks.enumerate() {
        let mut most = i64::MIN;
        let mut least = i64::MAX;
        for i in 0..BLOCK {
            most = most.max(low[i] - ramp[i]);
            least = least.min(high[i] - ramp[i]);
        }
        let (most, least) = (most - base, least - base);
        if most - reach.min(least) > violation {
            for i in 0..BLOCK {
                let v = low[i] - ramp[i] - base - reach;
                if v > violation {
                    violation = v;
                    from = (reach, reach_at);
                    to = number * BLOCK + i;
                }
                let h = high[i] - ramp[i] - base;
                if h < reach {
                    reach = h;
                    reach_at = number;
                }
            }
        } else if least < reach {
            reach = least;
            reach_at = number;
        }
        base += p * BLOCK as i64;
    }
    for k in whole..lower.len() {
        let v = lower[k] - p * k as i64 - reach;
        if v > violation {
            violation = v;
            from = (reach, reach_at);
            to = k;
        }
        let h = upper[k] - p * k as i64;
        if h < reach {
            reach = h;
            reach_at = k / BLOCK;
        }
    }
    if violation == 0 {
        return None;
    }
    let (value, block) = from;
    let mut j = block * BLOCK;
    while upper[j] - p * j as i64 != value {
        j += 1;
    }
    Some((j, to))
}

/// The lazy row of `lower` at `rate`.
fn lazy(lower: &[i64], rate: i64, row: &mut [u64]) {
    let mut next = 0;
    for (r, &l) in row.iter_mut().zip(lower).rev() {
        next = l.max(next - rate);
        *r = next as u64;
    }
}

/// Raises the rows of the plan to the least that keep the rules between links.
fn close(nodes: &[Node], plan: &mut [u64], slots: usize, a: usize, e: usize) {
    for (v, node) in nodes.iter().enumerate().skip(1).rev() {
        if node.parent != 0 {
            let (above, row) = two(plan, slots, node.parent, v, a, e);
            for (x, &r) in above.iter_mut().zip(row.iter()) {
                *x = (*x as i64).max(r as i64) as u64;
            }
        }
    }
    for (v, node) in nodes.iter().enumerate().skip(1) {
        if node.parent != 0 {
            let memory = nodes[node.parent].memory;
            let (above, row) = two(plan, slots, node.parent, v, a, e);
            for (r, &x) in row.iter_mut().zip(above.iter()) {
                *r = (*r as i64).max(x as i64 - memory) as u64;
            }
        }
    }
}
