//! A step of a running tree again, written for speed alone and sharing no code with the
//! library. The job is read and checked anew in each step here too.

use crate::library::{Running, StepAnswer};
use crate::peer::{add_up, last_slot, read, Node, MOST_FRAMES, MOST_NODES};

/// Memory of the stepper, written once when it is made.
pub struct Stepper {
    /// The sums of the film from 0 frames on.
    sums: Vec<i64>,
}

fn answer(number: u64, link: u64) -> StepAnswer {
    StepAnswer { number, link }
}

impl Stepper {
    pub fn new() -> Stepper {
        let mut sums = vec![1; MOST_FRAMES + 1];
        sums[0] = 0;
        Stepper { sums }
    }

    /// A step, taken by the stepper.
    pub fn step(
        &mut self,
        tree: &mut Running,
        job: &[u8],
        plan: &[u64],
        sent: &mut [u64],
        held: &mut [u64],
    ) -> StepAnswer {
        let mut nodes = [Node::default(); MOST_NODES];
        let (n, frames, film) = match read(job, &mut nodes) {
            Ok(read) => read,
            Err(number) => return answer(number, 0),
        };
        let nodes = &nodes[..n];
        let last = last_slot(nodes, frames);
        let slots = last + 1;
        if plan.len() != (n - 1) * slots || sent.len() != n - 1 || held.len() != n - 1 {
            return answer(11, 0);
        }
        if tree[0] >= last as u64 {
            return answer(100, 0);
        }
        let k = tree[0] as usize + 1;
        let total = add_up(film, &mut self.sums[1..]) as u64;
        let mut column = [0; MOST_NODES];
        for (v, x) in column[..n].iter_mut().enumerate().skip(1) {
            *x = plan[(v - 1) * slots + k];
        }
        let played = self.played(nodes, k, frames);
        let carried = &mut tree[1..=n];
        if let Some(link) = breach(nodes, &played, carried, &column, total) {
            return answer(14, link as u64);
        }
        report(nodes, &played, carried, &column, sent, held);
        carried[1..].copy_from_slice(&column[1..n]);
        tree[0] = k as u64;
        answer(0, 0)
    }

    /// What each leaf has played by slot k.
    fn played(&self, nodes: &[Node], k: usize, frames: usize) -> [u64; MOST_NODES] {
        let mut played = [0; MOST_NODES];
        for (plays, node) in played.iter_mut().zip(nodes) {
            *plays = self.sums[k.saturating_sub(node.delay).min(frames)] as u64;
        }
        played
    }
}

/// Whether x is below `least`, or above that and `room`.
fn outside(x: u64, least: u64, room: i64) -> bool {
    x < least || x - least > room as u64
}

/// The first link on which the column breaks a rule; one between two counts on the child's.
fn breach(
    nodes: &[Node],
    played: &[u64; MOST_NODES],
    carried: &[u64],
    column: &[u64; MOST_NODES],
    total: u64,
) -> Option<usize> {
    (1..nodes.len()).find(|&v| {
        let (x, node, u) = (column[v], nodes[v], nodes[v].parent);
        x < carried[v]
            || x > total
            || node.leaf && outside(x, played[v], node.memory)
            || u != 0 && outside(column[u], x, nodes[u].memory)
    })
}

/// What each link sends and each node then holds.
fn report(
    nodes: &[Node],
    played: &[u64; MOST_NODES],
    carried: &[u64],
    column: &[u64; MOST_NODES],
    sent: &mut [u64],
    held: &mut [u64],
) {
    let mut least_child = [u64::MAX; MOST_NODES];
    for v in (1..nodes.len()).rev() {
        let (x, node) = (column[v], nodes[v]);
        let behind = if node.leaf { played[v] } else { least_child[v] };
        sent[v - 1] = x - carried[v];
        held[v - 1] = x - behind;
        least_child[node.parent] = least_child[node.parent].min(x);
    }
}
