//! What the choice of an answer's memories came upon.

use crate::job::Job;
use crate::lazy::Sizes;
use crate::section::Tally;

/// How many children are many, and how many nodes are a long chain.
const MANY: usize = 8;

/// A tree with the needs and the memories of an answer. The root has place 0 in each
/// list and needs nothing.
struct Chosen {
    children: Vec<Vec<usize>>,
    needs: Vec<u64>,
    memories: Vec<u64>,
    /// What each node is asked for: the least sum of memories on a way down to a leaf.
    asks: Vec<u64>,
}

/// Counts what an answer came upon.
pub fn count(job: &Job, sizes: &Sizes, tally: &mut Tally) {
    let chosen = Chosen::new(job, sizes);
    let (inner, leaves) = (job.nodes(true), job.nodes(false));
    let looks: [(&'static str, &[usize], fn(&Chosen, usize) -> bool); 7] = [
        (
            "answers with a memory at an inner node",
            &inner,
            Chosen::has_memory,
        ),
        (
            "answers with an inner node asked for more than its need",
            &inner,
            Chosen::is_asked_for_more,
        ),
        (
            "answers with a leaf asked for more than its need",
            &leaves,
            Chosen::is_asked_for_more,
        ),
        (
            "answers with an only child of less need",
            &inner,
            Chosen::has_only_child_of_less_need,
        ),
        (
            "answers with a tie of the least need above 0",
            &inner,
            Chosen::has_tie,
        ),
        (
            "answers with 8 children of one node",
            &inner,
            Chosen::has_many_children,
        ),
        (
            "answers with a chain of 8 nodes",
            &inner,
            Chosen::heads_chain,
        ),
    ];
    for (what, nodes, is) in looks {
        tally.one_if(what, nodes.iter().any(|&node| is(&chosen, node)));
    }
    let zeros = sizes.needs.iter().filter(|&&need| need == 0).count();
    tally.one_if("answers with all needs 0", zeros == sizes.needs.len());
    tally.one_if("answers with some needs 0", zeros > 0 && sizes.total > 0);
}

impl Chosen {
    fn new(job: &Job, sizes: &Sizes) -> Self {
        let with_root = |list: &[u64]| [&[0], list].concat();
        let children = job.children();
        let memories = with_root(&sizes.memories);
        let mut asks = memories.clone();
        for node in (1..children.len()).rev() {
            let below = children[node].iter().map(|&child| asks[child]);
            asks[node] += below.min().unwrap_or(0);
        }
        Chosen {
            children,
            needs: with_root(&sizes.needs),
            memories,
            asks,
        }
    }

    fn has_memory(&self, node: usize) -> bool {
        self.memories[node] > 0
    }

    fn is_asked_for_more(&self, node: usize) -> bool {
        self.asks[node] > self.needs[node]
    }

    fn has_only_child_of_less_need(&self, node: usize) -> bool {
        matches!(self.children[node][..], [child] if self.needs[child] < self.needs[node])
    }

    /// Whether several children have the least need, above 0 and below the node's own.
    fn has_tie(&self, node: usize) -> bool {
        let needs = self.children[node].iter().map(|&child| self.needs[child]);
        let least = needs.clone().min().unwrap_or(0);
        let several = needs.filter(|&need| need == least).count() > 1;
        several && least > 0 && least < self.needs[node]
    }

    fn has_many_children(&self, node: usize) -> bool {
        self.children[node].len() >= MANY
    }

    /// Whether a long chain of only children starts at a node that needs something.
    fn heads_chain(&self, mut node: usize) -> bool {
        let needed = self.needs[node] > 0;
        let mut nodes = 1;
        while let [child] = self.children[node][..] {
            (node, nodes) = (child, nodes + 1);
        }
        needed && nodes >= MANY
    }
}
