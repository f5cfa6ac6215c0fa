//! The tree where a search ended, read from the original's nodes. It stands below `pn`, since they are private there.

use super::{Bounds, NodeID, Prover, FLAG_AND, FLAG_EXPANDED};

/// The cause of a pool that is short.
const SHORT: u32 = 2;

#[derive(Clone, Debug, PartialEq, Eq)]
pub enum Tree {
    /// Proved or disproved. The original frees all that stood below such a node.
    Solved(bool),
    /// An open leaf: neither solved nor expanded.
    Open,
    /// Expanded and not solved. It is the root's own side that moves, or the other; `last` is the move last taken.
    Expanded { own: bool, last: Option<u8>, children: Vec<Tree> },
}

impl Tree {
    pub fn of(prover: &Prover) -> Tree {
        below(prover, prover.root)
    }
}

fn below(prover: &Prover, id: NodeID) -> Tree {
    let node = prover.nodes.get(id);
    if node.bounds.solved() {
        assert!(!node.first_child.exists(), "nothing is kept below a solved node");
        return Tree::Solved(node.proof() == 0);
    }
    if !node.flag(FLAG_EXPANDED) || taken_back(prover, id) {
        assert_eq!(node.bounds, Bounds::unity(), "an open leaf has the numbers that it was made with");
        return Tree::Open;
    }
    let mut children = Vec::new();
    let mut next = node.first_child;
    while next.exists() {
        children.push(below(prover, next));
        next = prover.nodes.get(next).sibling;
    }
    Tree::Expanded { own: !node.flag(FLAG_AND), last: node.last(), children }
}

/// A leaf that the patch of step 3 has expanded though the pool is short. The search ends there, and its counts are set
/// back but not the leaf, where the cursor stands. By MANUAL, Search, step 3 no child of it was made.
fn taken_back(prover: &Prover, id: NodeID) -> bool {
    prover.cause == SHORT && id == prover.cursor.current()
}
