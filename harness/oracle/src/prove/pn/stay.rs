//! Staying on a line (MANUAL), which the original has not: the move that each node remembers, and the
//! child that is taken again. It stands below `pn` to use its nodes; `select_most_proving` is patched to ask here.

use super::{Node, NodeID, Prover};

/// The three flags of a node stand in the low eight of sixteen bits. The eight above them hold one more than the move
/// last taken, and 0 for none: the original sets all sixteen anew when it makes or frees a node.
const ABOVE_FLAGS: u32 = 8;

impl Node {
    /// The move last taken from it.
    pub(super) fn last(&self) -> Option<u8> {
        (self.flags >> ABOVE_FLAGS).checked_sub(1).map(|number| number as u8)
    }
}

/// Notes the move that leads from a node to the child that is gone to.
pub(super) fn remember(prover: &mut Prover, id: NodeID, child: NodeID) {
    let taken = u16::from(prover.nodes.get(child).r#move.bits()) + 1;
    let node = prover.nodes.get_mut(id);
    node.flags = node.flags % (1 << ABOVE_FLAGS) + (taken << ABOVE_FLAGS);
}

/// The child that was taken last, if the setting has it taken again; else none.
pub(super) fn taken_again(prover: &Prover, node: &Node) -> NodeID {
    let Some(margin) = prover.config.stay else { return NodeID::none() };
    let mut next = node.first_child;
    while next.exists() {
        let child = prover.nodes.get(next);
        if node.last() == Some(child.r#move.bits()) && is_near(node, child, margin) {
            return next;
        }
        next = child.sibling;
    }
    NodeID::none()
}

/// The child is unsolved, and its delta is at most the node's phi and so many 256ths of it more.
fn is_near(node: &Node, child: &Node, margin: u64) -> bool {
    let (delta, phi) = (u64::from(child.bounds.delta), u64::from(node.bounds.phi));
    !child.bounds.solved() && 256 * delta <= phi * (256 + margin)
}
