//! The stacks of a profile as a tree: a node is a frame with its callers.

use super::frames::FrameId;
use rustc_hash::FxHashMap;

/// The index of a node.
pub type NodeId = u32;

/// A frame with its callers.
#[derive(Clone, Copy, Debug, PartialEq, Eq, Hash)]
pub struct Node {
    /// The caller's node, which has a lower index. That of the outermost frames is [`Tree::ROOT`].
    pub caller: NodeId,
    /// The frame, by its index in [`Profile::frames`](super::Profile::frames).
    pub frame: u32,
}

/// The stacks of a profile.
#[derive(Clone, Debug)]
pub struct Tree {
    nodes: Vec<Node>,
    ids: FxHashMap<Node, NodeId>,
}

impl Default for Tree {
    fn default() -> Self {
        Tree { nodes: vec![Node { caller: Tree::ROOT, frame: u32::MAX }], ids: FxHashMap::default() }
    }
}

impl Tree {
    /// The node without a frame, which is the caller of the outermost frames.
    pub const ROOT: NodeId = 0;

    /// All nodes. The first one is the root. A caller comes before what it calls.
    pub fn nodes(&self) -> &[Node] {
        &self.nodes
    }

    /// Adds a stack whose frames are these, the innermost first. Returns the node of the innermost one.
    pub(super) fn add(&mut self, frames: impl DoubleEndedIterator<Item = FrameId>) -> NodeId {
        frames.rev().fold(Tree::ROOT, |caller, frame| self.node(Node { caller, frame }))
    }

    /// Adds the stacks of another tree, whose frames have these indices here. Returns for each of its nodes the
    /// node here.
    pub(super) fn add_tree(&mut self, other: &Tree, frames: &[FrameId]) -> Vec<NodeId> {
        let mut added = Vec::with_capacity(other.nodes.len());
        added.push(Tree::ROOT);
        for node in other.nodes.iter().skip(1) {
            added.push(self.node(Node { caller: added[node.caller as usize], frame: frames[node.frame as usize] }));
        }
        added
    }

    /// The index of a node, which is added if it isn't there.
    pub(super) fn node(&mut self, node: Node) -> NodeId {
        let next = self.nodes.len() as NodeId;
        let id = *self.ids.entry(node).or_insert(next);
        if id == next {
            self.nodes.push(node);
        }
        id
    }

    /// The frames of a stack, the innermost first.
    pub fn frames(&self, stack: NodeId) -> impl Iterator<Item = u32> + '_ {
        let mut at = stack;
        std::iter::from_fn(move || {
            let node = self.nodes.get(at as usize).filter(|_| at != Tree::ROOT)?;
            at = node.caller;
            Some(node.frame)
        })
    }
}
