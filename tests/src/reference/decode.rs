//! Reading the trie of an image: its nodes and its leaves. Every function here takes any
//! bodies; bits behind the end of a body read as zero.

use super::build::EXTRA_LABEL;
use super::format::{bit, Frame, DC, DL, DP, NODE_BITS, SB, SC, SL, SV};
use super::keys::{MAX_KEY, MAX_KEYS};
use super::leaves::Leaf;

/// Where a branch leads: to the node with a number, or to the leaf with a slot.
#[derive(Clone, Copy, Debug, PartialEq, Eq)]
pub enum Target {
    Child(usize),
    Slot(usize),
}

/// A branch of a node.
#[derive(Clone, Debug, PartialEq, Eq)]
pub struct Branch {
    pub label: u8,
    pub target: Target,
}

/// A node: its branches as they stand, and its slot if it is an exact leaf.
#[derive(Clone, Debug, PartialEq, Eq)]
pub struct Node {
    pub exact: Option<usize>,
    pub branches: Vec<Branch>,
}

/// A node before its branches are numbered: whether it is an exact leaf, and its labels,
/// each with whether its branch continues.
struct RawNode {
    exact: bool,
    branches: Vec<(u8, bool)>,
}

/// The child and the slot that come next in level order.
struct Numbering {
    child: usize,
    slot: usize,
}

impl Numbering {
    /// Numbers a node: an exact leaf's slot before those of its branches.
    fn node(&mut self, raw: RawNode) -> Node {
        let exact = raw.exact.then(|| self.take_slot());
        let branch = |(label, continues)| Branch {
            label,
            target: match continues {
                true => Target::Child(self.take_child()),
                false => Target::Slot(self.take_slot()),
            },
        };
        let branches = raw.branches.into_iter().map(branch).collect();
        Node { exact, branches }
    }

    /// Gives the next child.
    fn take_child(&mut self) -> usize {
        self.child += 1;
        self.child - 1
    }

    /// Gives the next slot.
    fn take_slot(&mut self) -> usize {
        self.slot += 1;
        self.slot - 1
    }
}

/// Gives the nodes of an image in level order; the j-th continuing branch, from 1, leads
/// to node j.
pub fn nodes(frame: &Frame) -> Vec<Node> {
    let mut numbering = Numbering { child: 1, slot: 0 };
    let raw = dense_nodes(frame).into_iter().chain(sparse_nodes(frame));
    raw.map(|node| numbering.node(node)).collect()
}

/// Reads the dense nodes, as many as D-Labels holds.
fn dense_nodes(frame: &Frame) -> Vec<RawNode> {
    let [labels, has_child, is_prefix_key] = [DL, DC, DP].map(|body| frame.bodies[body]);
    let branches = |node: usize| {
        (0..=0xFF)
            .map(|label: u8| (label, node * NODE_BITS + usize::from(label)))
            .filter(|&(_, position)| bit(labels, position))
            .map(|(label, position)| (label, bit(has_child, position)))
            .collect()
    };
    (0..labels.len() * 8 / NODE_BITS)
        .map(|node| RawNode {
            exact: bit(is_prefix_key, node),
            branches: branches(node),
        })
        .collect()
}

/// Reads the sparse nodes. The first entry starts one whatever its bit, and an FF that
/// starts a node of several entries is the extra label of an exact leaf.
fn sparse_nodes(frame: &Frame) -> Vec<RawNode> {
    let [labels, has_child, louds] = [SL, SC, SB].map(|body| frame.bodies[body]);
    let mut nodes: Vec<RawNode> = Vec::new();
    for (position, &label) in labels.iter().enumerate() {
        let first = position == 0 || bit(louds, position);
        let last = position + 1 == labels.len() || bit(louds, position + 1);
        if first {
            nodes.push(RawNode {
                exact: label == EXTRA_LABEL && !last,
                branches: Vec::new(),
            });
        }
        let node = nodes.last_mut().expect("the first entry starts a node");
        if !(first && node.exact) {
            node.branches.push((label, bit(has_child, position)));
        }
    }
    nodes
}

/// Gives the leaves of an image with these nodes in key order, or nothing where a branch
/// leads to no node, a cut key is too long or the leaves are too many.
pub fn leaves(frame: &Frame, nodes: &[Node]) -> Option<Vec<Leaf>> {
    let mut leaves = Vec::new();
    if !nodes.is_empty() {
        descend(frame, nodes, 0, &mut Vec::new(), &mut leaves)?;
    }
    Some(leaves)
}

/// Collects the leaves at and below a node; the prefix grows each time, so that this ends
/// at the longest key.
fn descend(
    frame: &Frame,
    nodes: &[Node],
    number: usize,
    prefix: &mut Vec<u8>,
    leaves: &mut Vec<Leaf>,
) -> Option<()> {
    let node = nodes.get(number)?;
    if prefix.len() == MAX_KEY {
        return None;
    }
    if let Some(slot) = node.exact {
        leaves.push(leaf(frame, prefix, true, slot));
    }
    for branch in &node.branches {
        if leaves.len() >= MAX_KEYS {
            return None;
        }
        prefix.push(branch.label);
        match branch.target {
            Target::Child(child) => descend(frame, nodes, child, prefix, leaves)?,
            Target::Slot(slot) => leaves.push(leaf(frame, prefix, false, slot)),
        }
        prefix.pop();
    }
    Some(())
}

/// Gives one leaf with the bits in its slot, the hash bits before the real bits.
fn leaf(frame: &Frame, cut_key: &[u8], exact: bool, slot: usize) -> Leaf {
    let slot_bits = frame.header.settings.slot_bits() as usize;
    let mut bits = (0..slot_bits).map(|i| bit(frame.bodies[SV], slot * slot_bits + i));
    let hash = bits.by_ref().take(frame.header.settings.h as usize);
    Leaf {
        cut_key: cut_key.to_vec(),
        exact,
        hash: hash.collect(),
        real: bits.collect(),
    }
}
