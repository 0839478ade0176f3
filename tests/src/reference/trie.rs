//! The trie of leaves: its nodes in level order, as a builder writes them.

use super::leaves::Leaf;
use std::collections::BTreeMap;

/// A branch of a node: its label, and the number of its leaf unless it continues.
#[derive(Clone, Debug, PartialEq, Eq)]
pub struct Branch {
    pub label: u8,
    pub leaf: Option<usize>,
}

/// A node: its level, its branches by label, and the number of the exact leaf that it is.
#[derive(Clone, Debug, Default, PartialEq, Eq)]
pub struct Node {
    pub level: usize,
    pub exact: Option<usize>,
    pub branches: Vec<Branch>,
}

/// The nodes by their prefixes, each behind its level, so that they stand in level order.
pub type Trie<'a> = BTreeMap<(usize, &'a [u8]), Node>;

/// Gives the nodes in level order.
pub fn nodes(leaves: &[Leaf]) -> Vec<Node> {
    trie(leaves).into_values().collect()
}

/// Gives the trie, whose nodes are the proper prefixes of cut keys.
pub fn trie(leaves: &[Leaf]) -> Trie<'_> {
    let mut nodes = Trie::new();
    for (number, leaf) in leaves.iter().enumerate() {
        for (level, &label) in leaf.cut_key.iter().enumerate() {
            let node = nodes.entry((level, &leaf.cut_key[..level])).or_default();
            node.level = level;
            let ends = level + 1 == leaf.cut_key.len() && !leaf.exact;
            add_branch(node, label, ends.then_some(number));
        }
        if leaf.exact {
            let level = leaf.cut_key.len();
            let node = nodes.entry((level, &leaf.cut_key)).or_default();
            node.level = level;
            node.exact = Some(number);
        }
    }
    nodes
}

/// Adds a branch unless the cut key before goes through the same branch; cut keys come
/// in key order, so that labels ascend.
fn add_branch(node: &mut Node, label: u8, leaf: Option<usize>) {
    if node.branches.last().map(|branch| branch.label) != Some(label) {
        node.branches.push(Branch { label, leaf });
    }
}

/// Counts the trie entries: branches and exact leaves together.
pub fn entry_count(nodes: &[Node]) -> usize {
    let entries = |node: &Node| node.branches.len() + usize::from(node.exact.is_some());
    nodes.iter().map(entries).sum()
}
