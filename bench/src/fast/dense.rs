//! The dense nodes of an accepted image and their branches, which are bits.

use super::bits::{bit, next_one, rank, word};
use super::check::Accepted;
use range_filter_tests::reference::format::{DC, DL, DP, NODE_BITS, RC, RL, RP};

/// The words of a node.
const NODE_WORDS: usize = NODE_BITS / 64;

/// The dense nodes.
pub struct Dense<'a> {
    labels: &'a [u8],
    has_child: &'a [u8],
    prefix_keys: &'a [u8],
    label_ranks: &'a [u8],
    child_ranks: &'a [u8],
    prefix_key_ranks: &'a [u8],
}

impl<'a> Dense<'a> {
    /// Takes the dense nodes of an accepted image.
    pub fn new(image: &Accepted<'a>) -> Self {
        let [labels, has_child, prefix_keys, label_ranks, child_ranks, prefix_key_ranks] =
            [DL, DC, DP, RL, RC, RP].map(|body| image.frame.bodies[body]);
        Dense {
            labels,
            has_child,
            prefix_keys,
            label_ranks,
            child_ranks,
            prefix_key_ranks,
        }
    }

    /// Says whether a node is an exact leaf.
    #[inline]
    pub fn is_exact(&self, node: usize) -> bool {
        bit(self.prefix_keys, node)
    }

    /// Gives the first branch of a node, or nothing where it is an exact leaf.
    #[inline]
    pub fn first(&self, node: usize) -> Option<usize> {
        let [start, end] = [node * NODE_BITS, (node + 1) * NODE_BITS];
        (!self.is_exact(node)).then(|| next_one(self.labels, start, end))
    }

    /// Gives the last branch of a node; each node has one.
    #[inline]
    pub fn last(&self, node: usize) -> usize {
        let words = (node * NODE_WORDS..(node + 1) * NODE_WORDS).rev();
        let mut lasts = words.filter_map(|index| {
            let bit = word(self.labels, index).checked_ilog2()?;
            Some(index * 64 + bit as usize)
        });
        lasts.next().unwrap_or(node * NODE_BITS)
    }

    /// Gives the branch of a node with a label.
    #[inline]
    pub fn branch(&self, node: usize, label: u8) -> Option<usize> {
        let position = node * NODE_BITS + usize::from(label);
        bit(self.labels, position).then_some(position)
    }

    /// Gives the first branch of a node whose label is not below another.
    #[inline]
    pub fn branch_from(&self, node: usize, label: u8) -> Option<usize> {
        let end = (node + 1) * NODE_BITS;
        let found = next_one(self.labels, node * NODE_BITS + usize::from(label), end);
        (found < end).then_some(found)
    }

    /// Gives the first branch of a node from one of its positions on, which there has to be.
    #[inline]
    pub fn first_at(&self, position: usize) -> usize {
        next_one(self.labels, position, self.labels.len() * 8)
    }

    /// Gives the next branch of the same node.
    #[inline]
    pub fn next(&self, position: usize) -> Option<usize> {
        let label = self.label(position).checked_add(1)?;
        self.branch_from(position / NODE_BITS, label)
    }

    /// Gives the label of a branch.
    #[inline]
    pub fn label(&self, position: usize) -> u8 {
        (position % NODE_BITS) as u8
    }

    /// Says whether a branch continues.
    #[inline]
    pub fn has_child(&self, position: usize) -> bool {
        bit(self.has_child, position)
    }

    /// Counts the continuing branches before a position.
    #[inline]
    pub fn children_before(&self, position: usize) -> usize {
        rank(self.has_child, self.child_ranks, position)
    }

    /// Counts the slots before a position, exact leaves of nodes up to its own apart.
    #[inline]
    fn open_slots_before(&self, position: usize) -> usize {
        rank(self.labels, self.label_ranks, position) - self.children_before(position)
    }

    /// Counts the slots before a node; its exact leaf is not.
    #[inline]
    pub fn slots_before_node(&self, node: usize) -> usize {
        let exact = rank(self.prefix_keys, self.prefix_key_ranks, node);
        self.open_slots_before(node * NODE_BITS) + exact
    }

    /// Counts the slots before a position of a node; its exact leaf is.
    #[inline]
    pub fn slots_before(&self, position: usize) -> usize {
        let node = position / NODE_BITS;
        let exact = rank(self.prefix_keys, self.prefix_key_ranks, node);
        self.open_slots_before(position) + exact + usize::from(self.is_exact(node))
    }
}
