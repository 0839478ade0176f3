//! Moving over the trie of an accepted image, whose upper nodes are dense and whose lower
//! ones are sparse.

use super::bits::below;
use super::check::{slot, Accepted};
use super::dense::Dense;
use super::hash::hash_bits;
use super::sparse::Sparse;
use range_filter_tests::reference::format::NODE_BITS;
use range_filter_tests::reference::keys::MAX_KEY;
use std::cmp::Ordering;
use std::ops::Range;

/// The trie of an accepted image.
pub struct Trie<'a> {
    pub image: &'a Accepted<'a>,
    dense: Dense<'a>,
    sparse: Sparse<'a>,
    dense_nodes: usize,
    dense_children: usize,
    dense_leaves: usize,
    pub levels: usize,
    pub slots_before_levels: usize,
    hash_bits: usize,
    real_bits: usize,
}

/// A branch: a bit of D-Labels or a sparse entry.
#[derive(Clone, Copy)]
pub enum Branch {
    Dense(usize),
    Sparse(usize),
}

impl Branch {
    /// Gives the number of the bit or entry.
    #[inline]
    pub fn position(self) -> usize {
        match self {
            Branch::Dense(position) | Branch::Sparse(position) => position,
        }
    }
}

/// The continuing branches and the slots before a node or branch in level order.
#[derive(Clone, Copy, Default)]
pub struct Before {
    pub children: usize,
    pub slots: usize,
}

/// Where a label leads from a node: the first branch whose label is not below it, if there
/// is one, whether this has the label, and what is before it.
pub struct Step {
    pub before: Before,
    pub branch: Option<Branch>,
    pub on_label: bool,
}

/// The start of a node: what is before it, and its first branch unless it is an exact leaf.
pub struct Start {
    pub before: Before,
    pub branch: Option<Branch>,
}

/// What a node holds: where it starts, whether it is an exact leaf, and the positions of its
/// branches, up to the last one's.
pub struct Span {
    pub start: usize,
    pub is_exact: bool,
    pub positions: Range<usize>,
}

impl Before {
    /// Gives the first node that is not the child of a branch before.
    #[inline]
    pub fn node(self) -> usize {
        self.children + 1
    }
}

impl<'a> Trie<'a> {
    /// Takes an accepted image.
    pub fn new(image: &'a Accepted<'a>) -> Self {
        let starts = &image.levels.starts[..image.levels.count];
        let settings = image.frame.header.settings;
        Trie {
            image,
            dense: Dense::new(image),
            sparse: Sparse::new(image),
            dense_nodes: image.dense.nodes,
            dense_children: image.dense.children,
            dense_leaves: image.dense.leaves,
            levels: image.levels.count,
            slots_before_levels: starts.iter().map(|start| start.leaves).sum(),
            hash_bits: settings.h as usize,
            real_bits: settings.n as usize,
        }
    }

    /// Says whether there are no leaves, and so no nodes.
    pub fn is_empty(&self) -> bool {
        self.leaves() == 0
    }

    /// Gives the number of leaves.
    pub fn leaves(&self) -> u32 {
        self.image.frame.header.leaves
    }

    /// Gives the branch of a node with a label.
    #[inline]
    pub fn branch(&self, node: usize, label: u8) -> Option<Branch> {
        match node.checked_sub(self.dense_nodes) {
            None => self.dense.branch(node, label).map(Branch::Dense),
            Some(node) => self.sparse.branch(node, label).map(Branch::Sparse),
        }
    }

    /// Gives the first branch of a node whose label is not below another.
    #[inline]
    pub fn branch_from(&self, node: usize, label: u8) -> Option<Branch> {
        match node.checked_sub(self.dense_nodes) {
            None => self.dense.branch_from(node, label).map(Branch::Dense),
            Some(node) => self.sparse.branch_from(node, label).map(Branch::Sparse),
        }
    }

    /// Gives the first branch of a node, or nothing where it is an exact leaf.
    #[inline]
    pub fn first(&self, node: usize) -> Option<Branch> {
        match node.checked_sub(self.dense_nodes) {
            None => self.dense.first(node).map(Branch::Dense),
            Some(node) => self.sparse.first(node).map(Branch::Sparse),
        }
    }

    /// Gives the last branch of a node.
    #[inline]
    pub fn last(&self, node: usize) -> Branch {
        match node.checked_sub(self.dense_nodes) {
            None => Branch::Dense(self.dense.last(node)),
            Some(node) => Branch::Sparse(self.sparse.last(node)),
        }
    }

    /// Says whether a node is an exact leaf.
    #[inline]
    pub fn is_exact(&self, node: usize) -> bool {
        match node.checked_sub(self.dense_nodes) {
            None => self.dense.is_exact(node),
            Some(node) => self.sparse.is_exact(self.sparse.start(node)),
        }
    }

    /// Gives the next branch of the same node.
    #[inline]
    pub fn next(&self, branch: Branch) -> Option<Branch> {
        match branch {
            Branch::Dense(position) => self.dense.next(position).map(Branch::Dense),
            Branch::Sparse(entry) => self.sparse.next(entry).map(Branch::Sparse),
        }
    }

    /// Gives the label of a branch.
    #[inline]
    pub fn label(&self, branch: Branch) -> u8 {
        match branch {
            Branch::Dense(position) => self.dense.label(position),
            Branch::Sparse(entry) => self.sparse.label(entry),
        }
    }

    /// Says whether a branch continues.
    #[inline]
    pub fn has_child(&self, branch: Branch) -> bool {
        match branch {
            Branch::Dense(position) => self.dense.has_child(position),
            Branch::Sparse(entry) => self.sparse.has_child(entry),
        }
    }

    /// Gives the node that a branch leads to, or nothing where it is an open leaf.
    #[inline]
    pub fn child(&self, branch: Branch) -> Option<usize> {
        self.has_child(branch).then(|| match branch {
            Branch::Dense(position) => self.dense.children_before(position) + 1,
            Branch::Sparse(entry) => self.before_entry(entry).node(),
        })
    }

    /// Counts what is before a branch; its node's exact leaf is.
    #[inline]
    pub fn before(&self, branch: Branch) -> Before {
        match branch {
            Branch::Dense(position) => self.before_position(position),
            Branch::Sparse(entry) => self.before_entry(entry),
        }
    }

    /// Counts what is before a bit of a dense node; the node's exact leaf is.
    #[inline]
    fn before_position(&self, position: usize) -> Before {
        Before {
            children: self.dense.children_before(position),
            slots: self.dense.slots_before(position),
        }
    }

    /// Counts what is before a sparse entry, or before the end of them.
    #[inline(always)]
    fn before_entry(&self, entry: usize) -> Before {
        let children = self.sparse.children_before(entry);
        Before {
            children: self.dense_children + children,
            slots: self.dense_leaves + entry - children,
        }
    }

    /// Counts what is before a node, or before the end of them; its exact leaf is not.
    #[inline(always)]
    pub fn before_node(&self, node: usize) -> Before {
        match node.checked_sub(self.dense_nodes) {
            None => Before {
                children: self.dense.children_before(node * NODE_BITS),
                slots: self.dense.slots_before_node(node),
            },
            Some(node) => self.before_entry(self.sparse.start(node)),
        }
    }

    /// Gives the start of a node.
    #[inline]
    pub fn start(&self, node: usize) -> Start {
        match node.checked_sub(self.dense_nodes) {
            None => Start {
                before: self.before_node(node),
                branch: self.first(node),
            },
            Some(node) => {
                let start = self.sparse.start(node);
                Start {
                    before: self.before_entry(start),
                    branch: (!self.sparse.is_exact(start)).then_some(Branch::Sparse(start)),
                }
            }
        }
    }

    /// Gives what is before each level.
    pub fn before_levels(&self) -> [Before; MAX_KEY] {
        self.image.levels.starts.map(|start| Before {
            children: start.children,
            slots: start.leaves,
        })
    }

    /// Gives the position of a node from its number and from what is before it: its first
    /// bit, or its first entry.
    pub fn position(&self, node: usize, before: Before) -> usize {
        match node < self.dense_nodes {
            true => node * NODE_BITS,
            false => before.children + before.slots - self.dense_children - self.dense_leaves,
        }
    }

    /// Counts what is before a position of a node; its exact leaf is.
    #[inline]
    pub fn before_at(&self, node: usize, position: usize) -> Before {
        match node < self.dense_nodes {
            true => self.before_position(position),
            false => self.before_entry(position),
        }
    }

    /// Gives the first branch of a node from a position on, which there has to be.
    #[inline]
    pub fn first_at(&self, node: usize, position: usize) -> Branch {
        match node < self.dense_nodes {
            true => Branch::Dense(self.dense.first_at(position)),
            false => Branch::Sparse(position),
        }
    }

    /// Gives what a node holds, with what is before it known.
    pub fn span(&self, node: usize, before: Before) -> Span {
        let start = self.position(node, before);
        if node < self.dense_nodes {
            return Span {
                start,
                is_exact: self.dense.is_exact(node),
                positions: start..self.dense.last(node) + 1,
            };
        }
        let is_exact = self.sparse.is_exact(start);
        Span {
            start,
            is_exact,
            positions: start + usize::from(is_exact)..self.sparse.end(start),
        }
    }

    /// Takes a label from a node.
    #[inline]
    pub fn step(&self, node: usize, label: u8) -> Step {
        match node.checked_sub(self.dense_nodes) {
            None => Step {
                before: self.before_position(node * NODE_BITS + usize::from(label)),
                branch: self.dense.branch_from(node, label).map(Branch::Dense),
                on_label: self.dense.branch(node, label).is_some(),
            },
            Some(node) => {
                let found = self.sparse.search(node, label);
                Step {
                    before: self.before_entry(found.entry),
                    branch: found.branch().map(Branch::Sparse),
                    on_label: found.on_label,
                }
            }
        }
    }

    /// Says whether an open leaf has the suffix of a key that is cut behind so many bytes. The
    /// hash is taken only where the real bits agree; where slots have no bits none is looked
    /// for.
    #[inline]
    pub fn leaf_has(&self, leaf: Branch, key: &[u8], cut: usize) -> bool {
        if self.hash_bits + self.real_bits == 0 {
            return true;
        }
        let suffix = slot(&self.image.frame, self.before(leaf).slots);
        let real = self.real_bits_of(&key[cut..]).reverse_bits();
        suffix >> self.hash_bits == u64::from(real)
            && suffix & below(self.hash_bits) == hash_bits(key, self.hash_bits)
    }

    /// Compares the real bits of an open leaf with those of a key behind the cut; where there
    /// are none no slot is looked for.
    #[inline]
    pub fn compare_leaf(&self, leaf: Branch, behind_cut: &[u8]) -> Ordering {
        match self.real_bits {
            0 => Ordering::Equal,
            _ => self.compare_slot(self.before(leaf).slots, behind_cut),
        }
    }

    /// Compares the real bits in a slot with those of a key behind the cut.
    #[inline]
    pub fn compare_slot(&self, number: usize, behind_cut: &[u8]) -> Ordering {
        self.real_bits_in(number)
            .cmp(&self.real_bits_of(behind_cut))
    }

    /// Gives the real bits of a key behind the cut as the high bits of two bytes.
    #[inline]
    fn real_bits_of(&self, behind_cut: &[u8]) -> u16 {
        let byte = |at: usize| behind_cut.get(at).copied().unwrap_or(0);
        let kept = !(0xFFFF_u32 >> self.real_bits) as u16;
        u16::from_be_bytes([byte(0), byte(1)]) & kept
    }

    /// Reads the real bits in a slot as the high bits of two bytes.
    #[inline]
    pub fn real_bits_in(&self, number: usize) -> u16 {
        match self.real_bits {
            0 => 0,
            _ => ((slot(&self.image.frame, number) >> self.hash_bits) as u16).reverse_bits(),
        }
    }
}
