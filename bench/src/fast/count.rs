//! Counts. Where the bounds of a range part, two positions go down level by level, and what
//! is between them is counted; before that nothing is.

use super::range::Parting;
use super::trie::{Before, Trie};
use std::cmp::Ordering;

/// A bound of a range on some level: the first node that is not before it, and the bytes
/// that are left of the bound if the node is on its way.
#[derive(Clone, Copy)]
struct Bound<'k> {
    node: usize,
    on_way: Option<&'k [u8]>,
    side: Side,
}

/// Which bound of a range it is: the lower one passes the leaves that end below it, the
/// upper one those that start not above it.
#[derive(Clone, Copy, PartialEq, Eq)]
enum Side {
    Lower,
    Upper,
}

impl Trie<'_> {
    /// Counts the leaves with a possible key in a range.
    pub fn count(&self, lower: &[u8], upper: &[u8]) -> u32 {
        match self.part(lower, upper) {
            Parting::Nowhere => 0,
            Parting::Leaf { leaf, lower, upper } => self.leaf_meets(leaf, lower, upper).into(),
            Parting::Node { node, lower, upper } => self.count_below(node, lower, upper),
        }
    }

    /// Counts the leaves at or below a node that are in a range whose bounds part there,
    /// until the bounds stand at the same place and have no way on.
    fn count_below(&self, node: usize, lower: &[u8], upper: &[u8]) -> u32 {
        let bound = |side, rest| Bound {
            node,
            on_way: Some(rest),
            side,
        };
        let mut lower = bound(Side::Lower, lower);
        let mut upper = bound(Side::Upper, upper);
        let mut count = 0;
        while lower.on_way.is_some() || upper.on_way.is_some() {
            count += self.pass(&mut upper);
            count -= self.pass(&mut lower);
        }
        (count + self.count_between(lower.node, upper.node)) as u32
    }

    /// Counts the leaves at or below the nodes of a level from one on and before another.
    fn count_between(&self, mut from: usize, mut to: usize) -> usize {
        let mut count = 0;
        while from != to {
            let first = self.before_node(from);
            let behind = self.before_node(to);
            count += behind.slots - first.slots;
            from = first.node();
            to = behind.node();
        }
        count
    }

    /// Takes a bound to the next level, and gives the slots that it passes on its own, from
    /// the first of the image on.
    #[inline]
    fn pass(&self, bound: &mut Bound) -> usize {
        let (before, on_way) = match bound.on_way {
            None => (self.before_node(bound.node), None),
            Some([]) => (self.before_end(bound), None),
            Some([label, rest @ ..]) => self.before_label(bound, *label, rest),
        };
        bound.node = before.node();
        bound.on_way = on_way;
        before.slots
    }

    /// Counts what is before a bound that ends at its node: the upper one passes an exact
    /// leaf.
    fn before_end(&self, bound: &Bound) -> Before {
        let mut before = self.before_node(bound.node);
        let passes = bound.side == Side::Upper && self.is_exact(bound.node);
        before.slots += usize::from(passes);
        before
    }

    /// Counts what is before a bound that goes on with a label, and gives the rest of it
    /// where its way does so.
    #[inline]
    fn before_label<'k>(
        &self,
        bound: &Bound,
        label: u8,
        rest: &'k [u8],
    ) -> (Before, Option<&'k [u8]>) {
        let step = self.step(bound.node, label);
        let mut before = step.before;
        let Some(branch) = step.branch.filter(|_| step.on_label) else {
            return (before, None);
        };
        if self.has_child(branch) {
            return (before, Some(rest));
        }
        let passes = match self.compare_slot(before.slots, rest) {
            Ordering::Less => true,
            Ordering::Equal => bound.side == Side::Upper,
            Ordering::Greater => false,
        };
        before.slots += usize::from(passes);
        (before, None)
    }
}
