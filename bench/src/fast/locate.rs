//! The leaf at a place, by a descent from the root. At each node the branch is found by
//! halving; the leaves that a branch passes are told by what is before it on its level and
//! on the levels below.

use super::trie::{Before, Trie};
use range_filter_tests::reference::keys::MAX_KEY;

/// A descent from the root to a leaf.
pub struct Descent {
    /// The level of the leaf's node, or of the node that it has come to.
    pub level: usize,
    /// Whether the leaf is that node itself.
    pub is_exact: bool,
    /// The dense bits or sparse entries that it has taken on the levels so far.
    pub positions: [usize; MAX_KEY],
    /// What is before these; on the levels below, what is before the first node that is not
    /// passed.
    pub before: [Before; MAX_KEY],
    /// The same for a branch that is tried.
    tried: [Before; MAX_KEY],
    /// The leaves that are still to pass.
    left: usize,
}

impl Descent {
    /// Gives the node that it has come to.
    fn node(&self) -> usize {
        match self.level {
            0 => 0,
            level => self.before[level - 1].node(),
        }
    }
}

impl Trie<'_> {
    /// Goes down to the leaf at a place, which there has to be.
    pub fn locate(&self, place: usize) -> Descent {
        let mut descent = Descent {
            level: 0,
            is_exact: false,
            positions: [0; MAX_KEY],
            before: self.before_levels(),
            tried: [Before::default(); MAX_KEY],
            left: place,
        };
        while self.turn(&mut descent) {
            descent.level += 1;
        }
        descent
    }

    /// Takes the exact leaf or the branch that leads to the leaf, and says whether the branch
    /// continues.
    fn turn(&self, descent: &mut Descent) -> bool {
        let node = descent.node();
        let before = &mut descent.before[descent.level];
        let span = self.span(node, *before);
        if span.is_exact {
            if descent.left == 0 {
                descent.is_exact = true;
                descent.positions[descent.level] = span.start;
                return false;
            }
            descent.left -= 1;
            before.slots += 1;
        }
        let mut positions = span.positions;
        while descent.left > 0 && positions.len() > 1 {
            let middle = positions.start + positions.len() / 2;
            if self.move_on(descent, node, middle) {
                positions.start = middle;
            } else {
                positions.end = middle;
            }
        }
        let branch = self.first_at(node, positions.start);
        descent.positions[descent.level] = branch.position();
        self.has_child(branch)
    }

    /// Moves on to a position of the node if that passes no more leaves than are left to
    /// pass. Below a level where it passes no continuing branch it passes nothing.
    fn move_on(&self, descent: &mut Descent, node: usize, position: usize) -> bool {
        let mut before = self.before_at(node, position);
        let mut passed = 0;
        let mut level = descent.level;
        loop {
            descent.tried[level] = before;
            passed += before.slots - descent.before[level].slots;
            if passed > descent.left {
                return false;
            }
            let has_met = before.children == descent.before[level].children;
            level += 1;
            if has_met || level == self.levels {
                break;
            }
            before = self.before_node(before.node());
        }
        descent.left -= passed;
        descent.before[descent.level..level].copy_from_slice(&descent.tried[descent.level..level]);
        true
    }
}
