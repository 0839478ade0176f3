//! Points, stems and ranges. A range is decided where its bounds part: no leaf is gone to that is
//! not on the way of a bound, and no key is made.

use super::trie::{Branch, Trie};
use range_filter_tests::reference::keys::MAX_KEY;
use range_filter_tests::reference::rules::Rule;
use std::cmp::Ordering;

/// Where the ways of two bounds part, with the bytes of both that are left.
pub enum Parting<'k> {
    /// No leaf is on their way, nor between them.
    Nowhere,
    /// An open leaf is on the way of both.
    Leaf {
        leaf: Branch,
        lower: &'k [u8],
        upper: &'k [u8],
    },
    /// A node is on the way of both, and the lower bound ends there or the next bytes differ.
    Node {
        node: usize,
        lower: &'k [u8],
        upper: &'k [u8],
    },
}

/// Says whether a rule takes a key for one that may be stored.
pub fn is_held(rule: Rule) -> bool {
    matches!(rule, Rule::ExactLeaf | Rule::SuffixEqual)
}

impl Trie<'_> {
    /// Gives the rule that decides a key: where its way from the root ends, and how.
    pub fn rule(&self, key: &[u8]) -> Rule {
        if self.is_empty() {
            return Rule::NoNodes;
        }
        let mut node = 0;
        for (level, &label) in key.iter().enumerate() {
            let Some(branch) = self.branch(node, label) else {
                return Rule::BranchMissing;
            };
            let Some(child) = self.child(branch) else {
                return match self.leaf_has(branch, key, level + 1) {
                    true => Rule::SuffixEqual,
                    false => Rule::SuffixOther,
                };
            };
            node = child;
        }
        match self.is_exact(node) {
            true => Rule::ExactLeaf,
            false => Rule::KeyEnded,
        }
    }

    /// Says whether some leaf has a possible key that begins with a stem: all leaves below a
    /// node do to which the stem leads; of an open leaf on the way the real bits tell.
    pub fn begins(&self, stem: &[u8]) -> bool {
        if self.is_empty() {
            return false;
        }
        let mut node = 0;
        for (level, &label) in stem.iter().enumerate() {
            let Some(branch) = self.branch(node, label) else {
                return false;
            };
            let Some(child) = self.child(branch) else {
                let rest = &stem[level + 1..];
                let mut last = [0xFF; MAX_KEY];
                last[..rest.len()].copy_from_slice(rest);
                return self.leaf_meets(branch, rest, &last);
            };
            node = child;
        }
        true
    }

    /// Goes down from the root along two bounds, the lower one first, while their bytes
    /// are equal.
    #[inline]
    pub fn part<'k>(&self, lower: &'k [u8], upper: &'k [u8]) -> Parting<'k> {
        if self.is_empty() {
            return Parting::Nowhere;
        }
        let mut node = 0;
        let mut level = 0;
        while level < lower.len() && lower[level] == upper[level] {
            let Some(branch) = self.branch(node, lower[level]) else {
                return Parting::Nowhere;
            };
            level += 1;
            let Some(child) = self.child(branch) else {
                return Parting::Leaf {
                    leaf: branch,
                    lower: &lower[level..],
                    upper: &upper[level..],
                };
            };
            node = child;
        }
        Parting::Node {
            node,
            lower: &lower[level..],
            upper: &upper[level..],
        }
    }

    /// Says whether some leaf has a possible key in a range.
    pub fn meets(&self, lower: &[u8], upper: &[u8]) -> bool {
        match self.part(lower, upper) {
            Parting::Nowhere => false,
            Parting::Leaf { leaf, lower, upper } => self.leaf_meets(leaf, lower, upper),
            Parting::Node { node, lower, upper } => match (lower, upper) {
                ([low, lower @ ..], [high, upper @ ..]) => {
                    self.node_meets(node, (*low, lower), (*high, upper))
                }
                _ => self.node_starts(node, upper),
            },
        }
    }

    /// Says whether an open leaf has a possible key between bounds that both begin with its
    /// cut key.
    #[inline]
    pub fn leaf_meets(&self, leaf: Branch, lower: &[u8], upper: &[u8]) -> bool {
        self.compare_leaf(leaf, lower).is_ge() && self.compare_leaf(leaf, upper).is_le()
    }

    /// Says whether some leaf below a node has a possible key between bounds that part
    /// there: one between their branches, one below the lower bound's or below the upper's.
    #[inline]
    fn node_meets(&self, node: usize, lower: (u8, &[u8]), upper: (u8, &[u8])) -> bool {
        let found = self.branch_from(node, lower.0);
        let on_lower = found.filter(|&branch| self.label(branch) == lower.0);
        let next = match on_lower {
            Some(branch) => self.next(branch),
            None => found,
        };
        let on_upper = match next.map(|branch| self.label(branch).cmp(&upper.0)) {
            Some(Ordering::Less) => return true,
            Some(Ordering::Equal) => next,
            _ => None,
        };
        on_lower.is_some_and(|branch| self.branch_reaches(branch, lower.1))
            || on_upper.is_some_and(|branch| self.branch_starts(branch, upper.1))
    }

    /// Says whether some leaf at or below a branch, behind which bytes of a lower bound are
    /// left, ends not below the bound: only the last branch of each node can tell.
    fn branch_reaches(&self, mut branch: Branch, lower: &[u8]) -> bool {
        let mut rest = lower.iter();
        while self.has_child(branch) {
            let Some(label) = rest.next() else {
                return true;
            };
            let Some(node) = self.child(branch) else {
                break;
            };
            branch = self.last(node);
            match self.label(branch).cmp(label) {
                Ordering::Less => return false,
                Ordering::Equal => (),
                Ordering::Greater => return true,
            }
        }
        self.compare_leaf(branch, rest.as_slice()).is_ge()
    }

    /// Says whether some leaf at or below a branch, behind which bytes of an upper bound
    /// are left, starts not above the bound.
    fn branch_starts(&self, branch: Branch, upper: &[u8]) -> bool {
        match self.child(branch) {
            Some(node) => self.node_starts(node, upper),
            None => self.compare_leaf(branch, upper).is_le(),
        }
    }

    /// Says whether some leaf at or below a node, behind which bytes of an upper bound are
    /// left, starts not above the bound: only the exact leaf or the first branch of each
    /// node can tell.
    fn node_starts(&self, mut node: usize, upper: &[u8]) -> bool {
        let mut rest = upper.iter();
        loop {
            let Some(branch) = self.first(node) else {
                return true;
            };
            let order = rest.next().map(|label| self.label(branch).cmp(label));
            match order {
                Some(Ordering::Less) => return true,
                Some(Ordering::Equal) => (),
                Some(Ordering::Greater) | None => return false,
            }
            let Some(child) = self.child(branch) else {
                return self.compare_leaf(branch, rest.as_slice()).is_le();
            };
            node = child;
        }
    }
}
