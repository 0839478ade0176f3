//! The rule behind a point's reply, orders 3 and 4 of document 02: the key is followed from
//! the root of the trie, byte by byte, to where it is decided.

use super::hash::hash_bits;
use super::leaves::{real_bits, Leaf};
use super::trie::Trie;

/// What decides a point, by its number.
#[derive(Clone, Copy, Debug, PartialEq, Eq)]
pub enum Rule {
    BranchMissing = 1,
    KeyEnded = 2,
    ExactLeaf = 3,
    SuffixEqual = 4,
    SuffixOther = 5,
    NoNodes = 6,
}

impl Rule {
    /// The rules in the order of their numbers.
    pub const ALL: [Rule; 6] = [
        Rule::BranchMissing,
        Rule::KeyEnded,
        Rule::ExactLeaf,
        Rule::SuffixEqual,
        Rule::SuffixOther,
        Rule::NoNodes,
    ];

    /// Gives the rule's number, which is the key of a point's reply.
    pub fn number(self) -> u8 {
        self as u8
    }
}

/// Gives the rule that decides a key over leaves and their trie. An extra FF is no branch of
/// the trie, and past an exact leaf the key takes a branch as at any other node.
pub fn rule(leaves: &[Leaf], trie: &Trie, key: &[u8]) -> Rule {
    if trie.is_empty() {
        return Rule::NoNodes;
    }
    for (level, &label) in key.iter().enumerate() {
        let node = &trie[&(level, &key[..level])];
        let branch = node.branches.iter().find(|branch| branch.label == label);
        match branch.map(|branch| branch.leaf) {
            None => return Rule::BranchMissing,
            Some(Some(number)) => return at_open_leaf(&leaves[number], key),
            Some(None) => (),
        }
    }
    match trie[&(key.len(), key)].exact {
        Some(_) => Rule::ExactLeaf,
        None => Rule::KeyEnded,
    }
}

/// Gives the rule of a key that begins with an open leaf's cut key: the suffix is another one
/// if either of its parts differs.
fn at_open_leaf(leaf: &Leaf, key: &[u8]) -> Rule {
    let hash_differs = hash_bits(key, leaf.hash.len()) != leaf.hash;
    let real_differs = real_bits(key, leaf.cut_key.len(), leaf.real.len()) != leaf.real;
    match hash_differs || real_differs {
        true => Rule::SuffixOther,
        false => Rule::SuffixEqual,
    }
}
