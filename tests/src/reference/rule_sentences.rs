//! A second way to the rule behind a point's reply: the sentence of each rule, read over all
//! cut keys, with no trie and no descent.

use super::hash::hash_bits;
use super::leaves::{real_bits, Leaf};
use super::rules::Rule;

/// Says whether a rule's sentence holds of a key over leaves.
pub fn holds(leaves: &[Leaf], key: &[u8], rule: Rule) -> bool {
    match rule {
        Rule::BranchMissing => (0..key.len()).any(|level| branch_is_missing(leaves, key, level)),
        Rule::KeyEnded => is_node(leaves, key) && !is_exact_leaf(leaves, key),
        Rule::ExactLeaf => is_exact_leaf(leaves, key),
        Rule::SuffixEqual => open_leaves_on(leaves, key).any(|leaf| has_suffix(leaf, key)),
        Rule::SuffixOther => open_leaves_on(leaves, key).any(|leaf| !has_suffix(leaf, key)),
        Rule::NoNodes => !is_node(leaves, b""),
    }
}

/// Gives the rules whose sentences hold of a key over leaves.
pub fn rules(leaves: &[Leaf], key: &[u8]) -> Vec<Rule> {
    let mut rules = Rule::ALL.to_vec();
    rules.retain(|&rule| holds(leaves, key, rule));
    rules
}

/// Says whether so many bytes of a key are a node that has no branch with the next byte.
fn branch_is_missing(leaves: &[Leaf], key: &[u8], level: usize) -> bool {
    let mut cut_keys = leaves.iter().map(|leaf| &leaf.cut_key);
    is_node(leaves, &key[..level]) && !cut_keys.any(|cut_key| cut_key.starts_with(&key[..=level]))
}

/// Says whether bytes are a node: a proper prefix of a cut key.
fn is_node(leaves: &[Leaf], bytes: &[u8]) -> bool {
    let mut cut_keys = leaves.iter().map(|leaf| &leaf.cut_key);
    cut_keys.any(|cut_key| cut_key.starts_with(bytes) && cut_key != bytes)
}

/// Says whether bytes are the cut key of an exact leaf.
fn is_exact_leaf(leaves: &[Leaf], bytes: &[u8]) -> bool {
    leaves
        .iter()
        .any(|leaf| leaf.exact && leaf.cut_key == bytes)
}

/// Gives the open leaves whose cut keys begin a key.
fn open_leaves_on<'a>(leaves: &'a [Leaf], key: &'a [u8]) -> impl Iterator<Item = &'a Leaf> {
    let begins = |leaf: &&Leaf| !leaf.exact && key.starts_with(&leaf.cut_key);
    leaves.iter().filter(begins)
}

/// Says whether a leaf's suffix is that of a key: the hash bits of the whole key, and then
/// the key's bits behind the leaf's cut key.
fn has_suffix(leaf: &Leaf, key: &[u8]) -> bool {
    let hash = hash_bits(key, leaf.hash.len());
    let real = real_bits(key, leaf.cut_key.len(), leaf.real.len());
    [hash, real].concat() == leaf.suffix()
}
