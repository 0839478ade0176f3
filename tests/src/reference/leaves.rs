//! Leaves: cut keys with their kind, hash bits and real bits, and the possible keys of each.

use super::hash::hash_bits;
use super::keys::{shared_prefix, MAX_KEY};
use crate::settings::Settings;

/// A leaf with its h hash bits and its n real bits, which are all zero for an exact leaf.
#[derive(Clone, Debug, PartialEq, Eq)]
pub struct Leaf {
    pub cut_key: Vec<u8>,
    pub exact: bool,
    pub hash: Vec<bool>,
    pub real: Vec<bool>,
}

impl Leaf {
    /// Gives the leaf's suffix, which is its whole slot: the hash bits, then the real bits.
    pub fn suffix(&self) -> Vec<bool> {
        [self.hash.as_slice(), &self.real].concat()
    }
}

/// Gives the leaves of strictly ascending keys, in key order.
pub fn leaves(keys: &[Vec<u8>], settings: Settings) -> Vec<Leaf> {
    (0..keys.len())
        .map(|number| leaf(keys, number, settings))
        .collect()
}

/// Cuts one key. In a sorted list the longest prefix shared with another key is shared
/// with a neighbour, and a key that begins another key begins the next one.
fn leaf(keys: &[Vec<u8>], number: usize, settings: Settings) -> Leaf {
    let [h, n] = [settings.h, settings.n].map(|bits| bits as usize);
    let key = &keys[number];
    let before = number.checked_sub(1).map(|last| &keys[last]);
    let behind = keys.get(number + 1);
    if behind.is_some_and(|next| next.starts_with(key)) {
        return Leaf {
            cut_key: key.clone(),
            exact: true,
            hash: vec![false; h],
            real: vec![false; n],
        };
    }
    let neighbours = before.into_iter().chain(behind);
    let shared = neighbours.map(|other| shared_prefix(key, other)).max();
    let cut_length = shared.unwrap_or(0) + 1;
    Leaf {
        cut_key: key[..cut_length].to_vec(),
        exact: false,
        hash: hash_bits(key, h),
        real: real_bits(key, cut_length, n),
    }
}

/// Gives the first bits of a key behind its cut, zeros where the key has ended.
pub fn real_bits(key: &[u8], cut_length: usize, n: usize) -> Vec<bool> {
    (0..n).map(|i| key_bit(key, cut_length * 8 + i)).collect()
}

/// Reads a bit of a key, the high bit of each byte first, zero behind the key.
fn key_bit(key: &[u8], position: usize) -> bool {
    key.get(position / 8)
        .is_some_and(|byte| byte >> (7 - position % 8) & 1 == 1)
}

/// Says whether a key is among the possible keys of a leaf, which hash bits do not bear on.
pub fn is_possible(leaf: &Leaf, key: &[u8]) -> bool {
    if leaf.exact {
        return key == leaf.cut_key;
    }
    key.len() <= MAX_KEY
        && key.starts_with(&leaf.cut_key)
        && real_bits(key, leaf.cut_key.len(), leaf.real.len()) == leaf.real
}

/// Says whether a leaf has a key by what a point compares: the key is among the possible keys
/// of the leaf, and an open leaf has the hash bits of the key.
pub fn is_held(leaf: &Leaf, key: &[u8]) -> bool {
    is_possible(leaf, key) && (leaf.exact || hash_bits(key, leaf.hash.len()) == leaf.hash)
}

/// Gives the lowest possible key of a leaf: cut key and real bits filled up with zero bits
/// to whole bytes, less trailing zero bytes behind the cut.
pub fn lowest(leaf: &Leaf) -> Vec<u8> {
    let mut key = filled(leaf, false);
    while key.len() > leaf.cut_key.len() && key.last() == Some(&0) {
        key.pop();
    }
    key
}

/// Gives the highest possible key of a leaf: cut key and real bits filled with one bits to
/// 64 bytes.
pub fn highest(leaf: &Leaf) -> Vec<u8> {
    let mut key = filled(leaf, true);
    if !leaf.exact {
        key.resize(MAX_KEY, 0xFF);
    }
    key
}

/// Gives an open leaf's cut key and real bits filled up to whole bytes, what would stand
/// past the 64th byte dropped, and an exact leaf's key as it is.
fn filled(leaf: &Leaf, fill: bool) -> Vec<u8> {
    let mut key = leaf.cut_key.clone();
    if leaf.exact {
        return key;
    }
    for bits in leaf.real.chunks(8) {
        let bit = |i: usize| u8::from(*bits.get(i).unwrap_or(&fill));
        key.push((0..8).fold(0, |byte, i| byte << 1 | bit(i)));
    }
    key.truncate(MAX_KEY);
    key
}
