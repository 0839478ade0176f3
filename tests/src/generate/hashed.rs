//! Keys that have the hash bits of a leaf.

use crate::random::Random;
use crate::reference::keys::MAX_KEY;
use crate::reference::leaves::{is_held, lowest, Leaf};

/// The most bytes that are put behind a leaf's real bits to change the hash.
const MOST_BYTES_BEHIND: usize = 6;

/// Gives a key that a point finds at a leaf: the one of an exact leaf, or a possible key of an
/// open leaf with the leaf's hash bits, if one of so many tries is such a key.
pub fn held_key(random: &mut Random, leaf: &Leaf, tries: usize) -> Option<Vec<u8>> {
    if leaf.exact {
        return Some(leaf.cut_key.clone());
    }
    let key = |_| possible_key(random, leaf);
    (0..tries).map(key).find(|key| is_held(leaf, key))
}

/// Gives a possible key of an open leaf that a point does not find at it, if one of so many
/// tries is such a key. An exact leaf has none.
pub fn unheld_key(random: &mut Random, leaf: &Leaf, tries: usize) -> Option<Vec<u8>> {
    if leaf.exact {
        return None;
    }
    let key = |_| possible_key(random, leaf);
    (0..tries).map(key).find(|key| !is_held(leaf, key))
}

/// Gives a possible key of an open leaf: its cut key and real bits, and any bytes behind them.
fn possible_key(random: &mut Random, leaf: &Leaf) -> Vec<u8> {
    let mut key = lowest(leaf);
    let whole = leaf.cut_key.len() + leaf.real.len().div_ceil(8);
    let behind = random.bytes(0, MOST_BYTES_BEHIND);
    if !behind.is_empty() {
        key.resize(whole, 0);
        key.extend(behind);
        key.truncate(MAX_KEY);
    }
    key
}
