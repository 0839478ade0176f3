//! Keys that make a key list: strictly ascending, at most 65,535.

use crate::random::Random;
use crate::reference::keys::{MAX_KEY, MAX_KEYS};
use std::collections::BTreeSet;

/// Gives keys as owned byte strings.
pub fn owned(keys: &[&[u8]]) -> Vec<Vec<u8>> {
    keys.iter().map(|key| key.to_vec()).collect()
}

/// Sorts keys and drops equal ones, so that they make a list.
pub fn ascending(mut keys: Vec<Vec<u8>>) -> Vec<Vec<u8>> {
    keys.sort();
    keys.dedup();
    keys
}

/// Gives short keys over a small alphabet, so that many begin others.
pub fn short_keys(random: &mut Random) -> Vec<Vec<u8>> {
    let count = random.below(13);
    ascending((0..count).map(|_| random.string(b"abc", 1, 4)).collect())
}

/// Gives keys of zero bytes, FF bytes and their neighbours.
pub fn extreme_keys(random: &mut Random) -> Vec<Vec<u8>> {
    let count = random.below(13);
    let alphabet = [0x00, 0x01, 0x7F, 0x80, 0xFE, 0xFF];
    let key = |_| random.string(&alphabet, 1, 5);
    ascending((0..count).map(key).collect())
}

/// Gives keys of any bytes.
pub fn wide_keys(random: &mut Random) -> Vec<Vec<u8>> {
    let count = random.below(80);
    ascending((0..count).map(|_| random.bytes(1, 8)).collect())
}

/// Gives keys behind one stem, up to the longest key.
pub fn stemmed_keys(random: &mut Random) -> Vec<Vec<u8>> {
    let stem = random.string(b"\x00k\xFF", 0, MAX_KEY - 3);
    let count = 1 + random.below(9);
    let key = |_| [stem.clone(), random.string(b"\x00k\xFF", 1, 3)].concat();
    ascending((0..count).map(key).collect())
}

/// Gives keys with FF bytes behind one stem, and other bytes behind some of these.
pub fn ff_keys(random: &mut Random) -> Vec<Vec<u8>> {
    let stem = random.string(b"S0\xFF", 0, MAX_KEY);
    let mut keys = Vec::new();
    for _ in 0..1 + random.below(9) {
        let mut key = stem.clone();
        let most = *random.pick(&[1, 3, MAX_KEY]);
        key.resize(stem.len() + 1 + random.below(most), 0xFF);
        key.extend(random.string(b"\x00\x01\xFE", 0, 2));
        key.truncate(MAX_KEY);
        keys.push(key);
    }
    ascending(keys)
}

/// Gives keys most of which go on from another one, by FF or another byte, so that most
/// nodes are exact leaves, with and without a branch FF.
pub fn growing_keys(random: &mut Random) -> Vec<Vec<u8>> {
    let length = *random.pick(&[1, 1, 2, MAX_KEY - 3]);
    let mut keys = vec![random.string(b"\x00g\xFF", length, length)];
    for _ in 0..random.below(12) {
        let mut key = random.pick(&keys).clone();
        key.extend(random.string(b"\x00g\xFE\xFF", 1, 2));
        key.truncate(MAX_KEY);
        keys.push(key);
    }
    ascending(keys)
}

/// Gives keys of 64 bytes that differ from one of them in one byte.
pub fn long_keys(random: &mut Random) -> Vec<Vec<u8>> {
    let stem = random.string(b"\x00xy\xFF", MAX_KEY, MAX_KEY);
    let mut keys = vec![stem.clone()];
    for _ in 0..random.below(8) {
        let mut key = stem.clone();
        let at = *random.pick(&[0, 1, 30, 60, 61, 62, 63]);
        key[at] = random.byte();
        keys.push(key);
    }
    ascending(keys)
}

/// Gives prefixes of one long key, and keys that differ from such a prefix in the last
/// byte.
pub fn nested_keys(random: &mut Random) -> Vec<Vec<u8>> {
    let stem = random.string(b"\x00n\xFF", MAX_KEY, MAX_KEY);
    let mut keys = Vec::new();
    for _ in 0..random.below(10) {
        let length = 1 + random.below(MAX_KEY);
        let mut key = stem[..length].to_vec();
        if random.once_in(3) {
            key[length - 1] = random.byte();
        }
        keys.push(key);
    }
    ascending(keys)
}

/// Gives keys of any of the kinds above.
pub fn any_keys(random: &mut Random) -> Vec<Vec<u8>> {
    let kinds = [
        short_keys,
        extreme_keys,
        wide_keys,
        stemmed_keys,
        ff_keys,
        growing_keys,
        long_keys,
        nested_keys,
    ];
    random.pick(&kinds)(random)
}

/// Gives no keys.
pub fn no_keys(_: &mut Random) -> Vec<Vec<u8>> {
    Vec::new()
}

/// Gives so many keys of one length over any bytes, in pairs that differ in the last byte,
/// for images of many blocks.
pub fn many_keys(random: &mut Random, count: usize, length: usize) -> Vec<Vec<u8>> {
    let mut keys = BTreeSet::new();
    while keys.len() < count {
        let mut key = random.bytes(length, length);
        keys.insert(key.clone());
        key[length - 1] ^= 1;
        keys.insert(key);
    }
    keys.into_iter().take(count).collect()
}

/// Gives about so many keys of two lengths that differ by one byte, so that some begin
/// others.
pub fn many_mixed_keys(random: &mut Random, count: usize, length: usize) -> Vec<Vec<u8>> {
    let mut keys = many_keys(random, count, length);
    for key in &mut keys {
        key.truncate(length - usize::from(random.once_in(4)));
    }
    ascending(keys)
}

/// Gives keys with a node of level 1 for each first byte. More than half of these nodes have
/// one entry, which leads to a node of two; the others have at most so many.
pub fn keys_by_node_size(random: &mut Random, most: usize) -> Vec<Vec<u8>> {
    let node = |first| match random.below(most) * random.below(2) {
        0 => vec![vec![first, 0, 0], vec![first, 0, 1]],
        last => (0..=last as u8).map(|second| vec![first, second]).collect(),
    };
    (0..=u8::MAX).flat_map(node).collect()
}

/// Gives a list with the most trie entries of any: 32,767 pairs of keys of 64 bytes that
/// differ in the last byte, with a node of its own for each pair from level 2 on and 256
/// nodes on level 1, and one key more.
pub fn keys_with_most_entries() -> Vec<Vec<u8>> {
    let key = |number: usize| {
        let pair = number / 2;
        let mut key = vec![0; MAX_KEY];
        key[0] = (pair % 256) as u8;
        key[1] = (pair / 256) as u8;
        key[MAX_KEY - 1] = (number % 2) as u8;
        key
    };
    ascending((0..MAX_KEYS).map(key).collect())
}
