//! Keys beside stored keys and beside the ends of leaves' intervals, and questions about
//! them.

use super::questions::{add_to_last_byte, stems_of};
use crate::reference::keys::MAX_KEY;
use crate::reference::leaves::{highest, lowest, Leaf};
use crate::reference::questions::Question;

/// Gives the next byte string of at most 64 bytes, if there is one.
fn just_above(key: &[u8]) -> Option<Vec<u8>> {
    let mut next = key.to_vec();
    if next.len() < MAX_KEY {
        next.push(0);
        return Some(next);
    }
    while next.last() == Some(&0xFF) {
        next.pop();
    }
    *next.last_mut()? += 1;
    Some(next)
}

/// Gives the last byte string of at most 64 bytes below a key, if there is one.
fn just_below(key: &[u8]) -> Option<Vec<u8>> {
    let mut last = key.to_vec();
    if last.last() == Some(&0) {
        last.pop();
        return Some(last);
    }
    *last.last_mut()? -= 1;
    last.resize(MAX_KEY, 0xFF);
    Some(last)
}

/// Gives a key with its prefix, its extensions, its neighbours in key order, and itself at
/// the lengths that bound a key's.
fn around(key: &[u8]) -> Vec<Vec<u8>> {
    let mut keys = vec![key.to_vec(), key[..key.len() - 1].to_vec()];
    keys.extend(just_below(key));
    keys.extend(just_above(key));
    for length in [0, 1, MAX_KEY - 1, MAX_KEY] {
        for byte in [0x00, 0x61, 0xFF] {
            let mut sized = key.to_vec();
            sized.resize(length, byte);
            keys.push(sized);
        }
    }
    keys
}

/// Gives all keys around stored keys and around the ends of leaves' intervals, in key
/// order.
pub fn keys_around(stored: &[Vec<u8>], leaves: &[Leaf]) -> Vec<Vec<u8>> {
    let ends = leaves.iter().flat_map(|leaf| [lowest(leaf), highest(leaf)]);
    let mut keys = vec![Vec::new()];
    for key in stored.iter().cloned().chain(ends) {
        keys.extend(around(&key));
    }
    keys.sort();
    keys.dedup();
    keys
}

/// Gives every kind of question about each of ascending keys: ranges and counts from a key
/// to itself, to the next one and to one further away.
pub fn questions_about(keys: &[Vec<u8>]) -> Vec<Question> {
    let mut asked = Vec::new();
    for (i, key) in keys.iter().enumerate() {
        asked.push(Question::Point(key.clone()));
        asked.push(Question::Seek(key.clone()));
        asked.push(Question::BeginsWith(key.clone()));
        for j in [i, i + 1, i + 7] {
            let upper = keys[j.min(keys.len() - 1)].clone();
            asked.push(Question::Range(key.clone(), upper.clone()));
            asked.push(Question::Count(key.clone(), upper));
        }
    }
    asked
}

/// Gives stems that a key begins with or just misses: all of its prefixes, and the key cut
/// or filled with FF to some lengths with its last byte as it is, one more and one less.
pub fn stems_about(key: &[u8]) -> Vec<Question> {
    let mut asked: Vec<Question> = stems_of(key).collect();
    for length in [
        1,
        key.len() - 1,
        key.len(),
        key.len() + 1,
        MAX_KEY - 1,
        MAX_KEY,
    ] {
        for number in [0x00, 0x01, 0xFF] {
            let mut stem = key.to_vec();
            stem.resize(length.min(MAX_KEY), 0xFF);
            add_to_last_byte(&mut stem, number);
            asked.push(Question::BeginsWith(stem));
        }
    }
    asked
}
