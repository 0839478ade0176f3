//! The hash bits of keys: the lowest bits of the 64-bit FNV-1a hash.

use super::bits::below;
use range_filter_tests::reference::hash::{OFFSET_BASIS, PRIME};

/// Gives the 64-bit FNV-1a hash of a key.
#[inline]
pub fn hash(key: &[u8]) -> u64 {
    let take = |state: u64, &byte| (state ^ u64::from(byte)).wrapping_mul(PRIME);
    key.iter().fold(OFFSET_BASIS, take)
}

/// Gives so many of the lowest bits of a key's hash, as a number; where there are none to give
/// the hash is not taken.
#[inline]
pub fn hash_bits(key: &[u8], count: usize) -> u64 {
    match count {
        0 => 0,
        _ => hash(key) & below(count),
    }
}
