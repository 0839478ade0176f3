//! The 64-bit FNV-1a hash, written from its published description: the hash starts as the
//! offset basis; for each byte it is combined with the byte by exclusive or, and then
//! multiplied by the prime, modulo 2^64. The hash bits of a slot are taken from it.

/// The hash of no bytes.
pub const OFFSET_BASIS: u64 = 14_695_981_039_346_656_037;

/// The published prime: 2^40 + 2^8 + B3.
pub const PRIME: u64 = (1 << 40) + (1 << 8) + 0xB3;

/// Gives the hash of bytes.
pub fn hash(bytes: &[u8]) -> u64 {
    let mut hash = OFFSET_BASIS;
    for &byte in bytes {
        hash ^= u64::from(byte);
        hash = hash.wrapping_mul(PRIME);
    }
    hash
}

/// Gives the lowest bits of a whole key's hash, the lowest weight first.
pub fn hash_bits(key: &[u8], h: usize) -> Vec<bool> {
    let hash = hash(key);
    (0..h).map(|i| hash >> i & 1 == 1).collect()
}
