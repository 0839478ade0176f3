//! What the tests share: lists and images of document 01, and pseudo-random keys.

use range_filter::{build, Settings};
use std::collections::BTreeSet;

/// List A.
pub const A: [&str; 4] = ["D1", "D12", "D2", "V"];

/// List A with VAN for V.
pub const VAN: [&str; 4] = ["D1", "D12", "D2", "VAN"];

/// A list without keys.
pub const NO_KEYS: [&str; 0] = [];

/// The image of list A in version 1, with no dense levels, real bits and hash bits.
pub const IMAGE_A: &[u8; 110] = b"HD\x01\x00\x00\x00\x04\0\0\0\0\0\0\0\x06\0\0\0\x03\0\0\0\
DL\0\0\0\0DC\0\0\0\0DP\0\0\0\0\
SL\x06\0\0\0\x44\x56\x31\x32\xFF\x32SC\x01\0\0\0\x05SB\x01\0\0\0\x15\
SV\0\0\0\0RL\0\0\0\0RC\0\0\0\0RP\0\0\0\0\
RS\x04\0\0\0\0\0\0\0TS\x04\0\0\0\0\0\0\0";

/// The record that the image of list A has more in version 2: the first nodes of three levels.
pub const LEVEL_STARTS_A: &[u8; 18] = b"LV\x0C\0\0\0\0\0\0\0\x01\0\0\0\x02\0\0\0";

/// Gives settings of version 1 without hash bits.
pub fn settings(dense_levels: u8, real_bits: u8) -> Settings {
    let settings = Settings::default().with_dense_levels(dense_levels);
    settings.with_real_bits(real_bits)
}

/// Gives settings in each version.
pub fn versions(settings: Settings) -> [Settings; 2] {
    [1, 2].map(|version| settings.with_version(version))
}

/// Builds an image of version 1 without hash bits that has to be built.
pub fn image<K: AsRef<[u8]>>(keys: &[K], dense_levels: u8, real_bits: u8) -> Vec<u8> {
    image_with(keys, settings(dense_levels, real_bits))
}

/// Builds an image that has to be built.
pub fn image_with<K: AsRef<[u8]>>(keys: &[K], settings: Settings) -> Vec<u8> {
    build(keys, settings).expect("the keys build an image")
}

/// Gives the image of list A in version 2, with no dense levels, real bits and hash bits.
pub fn image_a_version_2() -> Vec<u8> {
    let mut image = [&IMAGE_A[..], LEVEL_STARTS_A].concat();
    image[2] = 2;
    image
}

/// Gives where a record's body starts in an image that has the record.
pub fn body_at(image: &[u8], mark: &[u8; 2]) -> usize {
    let mut at = 22;
    while image[at..at + 2] != *mark {
        at += 6 + length_at(image, at + 2);
    }
    at + 6
}

/// Gives a record's body in an image that has the record.
pub fn body<'a>(image: &'a [u8], mark: &[u8; 2]) -> &'a [u8] {
    let at = body_at(image, mark);
    &image[at..at + length_at(image, at - 4)]
}

/// Gives the length of a body from its four bytes at an offset of an image.
fn length_at(image: &[u8], at: usize) -> usize {
    let length = image[at..at + 4].try_into().expect("four bytes");
    u32::from_le_bytes(length) as usize
}

/// A xorshift generator of numbers.
pub struct Random(u64);

impl Random {
    /// Starts a generator from a seed, which is not 0.
    pub fn new(seed: u64) -> Self {
        Random(seed)
    }

    /// Gives the next number.
    pub fn number(&mut self) -> u64 {
        self.0 ^= self.0 << 13;
        self.0 ^= self.0 >> 7;
        self.0 ^= self.0 << 17;
        self.0
    }

    /// Gives a number below a bound, which is not 0.
    pub fn below(&mut self, bound: usize) -> usize {
        (self.number() % bound as u64) as usize
    }

    /// Gives a key of a few of four bytes, FF among them, so that keys share prefixes.
    pub fn key(&mut self, least: usize, most: usize) -> Vec<u8> {
        let length = least + self.below(most - least + 1);
        (0..length).map(|_| b"\x00AB\xFF"[self.below(4)]).collect()
    }

    /// Gives a key list.
    pub fn keys(&mut self, tries: usize) -> Vec<Vec<u8>> {
        let keys: BTreeSet<Vec<u8>> = (0..tries).map(|_| self.key(1, 8)).collect();
        keys.into_iter().collect()
    }
}
