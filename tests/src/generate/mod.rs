//! Deterministic generators of key lists, of built and changed images, of questions and of
//! places.

pub mod hashed;
pub mod images;
pub mod keys;
pub mod level_starts;
pub mod neighbours;
pub mod places;
pub mod questions;
pub mod slots;
pub mod universe;

use crate::random::Random;
use crate::reference::format::{MAX_DENSE_LEVELS, MAX_HASH_BITS, MAX_REAL_BITS, VERSIONS};
use crate::settings::{version_1, Settings};

/// Gives all settings in range without hash bits, and those with hash bits in one version
/// each.
pub fn every_setting() -> impl Iterator<Item = Settings> {
    plain_settings()
        .flat_map(in_both_versions)
        .chain(hashed_settings())
}

/// Gives these settings in version 1, each once.
pub fn every_setting_of_version_1() -> impl Iterator<Item = Settings> {
    let settings = plain_settings().chain(hashed_settings());
    settings.map(|settings| Settings {
        version: 1,
        ..settings
    })
}

/// Gives each number of dense levels with each n in version 1; the numbers of hash bits come in
/// turn.
pub fn settings_of_version_1() -> impl Iterator<Item = Settings> {
    let turn = |settings: Settings| 7 * settings.n + 3 * settings.dense_levels;
    plain_settings().map(move |settings| settings.with_hash(turn(settings) % (MAX_HASH_BITS + 1)))
}

/// Gives all settings in range of version 1 without hash bits.
fn plain_settings() -> impl Iterator<Item = Settings> {
    (0..=MAX_DENSE_LEVELS).flat_map(|levels| (0..=MAX_REAL_BITS).map(move |n| version_1(levels, n)))
}

/// Gives each h from 1 on with each n. Versions and numbers of dense levels come in turn, so
/// that each version and each number of dense levels together come with each h, and with each
/// n.
fn hashed_settings() -> impl Iterator<Item = Settings> {
    let numbers = MAX_DENSE_LEVELS + 1;
    let settings = move |h: u64, n: u64| Settings {
        version: VERSIONS[((h + n) / numbers) as usize % VERSIONS.len()],
        dense_levels: (h + n) % numbers,
        n,
        h,
    };
    (1..=MAX_HASH_BITS).flat_map(move |h| (0..=MAX_REAL_BITS).map(move |n| settings(h, n)))
}

/// Gives settings in version 1 and in version 2.
pub fn in_both_versions(settings: Settings) -> [Settings; 2] {
    VERSIONS.map(|version| Settings {
        version,
        ..settings
    })
}

/// Gives some settings in range, about half of them without hash bits.
pub fn any_settings(random: &mut Random) -> Settings {
    let mut up_to = |most: u64| random.below(most as usize + 1) as u64;
    Settings {
        version: VERSIONS[up_to(1) as usize],
        dense_levels: up_to(MAX_DENSE_LEVELS),
        n: up_to(MAX_REAL_BITS),
        h: up_to(1) * up_to(MAX_HASH_BITS),
    }
}

/// Damages a byte string without regard to what it holds: bytes are cut off, added, put
/// in, taken out or replaced.
pub fn damaged(random: &mut Random, bytes: &[u8]) -> Vec<u8> {
    let mut bytes = bytes.to_vec();
    let at = random.below(bytes.len() + 1);
    match random.below(6) {
        0 => bytes.truncate(at),
        1 => bytes.push(random.byte()),
        2 => bytes.insert(at, random.byte()),
        3 if at < bytes.len() => {
            bytes.remove(at);
        }
        _ => replace_some(random, &mut bytes),
    }
    bytes
}

/// Replaces one to three bytes, if there are any: by zeros, by ones, by a single one or
/// by any bits.
fn replace_some(random: &mut Random, bytes: &mut [u8]) {
    for _ in 0..=random.below(3) {
        if !bytes.is_empty() {
            let at = random.below(bytes.len());
            let choices = [0x00, 0xFF, 1 << random.below(8), random.byte()];
            bytes[at] = *random.pick(&choices);
        }
    }
}

/// Turns one bit of a byte string over.
pub fn flip(bytes: &mut [u8], position: usize) {
    bytes[position / 8] ^= 1 << (position % 8);
}
