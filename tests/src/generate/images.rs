//! Built images, and images changed so that one rule of the check or another turns them
//! down.

use super::keys::{any_keys, many_keys, nested_keys, short_keys, stemmed_keys};
use super::level_starts::changed;
use super::{any_settings, damaged, flip};
use crate::random::Random;
use crate::reference::build;
use crate::reference::check::levels;
use crate::reference::decode::nodes;
use crate::reference::format::{
    assemble, bits, frame, pack, Frame, Header, DC, DL, DP, LV, NODE_BITS, RECORDS, RECORD_HEAD,
    RL, SB, SC, SL, SV, VERSIONS,
};
use crate::reference::keys;
use crate::reference::tables::{level_starts, TrieBits};
use crate::settings::{version_1, version_2, Settings};

/// The labels of trie entries that are made at random: few, so that many are equal.
const LABELS: &[u8] = b"\x00ab\xFF";

/// The bodies of an image that is made or changed.
type Bodies = [Vec<u8>; RECORDS];

/// A way to change an image, and the numbers that the check then gives.
pub struct Change {
    pub name: &'static str,
    pub apply: fn(&mut Random, &[u8]) -> Vec<u8>,
    pub numbers: &'static [u32],
}

/// The ways to change an image.
pub const CHANGES: [Change; 4] = [
    Change {
        name: "damaged",
        apply: damaged,
        numbers: &[0, 11, 12, 13, 14, 15, 16],
    },
    Change {
        name: "recounted",
        apply: recounted,
        numbers: &[0, 14],
    },
    Change {
        name: "reshaped",
        apply: reshaped,
        numbers: &[0, 14, 16],
    },
    Change {
        name: "relevelled",
        apply: relevelled,
        numbers: &[0, 15],
    },
];

/// Builds the image of keys that make a list, with settings in range.
pub fn built(keys: &[Vec<u8>], settings: Settings) -> Vec<u8> {
    build::image(&keys::write(keys), settings).expect("the keys make a list")
}

/// Gives an accepted image in the other version.
pub fn in_other_version(image: &[u8]) -> Vec<u8> {
    let (mut header, mut bodies) = parts(image);
    let mut versions = VERSIONS.into_iter();
    let other = versions.find(|&version| version != header.settings.version);
    header.settings.version = other.expect("there are two versions");
    follow_levels(&header, &mut bodies);
    assemble(&header, &bodies)
}

/// Gives the image of random keys with random settings.
pub fn any_image(random: &mut Random) -> Vec<u8> {
    let keys = any_keys(random);
    built(&keys, any_settings(random))
}

/// Gives the image of few random keys.
pub fn small_image(random: &mut Random) -> Vec<u8> {
    let kinds = [short_keys, stemmed_keys, nested_keys];
    let mut keys = random.pick(&kinds)(random);
    keys.truncate(6);
    let settings = Settings {
        version: *random.pick(&VERSIONS),
        dense_levels: random.below(3) as u64,
        n: *random.pick(&[0, 1, 5, 8, 11]),
        h: *random.pick(&[0, 0, 1, 4, 9]),
    };
    built(&keys, settings)
}

/// Gives images of so many keys each, with short and long keys and several settings.
pub fn large_images(random: &mut Random, keys: usize) -> impl Iterator<Item = Vec<u8>> + '_ {
    let kinds = [
        (version_1(0, 0), 8),
        (version_2(2, 8).with_hash(7), 8),
        (version_1(4, 16), 13),
        (version_2(0, 9), 63),
        (version_2(1, 16).with_hash(16), 64),
    ];
    let kinds = kinds.into_iter();
    kinds.map(move |(settings, length)| built(&many_keys(random, keys, length), settings))
}

/// Changes one byte of an image to another one.
pub fn with_byte(image: &[u8], at: usize, byte: u8) -> Vec<u8> {
    let mut image = image.to_vec();
    assert_ne!(image[at], byte);
    image[at] = byte;
    image
}

/// Gives the offset of the body with a mark that stands nowhere before it.
pub fn body_start(image: &[u8], mark: &[u8; 2]) -> usize {
    let at = image.windows(2).position(|pair| pair == mark);
    at.expect("the image has the mark") + RECORD_HEAD
}

/// Changes one count of an image's header and fits the bodies' lengths, so that number 12
/// does not come; once in two times counts and tables then follow the bits.
fn recounted(random: &mut Random, image: &[u8]) -> Vec<u8> {
    let (mut header, mut bodies) = parts(image);
    let count = match random.below(4) {
        0 => &mut header.leaves,
        1 => &mut header.dense_nodes,
        2 => &mut header.sparse_entries,
        _ => &mut header.sparse_nodes,
    };
    *count = match random.below(3) {
        0 => count.saturating_sub(1),
        1 => *count + 1,
        _ => random.below(4) as u32,
    };
    fit(&header, &mut bodies);
    if random.once_in(2) {
        agree(&mut header, &mut bodies);
    }
    assemble(&header, &bodies)
}

/// Changes the level starts of an image that has them, and nothing else.
fn relevelled(random: &mut Random, image: &[u8]) -> Vec<u8> {
    let (header, mut bodies) = parts(image);
    bodies[LV] = changed(random, &bodies[LV]);
    assemble(&header, &bodies)
}

/// Flips bits of the trie, its labels and its slots, and lets counts and tables follow, so
/// that only the trie's shape and the suffixes can be wrong.
fn reshaped(random: &mut Random, image: &[u8]) -> Vec<u8> {
    let (mut header, mut bodies) = parts(image);
    for _ in 0..=random.below(3) {
        let body = &mut bodies[*random.pick(&[DL, DC, DP, SL, SC, SB, SV])];
        if !body.is_empty() {
            let position = random.below(body.len() * 8);
            flip(body, position);
        }
    }
    if random.once_in(3) {
        header.settings.dense_levels = random.below(3) as u64;
    }
    agree(&mut header, &mut bodies);
    assemble(&header, &bodies)
}

/// Gives an image of random small bodies, where counts and tables follow the bits.
pub fn small_frame(random: &mut Random) -> Vec<u8> {
    let settings = Settings {
        version: *random.pick(&VERSIONS),
        dense_levels: random.below(3) as u64,
        n: *random.pick(&[0, 3, 8]),
        h: *random.pick(&[0, 0, 5]),
    };
    let mut header = Header {
        dense_nodes: random.below(3) as u32,
        sparse_entries: random.below(8) as u32,
        ..Header::new(settings)
    };
    let mut bodies = Bodies::default();
    fill_dense(random, header.dense_nodes as usize, &mut bodies);
    fill_sparse(random, header.sparse_entries as usize, &mut bodies);
    agree(&mut header, &mut bodies);
    if random.once_in(4) && !bodies[SV].is_empty() {
        flip(&mut bodies[SV], random.below(8));
        fit(&header, &mut bodies);
    }
    assemble(&header, &bodies)
}

/// Fills the bodies of dense nodes with a few labels each.
fn fill_dense(random: &mut Random, nodes: usize, bodies: &mut Bodies) {
    let mut labels = vec![false; nodes * NODE_BITS];
    let mut has_child = labels.clone();
    for node in 0..nodes {
        for _ in 0..random.below(4) {
            let position = node * NODE_BITS + usize::from(*random.pick(LABELS));
            labels[position] = !random.once_in(16);
            has_child[position] = random.once_in(2);
        }
    }
    let is_prefix_key: Vec<bool> = (0..nodes).map(|_| random.once_in(4)).collect();
    bodies[DL] = pack(&labels);
    bodies[DC] = pack(&has_child);
    bodies[DP] = pack(&is_prefix_key);
}

/// Fills the bodies of sparse entries; one entry in three continues, and one in three
/// starts a node.
fn fill_sparse(random: &mut Random, entries: usize, bodies: &mut Bodies) {
    let mut labels = random.string(LABELS, entries, entries);
    if random.once_in(2) {
        labels.sort();
    }
    let has_child: Vec<bool> = (0..entries).map(|_| random.once_in(3)).collect();
    let mut louds: Vec<bool> = (0..entries).map(|_| random.once_in(3)).collect();
    if let Some(first) = louds.first_mut() {
        *first = !random.once_in(16);
    }
    bodies[SL] = labels;
    bodies[SC] = pack(&has_child);
    bodies[SB] = pack(&louds);
}

/// Takes an image with its frame apart.
fn parts(image: &[u8]) -> (Header, Bodies) {
    let Frame { header, bodies } = frame(image).expect("the image has its frame");
    (header, bodies.map(<[u8]>::to_vec))
}

/// Gives each body before LV the length that the counts give, and clears its spare bits.
fn fit(header: &Header, bodies: &mut Bodies) {
    for (body, count) in bodies.iter_mut().zip(header.body_bits()) {
        *body = pack(&bits(body, count as usize));
    }
}

/// Lets the counts of leaves and of sparse nodes, the length of the slots, the tables and
/// the level starts follow the bits.
fn agree(header: &mut Header, bodies: &mut Bodies) {
    let bits = TrieBits::read(header, bodies);
    header.leaves = bits.leaves() as u32;
    header.sparse_nodes = bits.sparse_nodes() as u32;
    bodies[RL..LV].clone_from_slice(&bits.tables());
    fit(header, bodies);
    follow_levels(header, bodies);
}

/// Lets the level starts follow the trie, if the image has them.
fn follow_levels(header: &Header, bodies: &mut Bodies) {
    if header.has_level_starts() {
        let nodes = nodes(&Frame {
            header: header.clone(),
            bodies: bodies.each_ref().map(Vec::as_slice),
        });
        bodies[LV] = level_starts(&levels(&nodes));
    }
}
