//! The proved library with every number of hash bits and every number of real bits: against
//! the reference by every call, and by what hash bits may and may not change. A stored key is
//! never denied; ranges, counts, seeks and stems do not see hash bits; and an image is that of
//! h 0 once the hash bits are struck out.

use range_filter_tests::accepted::{AcceptedCalls, FOUND_BYTES};
use range_filter_tests::answer::Answer;
use range_filter_tests::compare::{self, AcceptedCase, Case};
use range_filter_tests::generate::hashed::{held_key, unheld_key};
use range_filter_tests::generate::in_both_versions;
use range_filter_tests::generate::keys::{any_keys, ff_keys, growing_keys, short_keys, wide_keys};
use range_filter_tests::generate::questions::{question_near, stems_of};
use range_filter_tests::library::{self, accept, Accepted};
use range_filter_tests::random::Random;
use range_filter_tests::reference::format::{MAX_HASH_BITS, MAX_REAL_BITS};
use range_filter_tests::reference::hash::hash;
use range_filter_tests::reference::keys::{self, MAX_KEY};
use range_filter_tests::reference::leaves::{leaves, Leaf};
use range_filter_tests::reference::questions::{write, Question, MAX_QUESTIONS};
use range_filter_tests::reference::replies::REPLY_HEAD;
use range_filter_tests::reference::strike::struck;
use range_filter_tests::reference::walk::RECORD_BYTES;
use range_filter_tests::settings::{version_1, Settings};

/// The numbers of dense levels that every h and every n are tried with.
const DENSE_LEVELS: [u64; 3] = [0, 1, 3];

/// How often a key with a leaf's hash bits, and one without them, is tried for.
const TRIES: usize = 400;

const QUESTIONS_AN_IMAGE: usize = 30;
const LEAVES_AN_IMAGE: usize = 4;
const HASHED_STRINGS: usize = 3_000;

/// The lengths of long strings that are hashed.
const LONG_STRINGS: [usize; 8] = [255, 256, 257, 1_000, 4_096, 65_535, 65_537, 1_000_000];

/// A list and its image, as the library builds it.
struct Built {
    settings: Settings,
    keys: Vec<Vec<u8>>,
    image: Vec<u8>,
    leaves: Vec<Leaf>,
}

impl Built {
    /// Builds the image of keys that make a list.
    fn new(keys: Vec<Vec<u8>>, settings: Settings) -> Self {
        let leaves = leaves(&keys, settings);
        Built {
            image: image(&keys, settings),
            settings,
            keys,
            leaves,
        }
    }

    /// Gives the image as the library has accepted it.
    fn accepted(&self) -> Accepted<'_> {
        accept(&self.image).expect("a built image is accepted")
    }
}

/// Gives the image of keys that make a list, as the library builds it.
fn image(keys: &[Vec<u8>], settings: Settings) -> Vec<u8> {
    let list = keys::write(keys);
    let length = library::image_length(&list, settings).expect("the keys make a list");
    let mut image = vec![0; length];
    let answer = library::build(&list, settings, length as u64, &mut image);
    assert_eq!(answer, Answer::Written(length));
    image
}

/// Tries something on images of random lists with every h and every n, in both versions and
/// with some numbers of dense levels.
fn try_images(seed: u64, mut trial: impl FnMut(&mut Random, &Built)) {
    let mut random = Random::new(seed);
    let kinds = [
        any_keys,
        any_keys,
        ff_keys,
        growing_keys,
        short_keys,
        wide_keys,
    ];
    for (h, n) in pairs() {
        for dense_levels in DENSE_LEVELS {
            for settings in in_both_versions(version_1(dense_levels, n).with_hash(h)) {
                let keys = random.pick(&kinds)(&mut random);
                trial(&mut random, &Built::new(keys, settings));
            }
        }
    }
}

/// Gives every h with every n.
fn pairs() -> impl Iterator<Item = (u64, u64)> {
    (0..=MAX_HASH_BITS).flat_map(|h| (0..=MAX_REAL_BITS).map(move |n| (h, n)))
}

/// Gives some of an image's leaves.
fn some_leaves<'a>(random: &mut Random, built: &'a Built) -> Vec<&'a Leaf> {
    let count = built.leaves.len().min(LEAVES_AN_IMAGE);
    (0..count).map(|_| random.pick(&built.leaves)).collect()
}

/// Gives points about stored keys and about keys that leaves have and do not have by their
/// hash bits, and questions of every kind.
fn questions(random: &mut Random, built: &Built) -> Vec<Question> {
    let mut points: Vec<Vec<u8>> = built.keys.clone();
    for leaf in some_leaves(random, built) {
        points.extend(held_key(random, leaf, TRIES));
        points.extend(unheld_key(random, leaf, TRIES));
    }
    let mut asked: Vec<Question> = points.into_iter().map(Question::Point).collect();
    asked.extend((0..QUESTIONS_AN_IMAGE).map(|_| question_near(random, &built.leaves)));
    asked
}

#[test]
fn every_h_and_n_is_built_and_measured_alike() {
    try_images(171, |_, built| {
        let list = keys::write(&built.keys);
        let case = Case::new(&list, built.settings);
        let length = case.length(library::image_length).expect("no refusal");
        assert_eq!(length, built.image.len());
        let build = |stated: usize, room| case.build(library::build, stated as u64, room);
        assert_eq!(build(length, length), Answer::Written(length));
        assert_eq!(build(length, length + 9), Answer::Written(length));
        assert_eq!(build(length, length - 1), Answer::Refused(7));
        assert_eq!(build(length - 1, length), Answer::Refused(8));
        assert_eq!(compare::check(library::check, &built.image), 0);
    });
}

#[test]
fn every_h_and_n_is_asked_and_walked_alike() {
    try_images(172, |random, built| {
        let asked = questions(random, built);
        for asked in asked.chunks(MAX_QUESTIONS) {
            let room = asked.len() * (REPLY_HEAD + MAX_KEY);
            compare::ask(library::ask, &built.image, &write(asked), room).length();
        }
        let whole = built.keys.len() * RECORD_BYTES;
        let walked = compare::walk(library::walk, &built.image, 0, whole);
        assert_eq!(walked, Answer::Written(whole));
        let case = AcceptedCase::new(&built.image, &built.leaves, built.accepted());
        for question in &asked {
            case.question(question).expect("the question is taken");
        }
        assert_eq!(case.walk(0, whole), Answer::Written(whole));
    });
}

#[test]
fn stored_keys_are_never_denied() {
    try_images(173, |_, built| {
        let accepted = built.accepted();
        for (place, key) in (0..).zip(&built.keys) {
            assert_eq!(accepted.point(key), Ok(1), "{key:?} {:?}", built.settings);
            let rule = if built.leaves[place].exact { 3 } else { 4 };
            assert_eq!(accepted.rule(key), Ok(rule));
            assert_possible(accepted, key, place as u32);
        }
        let points = built.keys.iter().cloned().map(Question::Point);
        let stems = built.keys.iter().flat_map(|key| stems_of(key));
        let asked: Vec<Question> = points.chain(stems).collect();
        for asked in asked.chunks(MAX_QUESTIONS) {
            assert_none_denied(&built.image, asked);
        }
    });
}

/// Asserts that points and stems all get the number 1.
fn assert_none_denied(image: &[u8], asked: &[Question]) {
    let mut replies = vec![0; asked.len() * (REPLY_HEAD + 1)];
    let length = library::ask(image, &write(asked), &mut replies).length();
    let mut rest = &replies[..length];
    for question in asked {
        assert_eq!(rest[3..7], [1, 0, 0, 0], "{question:?}");
        rest = &rest[REPLY_HEAD + usize::from(rest[7])..];
    }
    assert!(rest.is_empty());
}

/// Asserts that all but the point find a key at a place.
fn assert_possible(image: Accepted, key: &[u8], place: u32) {
    assert_eq!(image.range(key, key), Ok(1));
    assert_eq!(image.count(key, key), Ok(1));
    assert_eq!(image.begins_with(key), Ok(1));
    let mut found = [0; FOUND_BYTES];
    assert_eq!(image.seek(key, &mut found), Ok(place));
    assert_eq!(found[..=key.len()], *[&[key.len() as u8], key].concat());
}

#[test]
fn points_are_0_and_ranges_1_where_the_hash_bits_alone_differ() {
    let mut found = [[0; MAX_REAL_BITS as usize + 1]; MAX_HASH_BITS as usize + 1];
    try_images(174, |random, built| {
        let accepted = built.accepted();
        for (place, leaf) in (0..).zip(&built.leaves) {
            let Some(key) = unheld_key(random, leaf, TRIES) else {
                continue;
            };
            assert_eq!((accepted.point(&key), accepted.rule(&key)), (Ok(0), Ok(5)));
            assert_possible(accepted, &key, place);
            found[built.settings.h as usize][built.settings.n as usize] += 1;
        }
    });
    assert_eq!(found[0], [0; MAX_REAL_BITS as usize + 1]);
    assert!(
        found[1..].as_flattened().iter().all(|&count| count > 3),
        "{found:?}"
    );
}

#[test]
fn points_are_1_for_other_keys_with_the_same_hash_bits() {
    let mut found = [0; MAX_HASH_BITS as usize + 1];
    try_images(175, |random, built| {
        let accepted = built.accepted();
        for (place, leaf) in (0..).zip(&built.leaves) {
            let held = held_key(random, leaf, TRIES).filter(|key| !built.keys.contains(key));
            if let Some(key) = held {
                assert_eq!((accepted.point(&key), accepted.rule(&key)), (Ok(1), Ok(4)));
                assert_possible(accepted, &key, place);
                found[built.settings.h as usize] += 1;
            }
        }
    });
    assert!(found[..=8].iter().all(|&count| count > 100), "{found:?}");
}

#[test]
fn images_with_the_hash_bits_struck_out_are_those_of_h_0() {
    try_images(176, |_, built| {
        let plain = image(&built.keys, built.settings.with_hash(0));
        assert_eq!(plain[5], 0);
        assert_eq!(struck(&built.image), Some(plain));
    });
}

#[test]
fn bytes_of_any_length_are_hashed_alike() {
    let mut random = Random::new(177);
    for number in 0..HASHED_STRINGS {
        let bytes = random.bytes(8, 8 + number % 131);
        let part = &bytes[random.below(8)..];
        assert_eq!(library::hash(part), hash(part), "{part:?}");
    }
    for length in LONG_STRINGS {
        let bytes = random.bytes(length, length);
        assert_eq!(library::hash(&bytes), hash(&bytes), "{length} bytes");
        let zeros = vec![0; length];
        assert_eq!(library::hash(&zeros), hash(&zeros), "{length} zeros");
    }
}

#[test]
fn hashes_of_one_byte_are_those_of_its_definition() {
    for byte in 0..=0xFF {
        let start = 0xCBF2_9CE4_8422_2325_u64 ^ u64::from(byte);
        let product = u128::from(start) * 0x100_0000_01B3;
        assert_eq!(library::hash(&[byte]), product as u64);
    }
}
