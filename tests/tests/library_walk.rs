//! The proved library's walk against the reference. The library exports one call, which
//! writes the records of the leaves from a place on: with room for one record it gives the
//! leaf at a place, and at the place behind it the next leaf.

use range_filter_tests::answer::Answer;
use range_filter_tests::examples::{IMAGE_A, IMAGE_A_2};
use range_filter_tests::generate::every_setting;
use range_filter_tests::generate::images::{any_image, built, large_images, small_frame, CHANGES};
use range_filter_tests::generate::keys::{any_keys, many_mixed_keys};
use range_filter_tests::generate::places::{far_places, ROOMS};
use range_filter_tests::random::Random;
use range_filter_tests::reference::check::accepted_leaves;
use range_filter_tests::reference::leaves::Leaf;
use range_filter_tests::reference::walk::{at, next, record, Stand, RECORD_BYTES};
use range_filter_tests::settings::{version_1, version_2, Settings};
use range_filter_tests::tally::Tally;
use range_filter_tests::{compare, library};

const IMAGES: usize = 1_500;
const STEPPED_IMAGES: usize = 400;
const LISTS_A_SETTING: usize = 1;
const CHANGES_A_KIND: usize = 15_000;
const SMALL_FRAMES: usize = 60_000;
const LARGE_KEYS: usize = 5_000;
const PLACES_A_LARGE_IMAGE: usize = 20;
const MOST_RECORDS: usize = 40;

/// The images that are walked from every place: settings, key length and about so many keys.
const EVERY_PLACE: [(Settings, usize, usize); 6] = [
    (version_1(0, 0), 8, 2_000),
    (version_2(2, 8).with_hash(8), 8, 1_000),
    (version_1(3, 16), 4, 2_000),
    (version_2(4, 16).with_hash(16), 13, 600),
    (version_2(0, 9), 63, 200),
    (version_2(1, 16).with_hash(1), 64, 200),
];

/// Compares the records from a place in a buffer of some length.
fn compare(image: &[u8], place: u64, room: usize) -> Answer {
    compare::walk(library::walk, image, place, room)
}

/// Gives the leaves of an image that is accepted.
fn leaves(image: &[u8]) -> Vec<Leaf> {
    accepted_leaves(image).expect("the image is accepted")
}

/// Gives the records of leaves, one behind the other.
fn records(leaves: &[Leaf]) -> Vec<u8> {
    leaves.iter().flat_map(record).collect()
}

/// Walks an image from its start to done by calls with room for so many records, each from
/// the place behind the last record written, and gives all records.
fn walked(image: &[u8], room: usize) -> Vec<u8> {
    let mut all = Vec::new();
    let mut buffer = vec![0; room * RECORD_BYTES];
    loop {
        let place = all.len() / RECORD_BYTES;
        let length = library::walk(image, place as u64, &mut buffer).length();
        if length == 0 {
            return all;
        }
        all.extend_from_slice(&buffer[..length]);
    }
}

/// Walks an accepted image from every place with buffers of many lengths, and from behind
/// done, where it is refused; gives the number of its leaves.
fn walk_from_everywhere(image: &[u8]) -> usize {
    let leaves = leaves(image);
    let done = leaves.len() as u64;
    let whole = leaves.len() * RECORD_BYTES;
    for place in 0..=done {
        for room in ROOMS.into_iter().chain([whole, whole + 1]) {
            compare(image, place, room);
        }
    }
    for behind in far_places().chain([done + 1, done + 2]) {
        assert_eq!(compare(image, behind, whole), Answer::Refused(17));
    }
    for room in [1, 2, 5, leaves.len() + 1] {
        assert_eq!(walked(image, room), records(&leaves));
    }
    leaves.len()
}

/// Asserts that calls from a place, with room for one record and with room for many, give
/// the records that a whole walk has there.
fn compare_at(image: &[u8], whole: &[u8], place: usize, many: usize) {
    for room in [RECORD_BYTES, many] {
        let rest = &whole[place * RECORD_BYTES..];
        let length = rest.len().min(room / RECORD_BYTES * RECORD_BYTES);
        let expected = |buffer: &mut [u8]| {
            buffer[..length].copy_from_slice(&rest[..length]);
            Answer::Written(length)
        };
        let found = |buffer: &mut [u8]| library::walk(image, place as u64, buffer);
        compare::same(room, expected, found, &(place, room));
    }
}

#[test]
fn list_a_is_walked() {
    let mut last = [0; RECORD_BYTES];
    last[..3].copy_from_slice(b"\x02\x01V");
    for image in [IMAGE_A, IMAGE_A_2] {
        let mut found = [0; RECORD_BYTES];
        library::walk(image, 3, &mut found);
        assert_eq!(found, last);
        assert_eq!(walk_from_everywhere(image), 4);
        assert_eq!(compare(image, 4, RECORD_BYTES), Answer::Written(0));
        assert_eq!(compare(image, 5, RECORD_BYTES), Answer::Refused(17));
        for place in 0..=4 {
            let short = compare(image, place, RECORD_BYTES - 1);
            assert_eq!(short, Answer::Written(0), "as done");
        }
        assert_eq!(compare(image, 5, RECORD_BYTES - 1), Answer::Refused(17));
    }
}

#[test]
fn random_images_are_walked_from_every_place() {
    let mut random = Random::new(71);
    for _ in 0..IMAGES {
        walk_from_everywhere(&any_image(&mut random));
    }
}

#[test]
fn images_of_every_setting_are_walked_from_every_place() {
    let mut random = Random::new(72);
    for settings in every_setting() {
        for _ in 0..LISTS_A_SETTING {
            walk_from_everywhere(&built(&any_keys(&mut random), settings));
        }
        assert_eq!(walk_from_everywhere(&built(&[], settings)), 0);
    }
}

#[test]
fn steps_go_from_leaf_to_leaf_as_next_says() {
    let mut random = Random::new(76);
    for _ in 0..STEPPED_IMAGES {
        let image = any_image(&mut random);
        let mut place = 0;
        while let Stand::Leaf(leaf) = at(&image, place) {
            let mut found = [0; RECORD_BYTES];
            let answer = library::walk(&image, place, &mut found);
            assert_eq!((answer.length(), found), (RECORD_BYTES, record(&leaf)));
            place = next(&image, place).expect("a leaf has a next place");
        }
        assert_eq!(compare(&image, place, RECORD_BYTES), Answer::Written(0));
    }
}

#[test]
fn done_stays_done() {
    let mut random = Random::new(77);
    let images = (0..STEPPED_IMAGES).map(|_| any_image(&mut random));
    let empty = [version_1(0, 0), version_2(4, 16)].map(|settings| built(&[], settings));
    for image in images.chain(empty) {
        let done = leaves(&image).len() as u64;
        assert_eq!(next(&image, done), Ok(done));
        for room in ROOMS.into_iter().chain([10 * RECORD_BYTES]) {
            assert_eq!(compare(&image, done, room), Answer::Written(0));
            assert_eq!(compare(&image, done, room), Answer::Written(0));
        }
        assert_eq!(compare(&image, done + 1, RECORD_BYTES), Answer::Refused(17));
    }
}

#[test]
fn every_place_of_large_images_is_opened() {
    let mut random = Random::new(78);
    for (settings, length, count) in EVERY_PLACE {
        let keys = many_mixed_keys(&mut random, count, length);
        let image = built(&keys, settings);
        let whole = records(&leaves(&image));
        for place in 0..=keys.len() {
            let many = random.below(MOST_RECORDS * RECORD_BYTES);
            compare_at(&image, &whole, place, many);
        }
    }
}

#[test]
fn large_images_are_walked_in_steps_of_many_records() {
    let mut random = Random::new(75);
    let images: Vec<Vec<u8>> = large_images(&mut random, LARGE_KEYS).collect();
    for image in images {
        let leaves = leaves(&image);
        let whole = records(&leaves);
        for room in [100, 999, leaves.len(), leaves.len() + 1] {
            assert!(walked(&image, room) == whole, "{room} records a call");
        }
        for _ in 0..PLACES_A_LARGE_IMAGE {
            let place = random.below(leaves.len());
            compare_at(&image, &whole, place, random.below(whole.len()));
        }
        compare_at(&image, &whole, leaves.len(), whole.len());
    }
}

#[test]
fn changed_images_are_walked_or_refused_alike() {
    let mut random = Random::new(73);
    let mut tally = Tally::default();
    for _ in 0..CHANGES_A_KIND {
        let image = any_image(&mut random);
        for change in &CHANGES {
            let changed = (change.apply)(&mut random, &image);
            let place = random.below(8) as u64;
            let room = random.below(300);
            tally.note(compare(&changed, place, room).number());
        }
    }
    assert_eq!(tally.numbers(), [0, 11, 12, 13, 14, 15, 16, 17]);
}

#[test]
fn small_frames_are_walked_or_refused_alike() {
    let tally = Tally::of(74, SMALL_FRAMES, |random| {
        let image = small_frame(random);
        let place = random.below(4) as u64;
        compare(&image, place, random.below(300)).number()
    });
    assert_eq!(tally.numbers(), [0, 14, 16, 17]);
}

#[test]
fn refused_images_are_refused_at_every_place() {
    for place in far_places().chain(0..4) {
        for room in ROOMS {
            assert_eq!(compare(&[], place, room), Answer::Refused(11));
        }
    }
}
