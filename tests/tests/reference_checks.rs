//! The reference alone: its check by rules and its check by building again agree on built
//! images, on changed ones and on small frames made at random.

use range_filter_tests::generate::flip;
use range_filter_tests::generate::images::{any_image, built, small_frame, small_image};
use range_filter_tests::generate::keys::many_keys;
use range_filter_tests::random::Random;
use range_filter_tests::reference::check::check;
use range_filter_tests::reference::keys::MAX_KEYS;
use range_filter_tests::reference::rebuild::accepts;
use range_filter_tests::settings::{version_1, version_2};
use range_filter_tests::tally::{judge_changed_images, Tally};

const BUILT_IMAGES: usize = 3_000;
const FLIPPED_IMAGES: usize = 24;
const CHANGES_A_KIND: usize = 22_000;
const SMALL_FRAMES: usize = 200_000;
const LARGE_IMAGES: usize = 60;
const FLIPS_A_LARGE_IMAGE: usize = 20;

/// Asserts that both checks agree on an image, and gives the number.
fn compare(image: &[u8]) -> u32 {
    let number = check(image);
    assert_eq!(number == 0, accepts(image), "number {number}: {image:?}");
    number
}

/// Compares the checks on an image with one bit turned over, and turns it back.
fn compare_flipped(image: &mut [u8], position: usize) -> u32 {
    flip(image, position);
    let number = compare(image);
    flip(image, position);
    number
}

#[test]
fn built_images_are_accepted() {
    let tally = Tally::of(1, BUILT_IMAGES, |random| compare(&any_image(random)));
    assert_eq!(tally.numbers(), [0]);
}

#[test]
fn flipped_bits_are_judged_alike() {
    let mut random = Random::new(2);
    let mut tally = Tally::default();
    for _ in 0..FLIPPED_IMAGES {
        let mut image = small_image(&mut random);
        for position in 0..image.len() * 8 {
            tally.note(compare_flipped(&mut image, position));
        }
    }
    assert_eq!(tally.numbers(), [0, 11, 12, 13, 14, 15, 16]);
}

#[test]
fn shortened_and_extended_images_are_refused_with_11() {
    let mut random = Random::new(3);
    for _ in 0..FLIPPED_IMAGES {
        let mut image = small_image(&mut random);
        for length in 0..image.len() {
            assert_eq!(compare(&image[..length]), 11);
        }
        image.push(random.byte());
        assert_eq!(compare(&image), 11);
    }
}

#[test]
fn changed_images_are_judged_alike() {
    judge_changed_images(4, CHANGES_A_KIND, small_image, compare);
}

#[test]
fn small_frames_are_judged_alike() {
    let tally = Tally::of(7, SMALL_FRAMES, |random| compare(&small_frame(random)));
    assert_eq!(tally.numbers(), [0, 14, 16]);
    assert!(tally.times(0) > SMALL_FRAMES / 100, "{tally:?}");
}

#[test]
fn large_images_are_judged_alike() {
    let mut random = Random::new(8);
    let mut tally = Tally::default();
    for round in 0..LARGE_IMAGES {
        let count = 600 + random.below(600);
        let length = 3 + random.below(4);
        let keys = many_keys(&mut random, count, length);
        let version = [version_1, version_2][round % 2];
        let mut image = built(&keys, version((round % 5) as u64, (round % 17) as u64));
        tally.note(compare(&image));
        for _ in 0..FLIPS_A_LARGE_IMAGE {
            let position = random.below(image.len() * 8);
            tally.note(compare_flipped(&mut image, position));
        }
    }
    assert!(tally.times(0) >= LARGE_IMAGES);
    assert!(tally.times(14) > 0 && tally.times(15) > 0);
}

#[test]
fn longest_list_is_judged_alike() {
    let keys = many_keys(&mut Random::new(9), MAX_KEYS, 8);
    assert_eq!(compare(&built(&keys, version_2(2, 7))), 0);
}
