//! The proved library's check against the reference, on built and changed images.

use range_filter_tests::generate::flip;
use range_filter_tests::generate::images::{any_image, large_images, small_frame, CHANGES};
use range_filter_tests::random::Random;
use range_filter_tests::tally::{judge_changed_images, Tally};
use range_filter_tests::{compare, library};

const IMAGES: usize = 4_000;
const CHANGES_A_KIND: usize = 40_000;
const SMALL_FRAMES: usize = 200_000;
const RANDOM_STRINGS: usize = 50_000;
const FLIPPED_IMAGES: usize = 40;
const FLIPPED_BYTES: usize = 600;
const LARGE_KEYS: usize = 8_000;
const CHANGES_A_LARGE_IMAGE: usize = 18;

/// Compares a check, and gives the number.
fn compare(image: &[u8]) -> u32 {
    compare::check(library::check, image)
}

#[test]
fn built_images_are_accepted() {
    let tally = Tally::of(51, IMAGES, |random| compare(&any_image(random)));
    assert_eq!(tally.numbers(), [0]);
}

#[test]
fn every_bit_flip_truncation_and_extension_is_judged_alike() {
    let mut random = Random::new(52);
    let mut tally = Tally::default();
    for _ in 0..FLIPPED_IMAGES {
        let mut image = any_image(&mut random);
        for position in 0..image.len().min(FLIPPED_BYTES) * 8 {
            flip(&mut image, position);
            tally.note(compare(&image));
            flip(&mut image, position);
        }
        for length in 0..image.len().min(FLIPPED_BYTES) {
            assert_eq!(compare(&image[..length]), 11);
        }
        image.push(0);
        assert_eq!(compare(&image), 11);
    }
    assert_eq!(tally.numbers(), [0, 11, 12, 13, 14, 15, 16]);
}

#[test]
fn changed_images_are_judged_alike() {
    judge_changed_images(53, CHANGES_A_KIND, any_image, compare);
}

#[test]
fn small_frames_are_judged_alike() {
    let tally = Tally::of(56, SMALL_FRAMES, |random| compare(&small_frame(random)));
    assert_eq!(tally.numbers(), [0, 14, 16]);
}

#[test]
fn random_strings_are_refused_with_11() {
    let mut random = Random::new(57);
    assert_eq!(compare(&[]), 11);
    for _ in 0..RANDOM_STRINGS {
        let tail = random.bytes(0, 120);
        assert_eq!(compare(&tail), 11);
        assert_eq!(compare(&[b"HD\x01", &tail[..]].concat()), 11);
        assert_eq!(compare(&[b"HD\x02", &tail[..]].concat()), 11);
    }
}

#[test]
fn large_images_are_judged_alike() {
    let mut tally = Tally::default();
    let images: Vec<Vec<u8>> = large_images(&mut Random::new(58), LARGE_KEYS).collect();
    let mut random = Random::new(59);
    for image in images {
        assert_eq!(compare(&image), 0);
        for change in &CHANGES {
            for _ in 0..CHANGES_A_LARGE_IMAGE {
                tally.note(compare(&(change.apply)(&mut random, &image)));
            }
        }
    }
    assert!(tally.times(14) > 0 && tally.times(15) > 0, "{tally:?}");
}
