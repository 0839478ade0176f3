//! Leaves one at a time and one by one.

use crate::shared::{image, image_with, settings, versions, A, NO_KEYS, VAN};
use range_filter::{Filter, Leaf};

/// Gives so many keys of four digits, none of which is cut, so that they are their own leaves.
fn digits(keys: usize) -> Vec<String> {
    (0..keys).map(|number| format!("{number:04}")).collect()
}

/// Gives a leaf as the leaf printer of document 01 prints it.
fn line(leaf: &Leaf) -> String {
    let kind = if leaf.is_exact() { 'E' } else { 'O' };
    let cut: String = leaf.cut().iter().map(|b| format!("{b:02X}")).collect();
    format!("{} {kind} {cut} {}", leaf.place(), leaf.suffix())
}

/// Gives the lines of all leaves of an image.
fn lines(image: &[u8]) -> Vec<String> {
    let filter = Filter::open(image).expect("the image is accepted");
    filter.leaves().map(|leaf| line(&leaf)).collect()
}

#[test]
fn leaves_of_list_a() {
    let expected = ["0 E 4431 -", "1 O 443132 -", "2 O 4432 -", "3 O 56 -"];
    for dense_levels in 0..=4 {
        for settings in versions(settings(dense_levels, 0)) {
            assert_eq!(lines(&image_with(&A, settings)), expected);
        }
    }
}

#[test]
fn leaves_with_suffixes() {
    let van = |real_bits| lines(&image(&VAN, 1, real_bits));
    assert_eq!(
        van(8),
        [
            "0 E 4431 -",
            "1 O 443132 00000000",
            "2 O 4432 00000000",
            "3 O 56 01000001"
        ]
    );
    assert_eq!(van(1)[3], "3 O 56 0");
    assert_eq!(van(4)[3], "3 O 56 0100");
    assert_eq!(van(16)[3], "3 O 56 0100000101001110");
}

#[test]
fn suffixes_as_numbers() {
    for (real_bits, number) in [(0, 0), (1, 0), (2, 2), (4, 2), (8, 0x82), (16, 0x7282)] {
        let image = image(&VAN, 0, real_bits);
        let filter = Filter::open(&image).expect("the image is accepted");
        let leaf = filter.leaf(3).expect("the place is a leaf's");
        let suffix = leaf.expect("the image has four leaves").suffix();
        assert_eq!((suffix.width(), suffix.bits()), (real_bits, number));
    }
}

/// Asserts that the leaves of so many keys are the same one by one and one at a time.
fn assert_each_leaf(keys: usize) {
    let image = image_with(&digits(keys), settings(2, 4).with_hash_bits(16));
    let filter = Filter::open(&image).expect("the image is accepted");
    assert_eq!(filter.leaves().count(), keys);
    for (place, leaf) in filter.leaves().enumerate() {
        assert_eq!(leaf.place(), place);
        assert_eq!(filter.leaf(place), Ok(Some(leaf)));
    }
    assert_eq!(filter.leaf(keys), Ok(None));
}

#[test]
fn one_by_one_is_one_at_a_time() {
    let about_batches = [0, 1, 63, 64, 65, 127, 128, 129, 1_000];
    about_batches.into_iter().for_each(assert_each_leaf);
}

#[test]
fn a_thousand_leaves_are_their_keys() {
    let keys = digits(1_000);
    let image = image(&keys, 0, 0);
    let filter = Filter::open(&image).expect("the image is accepted");
    let leaves: Vec<Leaf> = filter.leaves().collect();
    assert_eq!(leaves.len(), 1_000);
    for (leaf, key) in leaves.iter().zip(&keys) {
        assert_eq!(leaf.cut(), key.as_bytes());
        assert!(!leaf.is_exact());
    }
}

#[test]
fn an_iterator_knows_what_is_left() {
    let image = image(&digits(200), 0, 0);
    let mut leaves = Filter::open(&image)
        .expect("the image is accepted")
        .leaves();
    for left in (0..200).rev() {
        assert!(leaves.next().is_some());
        assert_eq!(leaves.len(), left);
    }
    assert_eq!(leaves.next(), None);
    assert_eq!(leaves.next(), None);
    assert_eq!(leaves.len(), 0);
}

#[test]
fn an_iterator_goes_straight_to_a_place() {
    let image = image(&digits(1_000), 0, 0);
    let filter = Filter::open(&image).expect("the image is accepted");
    let mut leaves = filter.leaves();
    let places = [(0, 0), (1, 2), (60, 63), (0, 64), (500, 565), (433, 999)];
    for (skipped, place) in places {
        assert_eq!(leaves.nth(skipped).map(|leaf| leaf.place()), Some(place));
    }
    assert_eq!(leaves.nth(1), None);
    assert_eq!(leaves.len(), 0);
    assert_eq!(filter.leaves().nth(1_000), None);
    assert_eq!(filter.leaves().nth(usize::MAX), None);
    let steps: Vec<usize> = filter.leaves().step_by(300).map(|l| l.place()).collect();
    assert_eq!(steps, [0, 300, 600, 900]);
}

#[test]
fn an_iterator_counts_and_ends_at_once() {
    let image = image(&digits(1_000), 0, 0);
    let filter = Filter::open(&image).expect("the image is accepted");
    assert_eq!(filter.leaves().skip(10).count(), 990);
    assert_eq!(filter.leaves().last(), filter.leaf(999).expect("a leaf"));
    let mut leaves = filter.leaves();
    assert_eq!(leaves.by_ref().count(), 1_000);
    assert_eq!(leaves.last(), None);
}

#[test]
fn no_keys_have_no_leaves() {
    let image = image(&NO_KEYS, 0, 0);
    let filter = Filter::open(&image).expect("the image is accepted");
    assert_eq!(filter.leaves().last(), None);
    assert_eq!(filter.leaves().len(), 0);
}
