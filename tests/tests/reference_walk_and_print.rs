//! The reference alone: its walk and its printed text give the leaves of the list that
//! built the image.

use range_filter_tests::generate::any_settings;
use range_filter_tests::generate::images::built;
use range_filter_tests::generate::keys::any_keys;
use range_filter_tests::random::Random;
use range_filter_tests::reference::leaves::{leaves, Leaf};
use range_filter_tests::reference::print::print;
use range_filter_tests::reference::walk::{at, next, Stand};

const LISTS: usize = 600;

/// Tries something on images of random lists, with the leaves of each list.
fn try_images(seed: u64, mut trial: impl FnMut(&[u8], &[Leaf])) {
    let mut random = Random::new(seed);
    for _ in 0..LISTS {
        let list = any_keys(&mut random);
        let settings = any_settings(&mut random);
        let leaves = leaves(&list, settings);
        trial(&built(&list, settings), &leaves);
    }
}

/// Walks an image from place 0 until it says done, and gives the place where it does.
fn walked(image: &[u8]) -> (Vec<Leaf>, u64) {
    let mut found = Vec::new();
    let mut place = 0;
    while let Stand::Leaf(leaf) = at(image, place) {
        found.push(leaf);
        place = next(image, place).expect("a leaf has a next place");
    }
    assert_eq!(at(image, place), Stand::Done);
    (found, place)
}

#[test]
fn walk_gives_every_leaf_in_key_order() {
    try_images(21, |image, leaves| {
        assert_eq!(walked(image), (leaves.to_vec(), leaves.len() as u64));
    });
}

#[test]
fn walk_stays_at_done() {
    try_images(22, |image, leaves| {
        let done = leaves.len() as u64;
        assert_eq!(next(image, done), Ok(done));
        assert_eq!(next(image, done + 1), Err(17));
        assert_eq!(at(image, done + 1), Stand::Refused(17));
    });
}

/// Reads a printed line back into a leaf with h hash bits and n real bits, checking its
/// number.
fn read_line(line: &str, number: usize, h: usize, n: usize) -> Leaf {
    let fields: Vec<&str> = line.split(' ').collect();
    let [printed_number, kind, cut_key, suffix] = fields[..] else {
        panic!("a line has four fields: {line}");
    };
    assert_eq!(printed_number, number.to_string());
    assert!(kind == "E" || kind == "O");
    assert_eq!(cut_key, cut_key.to_uppercase());
    let byte = |i: usize| u8::from_str_radix(&cut_key[2 * i..2 * i + 2], 16);
    let bytes = (0..cut_key.len() / 2).map(|i| byte(i).expect("two digits a byte"));
    let suffix = match suffix {
        "-" => "0".repeat(h + n),
        bits => bits.to_owned(),
    };
    assert_eq!(suffix.len(), h + n);
    let [hash, real] = [&suffix[..h], &suffix[h..]];
    let bits = |text: &str| text.chars().map(|bit| bit == '1').collect();
    Leaf {
        cut_key: bytes.collect(),
        exact: kind == "E",
        hash: bits(hash),
        real: bits(real),
    }
}

#[test]
fn printed_text_gives_every_leaf() {
    try_images(23, |image, leaves| {
        let [n, h] = [image[4], image[5]].map(usize::from);
        let text = print(image);
        assert!(text.ends_with('\n'));
        let mut lines = text.lines();
        assert_eq!(
            lines.next(),
            Some(format!("leaves {}", leaves.len()).as_str())
        );
        let lines = lines.enumerate();
        let read = lines.map(|(number, line)| read_line(line, number, h, n));
        assert_eq!(read.collect::<Vec<Leaf>>(), leaves);
    });
}

#[test]
fn dash_stands_for_exact_leaves_and_slots_without_bits_alone() {
    try_images(24, |image, leaves| {
        for (line, leaf) in print(image).lines().skip(1).zip(leaves) {
            let dash = leaf.exact || image[4..6] == [0, 0];
            assert_eq!(line.ends_with(" -"), dash, "{line}");
        }
    });
}
