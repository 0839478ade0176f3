//! Images with a damaged byte: each is refused, or is the image of the keys that it then has, but
//! for hash bits.

use crate::shared::{body_at, image, image_with, settings, A, VAN};
use range_filter::{build, check, Filter, Leaf};

/// Gives the lowest possible keys of an image with at most 8 real bits: the cut key, and
/// behind it the real bits as a byte, unless that is zero.
fn lowest_keys(filter: &Filter) -> Vec<Vec<u8>> {
    let hash_bits = filter.settings().hash_bits();
    let key = |leaf: Leaf| {
        let real = ((leaf.suffix().bits() >> hash_bits) as u8).reverse_bits();
        let real = (real != 0).then_some(real);
        leaf.cut().iter().copied().chain(real).collect()
    };
    filter.leaves().map(key).collect()
}

/// Asserts that bytes are refused by open as by check, with a number of the check, or are the
/// image of their lowest possible keys, but for hash bits. Says whether they are accepted.
fn judged(bytes: &[u8]) -> bool {
    let filter = Filter::open(bytes);
    assert_eq!(filter.map(|_| ()), check(bytes));
    match filter {
        Ok(filter) => {
            assert_rebuilt(&filter);
            true
        }
        Err(refusal) => {
            assert!((11..=16).contains(&refusal.number()), "{refusal}");
            false
        }
    }
}

/// Asserts that an image without its hash bits is the one of its lowest possible keys, and that
/// it denies none of them: by their ranges, and if there are no hash bits, by their points.
fn assert_rebuilt(filter: &Filter) {
    let keys = lowest_keys(filter);
    let hash_bits = filter.settings().hash_bits();
    let rebuilt = build(&keys, filter.settings().with_hash_bits(0));
    assert_eq!(rebuilt, Ok(without_hash_bits(filter)));
    for key in keys {
        assert_eq!(filter.may_contain_range(&key, &key), Ok(true));
        assert!(hash_bits > 0 || filter.may_contain(&key) == Ok(true));
    }
}

/// Gives an image with its hash bits struck out.
fn without_hash_bits(filter: &Filter) -> Vec<u8> {
    let (image, settings) = (filter.image(), filter.settings());
    let [hash, real] = [settings.hash_bits(), settings.real_bits()].map(usize::from);
    let start = body_at(image, b"SV");
    let length = (filter.len() * (hash + real)).div_ceil(8);
    let bit = |at: usize| image[start + at / 8] >> (at % 8) & 1;
    let mut slots = vec![0; (filter.len() * real).div_ceil(8)];
    for to in 0..filter.len() * real {
        let from = to / real * (hash + real) + hash + to % real;
        slots[to / 8] |= bit(from) << (to % 8);
    }
    let new_length = (slots.len() as u32).to_le_bytes();
    let (before, behind) = (&image[..start - 4], &image[start + length..]);
    let mut struck = [before, &new_length, &slots, behind].concat();
    struck[5] = 0;
    struck
}

/// Gives how many of the damaged images of an image are accepted: those with one other byte.
fn accepted(image: &[u8]) -> usize {
    let places = (0..image.len()).flat_map(|place| (1..=u8::MAX).map(move |flips| (place, flips)));
    let damaged = |(place, flips): (usize, u8)| {
        let mut damaged = image.to_vec();
        damaged[place] ^= flips;
        judged(&damaged)
    };
    places.map(damaged).filter(|&accepted| accepted).count()
}

/// How many other bytes the two labels of list A's second node may be, which are 1 and 2.
const SECOND_NODE: usize = 49 + 205;

/// How many other bytes the entries of the third node may be: for the extra FF a label below 2,
/// for the label 2 behind it any.
const THIRD_NODE: usize = 50 + 255;

/// How many images differ from list A's in one label. D may be any other label below V, and V any
/// above D.
const LABELS: usize = 85 + 186 + SECOND_NODE + THIRD_NODE;

/// How many images differ from list A's in one byte. Of the first four branches another two may
/// continue, but not both of the second node's: 03, 06, 09 or 0A in place of 05.
const LIST_A: usize = LABELS + 4;

/// The same in version 2, where there have to be three levels: with 03 there are two. Nothing else
/// can stand in the place of version byte and level starts.
const LIST_A_VERSION_2: usize = LABELS + 3;

#[test]
fn list_a() {
    assert_eq!(accepted(&image(&A, 0, 0)), LIST_A);
}

#[test]
fn list_a_in_version_2() {
    let image = image_with(&A, settings(0, 0).with_version(2));
    assert_eq!(accepted(&image), LIST_A_VERSION_2);
}

/// V may be any other label in its byte of the bitmap, and the second branch of the second node
/// may continue instead of the first.
#[test]
fn list_a_with_a_dense_level() {
    let expected = 7 + SECOND_NODE + THIRD_NODE + 1;
    let settings = settings(1, 0);
    assert_eq!(accepted(&image_with(&A, settings)), expected);
    assert_eq!(
        accepted(&image_with(&A, settings.with_version(2))),
        expected
    );
}

/// The slots of the three open leaves may be any others, and n may be 7: then the slots of seven
/// bits have zeros for D1, which is exact, and behind the last one.
#[test]
fn van_with_eight_real_bits() {
    let expected = 3 * 255 + 1;
    let settings = settings(0, 8);
    assert_eq!(accepted(&image_with(&VAN, settings)), LIST_A + expected);
    let image = image_with(&VAN, settings.with_version(2));
    assert_eq!(accepted(&image), LIST_A_VERSION_2 + expected);
}

/// The slots of the three open leaves may be any others, and with slots of seven bits there may be
/// three hash bits or three real bits.
#[test]
fn van_with_four_hash_bits_and_four_real_bits() {
    let expected = 3 * 255 + 2;
    let settings = settings(0, 4).with_hash_bits(4);
    assert_eq!(accepted(&image_with(&VAN, settings)), LIST_A + expected);
    let image = image_with(&VAN, settings.with_version(2));
    assert_eq!(accepted(&image), LIST_A_VERSION_2 + expected);
}
