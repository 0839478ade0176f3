//! The reference alone: leaves and their possible keys compared with the definitions of
//! document 01.

use range_filter_tests::generate::any_settings;
use range_filter_tests::generate::keys::any_keys;
use range_filter_tests::generate::questions::key_near;
use range_filter_tests::random::Random;
use range_filter_tests::reference::hash::hash_bits;
use range_filter_tests::reference::keys::MAX_KEY;
use range_filter_tests::reference::leaves::{
    highest, is_held, is_possible, leaves, lowest, real_bits, Leaf,
};
use range_filter_tests::settings::Settings;

const INTERVAL_KEYS: usize = 150;
const DEFINED_LISTS: usize = 2_000;

/// Gives the open leaf of a key that is cut behind so many bytes.
fn open_leaf(key: &[u8], cut_length: usize, h: usize, n: usize) -> Leaf {
    Leaf {
        cut_key: key[..cut_length].to_vec(),
        exact: false,
        hash: hash_bits(key, h),
        real: real_bits(key, cut_length, n),
    }
}

/// Gives the exact leaf of a key.
fn exact_leaf(key: &[u8], h: usize, n: usize) -> Leaf {
    Leaf {
        cut_key: key.to_vec(),
        exact: true,
        hash: vec![false; h],
        real: vec![false; n],
    }
}

#[test]
fn possible_keys_form_an_interval() {
    let mut random = Random::new(11);
    for length in 1..=MAX_KEY {
        for n in 0..=16 {
            let key = random.string(b"\x00k\x80\xFF", length, MAX_KEY);
            let leaf = open_leaf(&key, length, random.below(17), n);
            compare_interval(&mut random, &leaf, &key);
        }
    }
}

/// Compares the interval of an open leaf with the definition of possible keys.
fn compare_interval(random: &mut Random, leaf: &Leaf, key: &[u8]) {
    let (low, high) = (lowest(leaf), highest(leaf));
    assert!(is_possible(leaf, &low) && is_possible(leaf, &high) && is_possible(leaf, key));
    assert!(is_held(leaf, key));
    for _ in 0..INTERVAL_KEYS {
        let near = key_near(random, std::slice::from_ref(leaf));
        let inside = low <= near && near <= high;
        assert_eq!(is_possible(leaf, &near), inside, "{leaf:?} {near:?}");
    }
}

#[test]
fn exact_leaf_has_itself_alone() {
    let mut random = Random::new(12);
    for length in 1..MAX_KEY {
        let leaf = exact_leaf(&random.string(b"\x00k\xFF", length, length), 6, 9);
        assert_eq!(lowest(&leaf), leaf.cut_key);
        assert_eq!(highest(&leaf), leaf.cut_key);
        assert!(is_possible(&leaf, &leaf.cut_key) && is_held(&leaf, &leaf.cut_key));
        assert!(!is_possible(
            &leaf,
            &[leaf.cut_key.as_slice(), &[0]].concat()
        ));
        assert!(!is_possible(&leaf, &leaf.cut_key[1..]));
    }
}

#[test]
fn real_bits_are_the_high_bits_first() {
    let bits = |text: &str| text.chars().map(|bit| bit == '1').collect::<Vec<bool>>();
    assert_eq!(real_bits(b"VAN", 1, 8), bits("01000001"));
    assert_eq!(real_bits(b"VAN", 1, 16), bits("0100000101001110"));
    assert_eq!(real_bits(b"VAN", 2, 11), bits("01001110000"));
    assert_eq!(real_bits(b"VAN", 3, 3), bits("000"));
    assert_eq!(real_bits(b"VAN", 1, 0), bits(""));
}

#[test]
fn lowest_key_drops_zero_bytes_behind_the_cut_alone() {
    let leaf = open_leaf(b"a\x00", 2, 3, 16);
    assert_eq!(lowest(&leaf), b"a\x00");
}

/// Cuts a key by definition, looking at every other key of its list.
fn defined_leaf(list: &[Vec<u8>], key: &[u8], settings: Settings) -> Leaf {
    let [h, n] = [settings.h, settings.n].map(|bits| bits as usize);
    let others = || list.iter().filter(|other| *other != key);
    if others().any(|other| other.starts_with(key)) {
        return exact_leaf(key, h, n);
    }
    let shares = |length: &usize| others().any(|other| other.starts_with(&key[..*length]));
    let cut_length = 1 + (1..=key.len()).filter(shares).max().unwrap_or(0);
    open_leaf(key, cut_length, h, n)
}

#[test]
fn leaves_agree_with_their_definition() {
    let mut random = Random::new(15);
    for _ in 0..DEFINED_LISTS {
        let list = any_keys(&mut random);
        let settings = any_settings(&mut random);
        let defined = list.iter().map(|key| defined_leaf(&list, key, settings));
        assert_eq!(leaves(&list, settings), defined.collect::<Vec<Leaf>>());
    }
}
