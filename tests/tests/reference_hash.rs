//! The reference alone: its hash compared with published values and with the plain numbers of
//! its description, its hash bits, and images with the hash bits struck out.

use range_filter_tests::generate::images::built;
use range_filter_tests::generate::keys::any_keys;
use range_filter_tests::generate::slots::{slot_starts, with_flipped_bits, with_zero_slots};
use range_filter_tests::generate::{any_settings, every_setting};
use range_filter_tests::random::Random;
use range_filter_tests::reference::check::{accepted_leaves, check};
use range_filter_tests::reference::hash::{hash, hash_bits, OFFSET_BASIS, PRIME};
use range_filter_tests::reference::leaves::Leaf;
use range_filter_tests::reference::rebuild::accepts;
use range_filter_tests::reference::strike::struck;
use range_filter_tests::settings::{version_1, version_2, Settings};
use range_filter_tests::vectors::FNV_1A_64;

const STRINGS: usize = 2_000;
const LISTS: usize = 150;

/// Gives the hash by plain numbers, which are taken modulo 2^64.
fn hash_by_numbers(bytes: &[u8]) -> u64 {
    let modulus = 1_u128 << 64;
    let step = |hash: u128, &byte: &u8| (hash ^ u128::from(byte)) * 1_099_511_628_211 % modulus;
    let hash = bytes.iter().fold(14_695_981_039_346_656_037, step);
    hash as u64
}

#[test]
fn published_values_are_the_hashes() {
    for (bytes, value) in FNV_1A_64 {
        assert_eq!(hash(bytes), value, "{bytes:?}");
    }
}

#[test]
fn offset_basis_and_prime_are_as_they_are_published() {
    assert_eq!(PRIME, (1 << 40) + 0x1B3);
    let signature = br"chongo <Landon Curt Noll> /\../\";
    assert_eq!(signature.len(), 32);
    let step = |hash: u64, &byte: &u8| hash.wrapping_mul(PRIME) ^ u64::from(byte);
    assert_eq!(signature.iter().fold(0, step), OFFSET_BASIS);
}

#[test]
fn hash_agrees_with_plain_numbers() {
    let mut random = Random::new(161);
    for length in 0..STRINGS {
        let bytes = random.bytes(length % 200, length % 200);
        assert_eq!(hash(&bytes), hash_by_numbers(&bytes), "{bytes:?}");
    }
}

#[test]
fn hash_bits_have_the_lowest_weight_first() {
    let bits = |text: &str| text.chars().map(|bit| bit == '1').collect::<Vec<bool>>();
    assert_eq!(hash_bits(b"a", 16), bits("0011000100110111"));
    assert_eq!(hash_bits(b"foobar", 16), bits("0001011111100110"));
    assert_eq!(hash_bits(b"foobar", 5), bits("00010"));
    assert_eq!(hash_bits(b"", 3), bits("101"));
    assert_eq!(hash_bits(b"a", 0), bits(""));
}

#[test]
fn settings_and_their_numbers_stand_for_each_other() {
    for settings in every_setting() {
        let number = settings.number();
        let header = built(&[], settings)[2..6].to_vec();
        assert_eq!(
            number,
            u32::from_le_bytes(header.try_into().expect("four bytes")).into()
        );
        assert_eq!(Settings::of_number(number), settings);
    }
}

#[test]
fn images_with_the_hash_bits_struck_out_are_those_of_h_0() {
    let mut random = Random::new(162);
    for settings in every_setting() {
        let keys = any_keys(&mut random);
        let image = built(&keys, settings);
        assert_eq!(struck(&image), Some(built(&keys, settings.with_hash(0))));
    }
}

#[test]
fn images_without_slots_of_their_length_have_no_hash_bits_to_strike_out() {
    let image = built(&[b"a".to_vec(), b"b".to_vec()], version_1(0, 3));
    for h in 1..=0xFF {
        let mut image = image.clone();
        image[5] = h;
        assert_eq!(struck(&image).is_some(), h == 1, "h {h}");
    }
    assert_eq!(struck(&image[..image.len() - 1]), None);
}

/// Gives the number of a real bit of an open leaf that stands past the key's 64th byte, if
/// there is one.
fn bit_past_the_end(leaf: &Leaf) -> Option<usize> {
    let past = |i: &usize| leaf.cut_key.len() + i / 8 >= 64;
    (0..leaf.real.len()).find(past)
}

#[test]
fn each_bit_of_a_slot_is_judged_by_both_checks() {
    let mut random = Random::new(163);
    for _ in 0..LISTS {
        let settings = any_settings(&mut random);
        let image = built(&any_keys(&mut random), settings);
        let leaves = accepted_leaves(&image).expect("a built image is accepted");
        for (leaf, start) in leaves.iter().zip(slot_starts(&image)) {
            let h = leaf.hash.len();
            for i in 0..h + leaf.real.len() {
                let first_past = bit_past_the_end(leaf).unwrap_or(usize::MAX);
                let refused = leaf.exact || i >= first_past.saturating_add(h);
                let changed = with_flipped_bits(&image, [start + i]);
                assert_eq!(check(&changed), if refused { 16 } else { 0 });
                assert_eq!(accepts(&changed), !refused);
            }
        }
    }
}

#[test]
fn each_h_byte_with_slots_that_fit_is_judged_by_both_checks() {
    let mut random = Random::new(164);
    for _ in 0..LISTS {
        let image = built(&any_keys(&mut random), any_settings(&mut random));
        for h in 0..=0xFF {
            let changed = with_zero_slots(&image, h);
            assert_eq!(check(&changed), if h > 16 { 12 } else { 0 }, "h {h}");
            assert_eq!(accepts(&changed), h <= 16, "h {h}");
        }
    }
}

#[test]
fn hash_bits_are_those_of_the_whole_key_behind_any_cut() {
    let keys = [b"k1".to_vec(), b"k2abc".to_vec(), b"k2abd".to_vec()];
    for settings in [version_1(0, 0), version_2(2, 7)] {
        let image = built(&keys, settings.with_hash(16));
        let leaves = accepted_leaves(&image).expect("a built image is accepted");
        for (key, leaf) in keys.iter().zip(leaves) {
            assert_eq!(leaf.hash, hash_bits(key, 16));
        }
    }
}
