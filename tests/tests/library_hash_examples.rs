//! Examples of hash bits, order 4 of document 02: slots, replies, records and refusals with
//! values worked out by hand, and published values of the hash. The reference and the proved
//! library both have to give them.

use range_filter_tests::accepted::{AcceptedCalls, FOUND_BYTES};
use range_filter_tests::answer::Answer;
use range_filter_tests::compare::{self, Case};
use range_filter_tests::examples::{list_a, list_van, IMAGE_A, IMAGE_A_2, IMAGE_A_HASHED};
use range_filter_tests::generate::images::{body_start, built, with_byte};
use range_filter_tests::generate::in_both_versions;
use range_filter_tests::library::{self, accept};
use range_filter_tests::reference::format::{frame, SV};
use range_filter_tests::reference::hash::hash;
use range_filter_tests::reference::keys;
use range_filter_tests::reference::walk::RECORD_BYTES;
use range_filter_tests::refused::assert_refused;
use range_filter_tests::settings::{version_1, version_2, Settings};
use range_filter_tests::vectors::FNV_1A_64;

/// Gives the image of keys that make a list, which the library has to build and to accept.
fn image(keys: &[Vec<u8>], settings: Settings) -> Vec<u8> {
    let image = built(keys, settings);
    let list = keys::write(keys);
    let answer = compare::build(library::build, &list, settings, image.len());
    assert_eq!(answer, Answer::Written(image.len()));
    assert_eq!(check(&image), 0);
    image
}

/// Compares a check, and gives the number.
fn check(image: &[u8]) -> u32 {
    compare::check(library::check, image)
}

/// Asserts the slots of keys in both versions and at every number of dense levels.
fn assert_slots(keys: &[Vec<u8>], h: u64, n: u64, slots: &[u8]) {
    for dense_levels in 0..=4 {
        for settings in in_both_versions(version_1(dense_levels, n).with_hash(h)) {
            let image = image(keys, settings);
            let frame = frame(&image).expect("the image has its frame");
            assert_eq!(frame.bodies[SV], slots, "{settings:?}");
        }
    }
}

/// Asserts the reply to a point over an image and the rule behind it, by a file and by value.
fn assert_point(image: &[u8], key: &[u8], number: u32, rule: u8) {
    let file = [b"QP", &[key.len() as u8][..], key].concat();
    let reply = [b"ANP", &number.to_le_bytes()[..], &[1, rule]].concat();
    let mut found = [0; 9];
    assert_eq!(library::ask(image, &file, &mut found), Answer::Written(9));
    assert_eq!(found, *reply, "{key:?}");
    assert_eq!(compare::ask(library::ask, image, &file, 9).length(), 9);
    let accepted = accept(image).expect("the image is accepted");
    assert_eq!(accepted.point(key), Ok(number), "{key:?}");
    assert_eq!(accepted.rule(key), Ok(rule.into()), "{key:?}");
}

/// Asserts that the range, the count, the stem and the seek of one key find it at a leaf.
fn assert_possible(image: &[u8], key: &[u8], place: u32) {
    let accepted = accept(image).expect("the image is accepted");
    assert_eq!(accepted.range(key, key), Ok(1));
    assert_eq!(accepted.count(key, key), Ok(1));
    assert_eq!(accepted.begins_with(key), Ok(1));
    let mut found = [0; FOUND_BYTES];
    assert_eq!(accepted.seek(key, &mut found), Ok(place));
    assert_eq!(found[..=key.len()], *[&[key.len() as u8], key].concat());
    let length = [key.len() as u8];
    let bounds = [&length[..], key, &length[..], key].concat();
    let file = [&b"QR"[..], &bounds, b"QC", &bounds].concat();
    let mut replies = [0; 16];
    assert_eq!(library::ask(image, &file, &mut replies).length(), 16);
    assert_eq!(replies, *b"ANR\x01\0\0\0\0ANC\x01\0\0\0\0");
}

#[test]
fn published_values_are_the_hashes() {
    for (bytes, value) in FNV_1A_64 {
        assert_eq!(library::hash(bytes), value, "{bytes:?}");
        assert_eq!(hash(bytes), value, "{bytes:?}");
    }
}

#[test]
fn list_a_has_its_bytes() {
    assert_eq!(
        image(&list_a(), version_1(0, 0).with_hash(8)),
        IMAGE_A_HASHED
    );
    assert_eq!(IMAGE_A_HASHED.len(), 114);
    let mut found = [0; 114];
    let number = 1 + (8 << 24);
    let list = keys::write(&list_a());
    let answer = library::build_by_number(&list, number, 114, &mut found);
    assert_eq!(answer, Answer::Written(114));
    assert_eq!(found, IMAGE_A_HASHED);
}

#[test]
fn images_without_hash_bits_have_the_bytes_they_had() {
    assert_eq!(image(&list_a(), version_1(0, 0)), IMAGE_A);
    assert_eq!(image(&list_a(), version_2(0, 0)), IMAGE_A_2);
    assert_slots(&list_van(), 0, 8, &[0x82, 0x00, 0x00, 0x00]);
}

#[test]
fn slots_have_hash_bits_before_real_bits() {
    assert_slots(&list_a(), 1, 0, &[0x03]);
    assert_slots(&list_a(), 8, 0, &[0x69, 0x53, 0x00, 0x5C]);
    assert_slots(&list_van(), 1, 0, &[0x02]);
    assert_slots(&list_van(), 4, 0, &[0x32, 0xC0]);
    assert_slots(&list_van(), 16, 0, b"\x42\xAA\x53\xC5\x00\x00\x5C\x7D");
    assert_slots(&list_van(), 4, 8, &[0x22, 0x38, 0x00, 0x00, 0xC0, 0x00]);
    assert_slots(&list_van(), 3, 5, &[0x12, 0x03, 0x00, 0x04]);
    assert_slots(&list_van(), 8, 8, b"\x42\x82\x53\x00\x00\x00\x5C\x00");
    let both = b"\x42\xAA\x82\x72\x53\xC5\x00\x00\x00\x00\x00\x00\x5C\x7D\x00\x00";
    assert_slots(&list_van(), 16, 16, both);
    let odd = b"\x42\xAA\xA6\x8A\x01\x00\xE0\xEA\x03";
    assert_slots(&list_van(), 16, 1, odd);
}

#[test]
fn images_have_so_many_bits_a_leaf_more() {
    let list = keys::write(&list_a());
    for h in 0..=16 {
        for n in 0..=16 {
            let slots = (4 * (h + n) as usize).div_ceil(8);
            let [one, two] = in_both_versions(version_1(0, n).with_hash(h))
                .map(|settings| Case::new(&list, settings).length(library::image_length));
            assert_eq!((one, two), (Ok(110 + slots), Ok(128 + slots)));
        }
    }
}

#[test]
fn points_compare_both_parts() {
    for dense_levels in 0..=4 {
        for settings in in_both_versions(version_1(dense_levels, 8).with_hash(8)) {
            let van = image(&list_van(), settings);
            for (key, number, rule) in [
                (&b"VAN"[..], 1, 4),
                (b"VAM9", 1, 4),
                (b"VAX", 0, 5),
                (b"VA", 0, 5),
                (b"VBAF", 0, 5),
                (b"VB", 0, 5),
                (b"V", 0, 5),
                (b"D1", 1, 3),
                (b"D12", 1, 4),
                (b"D2", 1, 4),
                (b"D2x", 0, 5),
                (b"D10", 0, 1),
                (b"D", 0, 2),
                (b"", 0, 2),
                (b"W", 0, 1),
            ] {
                assert_point(&van, key, number, rule);
            }
        }
    }
}

#[test]
fn hash_bits_below_a_bit_of_the_key_do_not_see_it() {
    for (h, number, rule) in [(4, 1, 4), (5, 1, 4), (6, 0, 5), (16, 0, 5)] {
        let van = image(&list_van(), version_1(0, 8).with_hash(h));
        assert_point(&van, b"VAn", number, rule);
        assert_point(&van, b"VAN", 1, 4);
        assert_point(&van, b"VAX", 0, 5);
        assert_possible(&van, b"VAX", 3);
    }
}

#[test]
fn points_without_real_bits_compare_hash_bits() {
    for settings in in_both_versions(version_1(1, 0).with_hash(4)) {
        let list_a = image(&list_a(), settings);
        for (key, number, rule) in [
            (&b"V"[..], 1, 4),
            (b"VJ", 1, 4),
            (b"VZ", 1, 4),
            (b"VA", 0, 5),
        ] {
            assert_point(&list_a, key, number, rule);
        }
    }
}

#[test]
fn a_point_is_0_where_the_range_of_that_key_is_1() {
    assert_point(IMAGE_A_HASHED, b"V", 1, 4);
    assert_point(IMAGE_A_HASHED, b"VGY", 1, 4);
    assert_point(IMAGE_A_HASHED, b"VA", 0, 5);
    for key in [&b"V"[..], b"VGY", b"VA"] {
        assert_possible(IMAGE_A_HASHED, key, 3);
    }
    assert_point(IMAGE_A_HASHED, b"D2", 1, 4);
    assert_point(IMAGE_A_HASHED, b"D2x", 0, 5);
    assert_possible(IMAGE_A_HASHED, b"D2x", 2);
    let van = image(&list_van(), version_2(2, 8).with_hash(8));
    assert_point(&van, b"VAX", 0, 5);
    assert_possible(&van, b"VAX", 3);
}

#[test]
fn records_have_the_whole_slot() {
    for (h, n, suffix) in [
        (0, 8, [0x82, 0x00, 0x00, 0x00]),
        (8, 0, [0x42, 0x00, 0x00, 0x00]),
        (4, 8, [0x22, 0x08, 0x00, 0x00]),
        (16, 1, [0x42, 0xAA, 0x00, 0x00]),
        (16, 2, [0x42, 0xAA, 0x02, 0x00]),
        (16, 16, [0x42, 0xAA, 0x82, 0x72]),
    ] {
        let van = image(&list_van(), version_1(0, n).with_hash(h));
        let mut expected = [0; RECORD_BYTES];
        expected[..3].copy_from_slice(b"\x02\x01V");
        expected[66..].copy_from_slice(&suffix);
        let mut record = [0xFF; RECORD_BYTES];
        assert_eq!(library::walk(&van, 3, &mut record), Answer::Written(70));
        assert_eq!(record, expected, "h {h}, n {n}");
        let accepted = accept(&van).expect("the image is accepted");
        let mut record = [0xFF; RECORD_BYTES];
        assert_eq!(accepted.walk(3, &mut record), Answer::Written(70));
        assert_eq!(record, expected, "h {h}, n {n}");
        assert_eq!(compare::walk(library::walk, &van, 0, 280).length(), 280);
    }
}

#[test]
fn every_other_h_byte_is_refused_with_12() {
    let pairs = (0..8).flat_map(|first| [vec![first, 1], vec![first, 2]]);
    let image = image(&pairs.collect::<Vec<_>>(), version_1(0, 3).with_hash(6));
    for h in (0..=0xFF).filter(|&h| h != 6) {
        assert_refused(&with_byte(&image, 5, h), 12);
    }
    for h in 1..=0xFF {
        assert_refused(&with_byte(IMAGE_A, 5, h), 12);
        assert_refused(&with_byte(IMAGE_A_2, 5, h), 12);
    }
}

#[test]
fn h_of_an_empty_image_is_judged() {
    for version in [version_1, version_2] {
        let empty = image(&[], version(0, 0));
        for h in 1..=0xFF {
            let changed = with_byte(&empty, 5, h);
            match h {
                1..=16 => assert_eq!(check(&changed), 0),
                _ => assert_refused(&changed, 12),
            }
        }
    }
}

#[test]
fn slots_of_another_length_are_refused_with_12() {
    let slots = body_start(IMAGE_A_HASHED, b"SV");
    let long = [&IMAGE_A_HASHED[..slots - 4], b"\x05\0\0\0\x69\x53\0\x5C\0"].concat();
    let long = [&long[..], &IMAGE_A_HASHED[slots + 4..]].concat();
    assert_refused(&long, 12);
    let short = [&IMAGE_A_HASHED[..slots - 4], b"\x03\0\0\0\x69\x53\0"].concat();
    let short = [&short[..], &IMAGE_A_HASHED[slots + 4..]].concat();
    assert_refused(&short, 12);
}

#[test]
fn spare_bits_behind_the_slots_are_refused_with_13() {
    let narrow = image(&list_a(), version_1(0, 0).with_hash(1));
    let slots = body_start(&narrow, b"SV");
    for bit in 4..8 {
        assert_refused(&with_byte(&narrow, slots, 0x03 | 1 << bit), 13);
    }
    let odd = image(&list_van(), version_1(0, 1).with_hash(16));
    let last = body_start(&odd, b"SV") + 8;
    for bit in 4..8 {
        assert_refused(&with_byte(&odd, last, 0x03 | 1 << bit), 13);
    }
}

#[test]
fn each_bit_of_an_exact_leafs_slot_is_refused_with_16() {
    let van = image(&list_van(), version_1(0, 8).with_hash(8));
    let slots = body_start(&van, b"SV");
    for bit in 0..8 {
        assert_refused(&with_byte(&van, slots + 4, 1 << bit), 16);
        assert_refused(&with_byte(&van, slots + 5, 1 << bit), 16);
    }
    let without_real_bits = body_start(IMAGE_A_HASHED, b"SV") + 2;
    for bit in 0..8 {
        let changed = with_byte(IMAGE_A_HASHED, without_real_bits, 1 << bit);
        assert_refused(&changed, 16);
    }
}

#[test]
fn points_follow_other_hash_bits_of_an_open_leaf_and_ranges_do_not() {
    let slots = body_start(IMAGE_A_HASHED, b"SV");
    for byte in (0..=0xFF).filter(|&byte| byte != 0x69) {
        let changed = with_byte(IMAGE_A_HASHED, slots, byte);
        assert_eq!(check(&changed), 0);
        assert_point(&changed, b"V", 0, 5);
        let holds_va = byte == 0xF8;
        let [number, rule] = if holds_va { [1, 4] } else { [0, 5] };
        assert_point(&changed, b"VA", number, rule as u8);
        assert_possible(&changed, b"V", 3);
        assert_possible(&changed, b"VA", 3);
    }
}

/// Gives the image of two keys of so many equal bytes and one more, which differs.
fn image_of_pair(shared: usize, h: u64, n: u64) -> Vec<u8> {
    let key = |last: u8| [vec![b'k'; shared], vec![last]].concat();
    image(&[key(0x10), key(0x20)], version_1(0, n).with_hash(h))
}

#[test]
fn real_bits_past_the_64th_byte_are_refused_with_16_and_hash_bits_are_not() {
    let full = image_of_pair(63, 4, 4);
    let slots = body_start(&full, b"SV");
    for bit in 0..8 {
        let changed = with_byte(&full, slots, full[slots] ^ 1 << bit);
        match bit {
            0..4 => assert_eq!(check(&changed), 0),
            _ => assert_refused(&changed, 16),
        }
    }
    let shorter = image_of_pair(62, 8, 16);
    let slots = body_start(&shorter, b"SV");
    for byte in [0, 1, 3, 4] {
        let at = slots + byte;
        assert_eq!(check(&with_byte(&shorter, at, !shorter[at])), 0);
    }
    for byte in [2, 5] {
        for bit in 0..8 {
            assert_refused(&with_byte(&shorter, slots + byte, 1 << bit), 16);
        }
    }
    let hash_alone = image_of_pair(63, 16, 0);
    let slots = body_start(&hash_alone, b"SV");
    for at in slots..slots + 4 {
        assert_eq!(check(&with_byte(&hash_alone, at, !hash_alone[at])), 0);
    }
}
