//! Examples of version 2, from order 8 of document 02: level starts worked out by hand, and
//! what the check says of wrong ones. The reference and the proved library both have to give
//! them.

use range_filter_tests::answer::Answer;
use range_filter_tests::examples::{list_a, list_van, IMAGE_A, IMAGE_A_2};
use range_filter_tests::generate::images::{body_start, built, in_other_version, with_byte};
use range_filter_tests::generate::keys::owned;
use range_filter_tests::generate::level_starts::{body, read, with_body, with_starts, write};
use range_filter_tests::generate::{every_setting_of_version_1, in_both_versions};
use range_filter_tests::reference::keys;
use range_filter_tests::refused::assert_refused;
use range_filter_tests::settings::{version_2, Settings};
use range_filter_tests::{compare, library};

/// The offset of LV's mark in list A's image.
const AT: usize = 110;

/// Gives the image of keys that make a list, which the library has to build and to accept.
fn image(keys: &[Vec<u8>], settings: Settings) -> Vec<u8> {
    let image = built(keys, settings);
    let list = keys::write(keys);
    let answer = compare::build(library::build, &list, settings, image.len());
    assert_eq!(answer, Answer::Written(image.len()));
    assert_eq!(compare::check(library::check, &image), 0);
    image
}

/// Asserts the level starts of keys at every number of dense levels, and that they make up
/// what the image has more than that of version 1.
fn assert_starts(keys: &[Vec<u8>], starts: &[u32]) {
    for dense_levels in 0..=4 {
        let image = image(keys, version_2(dense_levels, 3));
        assert_eq!(read(body(&image)), starts);
        let length = in_other_version(&image).len();
        assert_eq!(image.len(), length + 6 + 4 * starts.len());
    }
}

/// Gives the images of version 2 with each of some level starts in the place of list A's.
fn images_a<const N: usize>(starts: [&[u32]; N]) -> [Vec<u8>; N] {
    starts.map(|starts| with_body(IMAGE_A_2, &write(starts)))
}

/// Gives a key of 64 bytes: one byte 63 times, and a last one.
fn long_key(byte: u8, last: u8) -> Vec<u8> {
    [&[byte; 63][..], &[last]].concat()
}

#[test]
fn list_a_has_its_bytes() {
    assert_eq!(image(&list_a(), version_2(0, 0)), IMAGE_A_2);
    assert_eq!(IMAGE_A_2.len(), 128);
    assert_eq!(with_byte(&IMAGE_A_2[..AT], 2, 1), IMAGE_A);
    assert_eq!(image(&list_van(), version_2(0, 0)), IMAGE_A_2);
}

#[test]
fn output_of_128_bytes_takes_list_a() {
    let list = keys::write(&list_a());
    for (room, answer) in [
        (127, Answer::Refused(7)),
        (128, Answer::Written(128)),
        (200, Answer::Written(128)),
    ] {
        let found = compare::build(library::build, &list, version_2(0, 0), room);
        assert_eq!(found, answer);
    }
}

#[test]
fn empty_list_has_100_bytes_and_no_level_at_every_setting() {
    for settings in every_setting_of_version_1() {
        let [_, settings] = in_both_versions(settings);
        let empty = image(&[], settings);
        assert_eq!(empty.len(), 100);
        assert_eq!(empty[94..], *b"LV\0\0\0\0");
        let short = compare::build(library::build, b"", settings, 99);
        assert_eq!(short, Answer::Refused(7));
    }
}

#[test]
fn each_level_has_the_number_of_its_first_node() {
    assert_starts(&list_a(), &[0, 1, 2]);
    assert_starts(&owned(&[b"a"]), &[0]);
    assert_starts(&owned(&[&[7; 64]]), &[0]);
    assert_starts(&owned(&[b"a", b"b", b"c"]), &[0]);
    assert_starts(&owned(&[b"\xFF", b"\xFF\xFF"]), &[0, 1]);
    assert_starts(&owned(&[b"a", b"ab", b"abc"]), &[0, 1, 2]);
    assert_starts(&owned(&[b"a1x", b"a1y", b"b", b"c1", b"c2"]), &[0, 1, 3]);
    let keys = [
        b"aa1", b"aa2", b"ab1", b"ab2", b"ba1", b"ba2", b"bb1", b"bb2", b"ca1", b"cb2",
    ];
    assert_starts(&keys.map(|key| key.to_vec()), &[0, 1, 4]);
}

#[test]
fn levels_with_many_nodes_are_counted() {
    let mut keys = Vec::new();
    for first in 0..=0xFF {
        for [second, third] in [[1, 1], [1, 2], [2, 1], [2, 2]] {
            keys.push(vec![first, second, third, b'x']);
            keys.push(vec![first, second, third, b'y']);
        }
    }
    assert_starts(&keys, &[0, 1, 257, 769]);
}

#[test]
fn keys_of_64_bytes_have_64_levels() {
    let one = [long_key(b'a', b'a'), long_key(b'a', b'z')];
    let starts: Vec<u32> = (0..64).collect();
    assert_starts(&one, &starts);
    let two = [&one[..], &[long_key(b'b', b'b'), long_key(b'b', b'z')]].concat();
    let starts: Vec<u32> = [0].into_iter().chain((1..126).step_by(2)).collect();
    assert_eq!(starts.len(), 64);
    assert_starts(&two, &starts);
}

#[test]
fn every_other_byte_in_level_starts_is_refused_with_15() {
    for (at, &right) in IMAGE_A_2.iter().enumerate().skip(AT + 6) {
        for wrong in (0..=0xFF).filter(|&wrong| wrong != right) {
            assert_refused(&with_byte(IMAGE_A_2, at, wrong), 15);
        }
    }
}

#[test]
fn level_starts_in_another_order_are_refused_with_15() {
    let orders: [&[u32]; 5] = [&[0, 2, 1], &[1, 0, 2], &[1, 2, 0], &[2, 0, 1], &[2, 1, 0]];
    for image in images_a(orders) {
        assert_refused(&image, 15);
    }
}

#[test]
fn a_level_more_or_fewer_is_refused_with_15() {
    let fewer: [&[u32]; 7] = [&[], &[0], &[1], &[2], &[0, 1], &[0, 2], &[1, 2]];
    for image in images_a(fewer) {
        assert_refused(&image, 15);
    }
    let more: [&[u32]; 6] = [
        &[0, 1, 2, 3],
        &[0, 1, 2, 2],
        &[0, 1, 2, 0],
        &[0, 0, 1, 2],
        &[0, 1, 1, 2],
        &[0, 1, 2, 3, 3],
    ];
    for image in images_a(more) {
        assert_refused(&image, 15);
    }
}

#[test]
fn level_starts_off_by_a_level_or_a_node_are_refused_with_15() {
    let starts: [&[u32]; 5] = [&[1, 2, 3], &[0, 0, 1], &[0, 1, 3], &[0, 2, 3], &[1, 1, 2]];
    for image in images_a(starts) {
        assert_refused(&image, 15);
    }
}

#[test]
fn every_other_length_of_level_starts_is_refused_with_15() {
    let long = [write(&[0, 1, 2]), vec![0; 100]].concat();
    for length in 0..long.len() {
        let image = with_body(IMAGE_A_2, &long[..length]);
        match length {
            12 => assert_eq!(image, IMAGE_A_2),
            _ => assert_refused(&image, 15),
        }
    }
    for length in [255, 256, 260, 1_024, 65_536, 1 << 20, (1 << 24) + 12] {
        let mut long = long.clone();
        long.resize(length, 0);
        assert_refused(&with_body(IMAGE_A_2, &long), 15);
    }
}

#[test]
fn levels_of_an_empty_image_are_refused_with_15() {
    let empty = image(&[], version_2(2, 8));
    for length in 1..=8 {
        assert_refused(&with_body(&empty, &vec![0; length]), 15);
    }
    assert_refused(&with_body(&empty, &write(&[1])), 15);
}

#[test]
fn lengths_of_level_starts_that_miss_the_end_are_refused_with_11() {
    for (at, byte) in [
        (AT + 2, 0),
        (AT + 2, 8),
        (AT + 2, 11),
        (AT + 2, 13),
        (AT + 2, 16),
        (AT + 3, 1),
        (AT + 4, 1),
        (AT + 5, 1),
        (AT + 5, 0x80),
        (AT + 5, 0xFF),
    ] {
        assert_refused(&with_byte(IMAGE_A_2, at, byte), 11);
    }
}

#[test]
fn broken_records_of_level_starts_are_refused_with_11() {
    for end in AT..IMAGE_A_2.len() {
        assert_refused(&IMAGE_A_2[..end], 11);
    }
    for behind in [&[0][..], &[0; 4], b"LV\0\0\0\0", &IMAGE_A_2[AT..]] {
        assert_refused(&[IMAGE_A_2, behind].concat(), 11);
    }
    assert_refused(&with_byte(IMAGE_A_2, AT, b'l'), 11);
    assert_refused(&with_byte(IMAGE_A_2, AT + 1, b'S'), 11);
    let (before, samples) = IMAGE_A_2[..AT].split_at(AT - 10);
    let exchanged = [before, &IMAGE_A_2[AT..], samples].concat();
    assert_refused(&exchanged, 11);
}

#[test]
fn other_versions_get_12_with_twelve_records_and_11_with_thirteen() {
    let empty = image(&[], version_2(0, 0));
    let empty_1 = in_other_version(&empty);
    for version in [0, 3, 4, 128, 255] {
        assert_refused(&with_byte(IMAGE_A, 2, version), 12);
        assert_refused(&with_byte(&empty_1, 2, version), 12);
        assert_refused(&with_byte(IMAGE_A_2, 2, version), 11);
        assert_refused(&with_byte(&empty, 2, version), 11);
    }
}

#[test]
fn each_version_has_its_own_records() {
    let empty = image(&[], version_2(0, 0));
    assert_refused(&with_byte(IMAGE_A, 2, 2), 11);
    assert_refused(&with_byte(&in_other_version(&empty), 2, 2), 11);
    assert_refused(&with_byte(IMAGE_A_2, 2, 1), 11);
    assert_refused(&with_byte(&empty, 2, 1), 11);
}

#[test]
fn level_64_is_refused_with_14_and_level_63_has_its_start() {
    let deepest = image(
        &[long_key(b'a', b'b'), long_key(b'a', b'c')],
        version_2(0, 0),
    );
    let starts: Vec<u32> = (0..66).collect();
    for levels in [0, 1, 62, 63, 65, 66] {
        let wrong = with_body(&deepest, &write(&starts[..levels]));
        assert_refused(&wrong, 15);
    }
    let too_deep = level_64();
    for levels in [0, 63, 64, 65, 66] {
        assert_refused(&with_starts(&too_deep, &starts[..levels]), 14);
    }
}

/// Gives the bytes of version 1 for a chain of 65 nodes, whose last one has two branches.
fn level_64() -> Vec<u8> {
    let record = |mark: &[u8; 2], body: &[u8]| {
        let length = (body.len() as u32).to_le_bytes();
        [mark, &length[..], body].concat()
    };
    let header =
        b"HD\x01\x00\x00\x00\x02\x00\x00\x00\x00\x00\x00\x00\x42\x00\x00\x00\x41\x00\x00\x00";
    let labels = [&[b'a'; 64][..], b"bc"].concat();
    let mut image = header.to_vec();
    for mark in [b"DL", b"DC", b"DP"] {
        image.extend(record(mark, &[]));
    }
    image.extend(record(b"SL", &labels));
    image.extend(record(b"SC", &[&[0xFF; 8][..], &[0x00]].concat()));
    image.extend(record(b"SB", &[&[0xFF; 8][..], &[0x01]].concat()));
    for mark in [b"SV", b"RL", b"RC", b"RP"] {
        image.extend(record(mark, &[]));
    }
    image.extend(record(b"RS", &write(&[0])));
    image.extend(record(b"TS", &write(&[0, 64])));
    image
}

#[test]
fn level_starts_are_judged_behind_14_and_before_16() {
    let image = image(&list_van(), version_2(0, 8));
    let slot = body_start(&image, b"SV") + 2;
    let has_child = body_start(&image, b"SC");
    let samples = body_start(&image, b"TS");
    let right = write(&[0, 1, 2]);
    let with_16 = with_byte(&image, slot, 1);
    assert_refused(&with_16, 16);
    for wrong in [&write(&[0, 1, 3])[..], &[], &right[..11], &write(&[0; 4])] {
        let with_15 = with_body(&with_16, wrong);
        let with_14 = with_byte(&with_15, has_child, 0x07);
        let with_13 = with_byte(&with_15, has_child, 0x85);
        assert_refused(&with_15, 15);
        assert_refused(&with_byte(&with_15, samples, 1), 15);
        assert_refused(&with_14, 14);
        assert_refused(&with_13, 13);
        for (at, byte) in [(3, 5), (4, 17), (5, 1), (5, 17), (8, 1), (18, 65)] {
            assert_refused(&with_byte(&with_13, at, byte), 12);
        }
        assert_refused(&with_byte(&with_13, 2, 3), 11);
        assert_refused(&[&with_13[..], &[0]].concat(), 11);
    }
}

#[test]
fn tries_that_no_list_has_are_refused_with_14_whatever_the_level_starts() {
    let labels = body_start(IMAGE_A, b"SL");
    let has_child = body_start(IMAGE_A, b"SC");
    let louds = body_start(IMAGE_A, b"SB");
    let tries = [
        with_byte(IMAGE_A, 6, 5),
        with_byte(IMAGE_A, 18, 2),
        with_byte(IMAGE_A, labels + 1, 0x44),
        with_byte(IMAGE_A, has_child, 0x14),
        with_byte(IMAGE_A, louds, 0x14),
        with_byte(IMAGE_A, 3, 1),
    ];
    for trie in tries {
        assert_refused(&trie, 14);
        for starts in [&[0, 1, 2][..], &[0, 1], &[0], &[], &[1, 2, 3], &[0; 64]] {
            assert_refused(&with_starts(&trie, starts), 14);
        }
    }
}
