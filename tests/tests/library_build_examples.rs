//! Document 01's examples and refusals of build, in version 1, with values written by hand;
//! the reference and the proved library both have to give them.

use range_filter_tests::answer::Answer;
use range_filter_tests::examples::{list_a, list_van, IMAGE_A};
use range_filter_tests::generate::images::built;
use range_filter_tests::generate::keys::owned;
use range_filter_tests::generate::{every_setting, every_setting_of_version_1};
use range_filter_tests::reference::format::{
    frame, DC, DL, DP, RC, RL, RP, RS, SB, SC, SL, SV, TS,
};
use range_filter_tests::reference::keys::{self, MAX_KEYS};
use range_filter_tests::settings::{version_1, Settings};
use range_filter_tests::{compare, library};

/// Gives the answer of a build into an output of some length.
fn build(list: &[u8], settings: Settings, room: usize) -> Answer {
    compare::build(library::build, list, settings, room)
}

/// Gives the answer of a build with dense levels 0 and n 0 into an output that takes every
/// image of these examples.
fn build_plain(list: &[u8]) -> Answer {
    build(list, version_1(0, 0), 1 << 20)
}

/// Gives the image of keys that make a list.
fn image(keys: &[Vec<u8>], settings: Settings) -> Vec<u8> {
    let image = built(keys, settings);
    let answer = build(&keys::write(keys), settings, image.len());
    assert_eq!(answer, Answer::Written(image.len()));
    image
}

/// Gives one body of an image.
fn body(image: &[u8], record: usize) -> &[u8] {
    let frame = frame(image).expect("the image has its frame");
    frame.bodies[record]
}

/// Gives the bytes of a table.
fn table(numbers: &[u32]) -> Vec<u8> {
    numbers.iter().flat_map(|n| n.to_le_bytes()).collect()
}

#[test]
fn list_a_has_its_bytes() {
    assert_eq!(image(&list_a(), version_1(0, 0)), IMAGE_A);
    assert_eq!(IMAGE_A.len(), 110);
}

#[test]
fn list_a_with_a_dense_level_has_its_bodies() {
    let image = image(&list_a(), version_1(1, 0));
    let mut labels = [0; 32];
    labels[8] = 0x10;
    labels[10] = 0x40;
    let mut has_child = [0; 32];
    has_child[8] = 0x10;
    assert_eq!(body(&image, DL), labels);
    assert_eq!(body(&image, DC), has_child);
    assert_eq!(body(&image, SL), [0x31, 0x32, 0xFF, 0x32]);
    assert_eq!(body(&image, SC), [0x01]);
    assert_eq!(body(&image, SB), [0x05]);
    assert_eq!(body(&image, RL), table(&[0, 0, 2, 2]));
    assert_eq!(body(&image, RC), table(&[0, 0, 1, 1]));
}

#[test]
fn van_for_v_has_the_same_image() {
    assert_eq!(image(&list_van(), version_1(0, 0)), IMAGE_A);
}

#[test]
fn suffix_of_van_has_eight_bits() {
    let image = image(&list_van(), version_1(0, 8));
    assert_eq!(body(&image, SV), [0x82, 0x00, 0x00, 0x00]);
}

#[test]
fn empty_list_has_94_bytes_at_every_setting() {
    for settings in every_setting_of_version_1() {
        assert_eq!(build(b"", settings, 94), Answer::Written(94));
        assert_eq!(build(b"", settings, 93), Answer::Refused(7));
    }
}

#[test]
fn key_ff_alone_is_a_real_label() {
    let image = image(&owned(&[b"\xFF"]), version_1(0, 0));
    assert_eq!(body(&image, SL), [0xFF]);
    assert_eq!(body(&image, SC), [0x00]);
}

#[test]
fn ff_and_ff_ff_have_an_extra_ff() {
    let image = image(&owned(&[b"\xFF", b"\xFF\xFF"]), version_1(0, 0));
    assert_eq!(body(&image, SL), [0xFF, 0xFF, 0xFF]);
    assert_eq!(body(&image, SC), [0x01]);
    assert_eq!(body(&image, SB), [0x03]);
}

#[test]
fn document_lists_are_built_at_every_setting() {
    let ff = owned(&[b"\xFF"]);
    let ff_and_ff_ff = owned(&[b"\xFF", b"\xFF\xFF"]);
    for keys in [list_a(), list_van(), ff, ff_and_ff_ff] {
        for settings in every_setting() {
            image(&keys, settings);
        }
    }
}

#[test]
fn sparse_ranks_and_samples_have_a_number_for_each_begun_block() {
    let pairs = (0..=0xFF).flat_map(|first| [vec![first, 1], vec![first, 2]]);
    let image = image(&pairs.collect::<Vec<_>>(), version_1(0, 0));
    assert_eq!(body(&image, SL).len(), 768);
    assert_eq!(body(&image, RS), table(&[0, 256]));
    assert_eq!(body(&image, TS), table(&[0, 382, 510, 638, 766]));
}

#[test]
fn dense_ranks_have_a_number_for_each_begun_block() {
    let pairs = (0..=0xFF).flat_map(|first| [vec![first], vec![first, 1]]);
    let image = image(&pairs.collect::<Vec<_>>(), version_1(2, 0));
    let is_prefix_key = [&[0xFE], &[0xFF; 31][..], &[0x01]].concat();
    assert_eq!(body(&image, DP), is_prefix_key);
    assert_eq!(body(&image, RP), table(&[0, 63, 127, 191, 255]));
    assert_eq!(body(&image, RL).len(), 4 * 4 * 257);
    assert_eq!(body(&image, RL)[..24], table(&[0, 64, 128, 192, 256, 257]));
    assert_eq!(body(&image, RC)[..24], table(&[0, 64, 128, 192, 256, 256]));
    assert_eq!(body(&image, SL), []);
    assert_eq!(body(&image, TS), []);
}

#[test]
fn chains_of_nodes_are_sampled() {
    let key = |first: u8, last: u8| [&[first; 63][..], &[last]].concat();
    let keys = [
        key(b'a', b'a'),
        key(b'a', b'z'),
        key(b'b', b'b'),
        key(b'b', b'z'),
    ];
    let image = image(&keys, version_1(0, 0));
    assert_eq!(body(&image, SL).len(), 2 + 2 * 62 + 4);
    assert_eq!(body(&image, TS), table(&[0, 65]));
}

#[test]
fn output_of_110_bytes_takes_list_a() {
    let list = keys::write(&list_a());
    let settings = version_1(0, 0);
    assert_eq!(build(&list, settings, 110), Answer::Written(110));
    assert_eq!(build(&list, settings, 200), Answer::Written(110));
    assert_eq!(build(&list, settings, 109), Answer::Refused(7));
    assert_eq!(build(&list, settings, 0), Answer::Refused(7));
}

#[test]
fn settings_out_of_range_are_refused_with_5_before_the_list_is_read() {
    let too_many = [5, 17, 255, 256, 65_536, 1 << 32, u64::MAX];
    for setting in too_many {
        let bits = setting.max(17);
        let [real, hash] = [version_1(0, bits), version_1(0, 0).with_hash(bits)];
        for settings in [version_1(setting, 16), real, hash] {
            assert_eq!(build(b"bad", settings, 0), Answer::Refused(5));
            assert_eq!(build(b"KY\x01a", settings, 200), Answer::Refused(5));
        }
    }
    let highest = version_1(4, 16).with_hash(16);
    assert_eq!(build(b"", highest, 94), Answer::Written(94));
}

#[test]
fn broken_records_are_refused_with_1() {
    for list in [
        b"K".as_slice(),
        b"KY",
        b"KX\x01a",
        b"KY\x02a",
        b"KX\x00",
        b"KY\x01aK",
    ] {
        assert_eq!(build_plain(list), Answer::Refused(1), "{list:?}");
    }
}

#[test]
fn key_of_64_bytes_is_taken() {
    let answer = build_plain(&keys::write(&[[7; 64]]));
    assert_eq!(answer, Answer::Written(94 + 1 + 1 + 1 + 4 + 4));
}

#[test]
fn key_lengths_of_0_and_65_are_refused_with_2() {
    assert_eq!(build_plain(&keys::write(&[[7; 65]])), Answer::Refused(2));
    assert_eq!(build_plain(b"KY\x41"), Answer::Refused(2));
    assert_eq!(build_plain(b"KY\x00"), Answer::Refused(2));
}

#[test]
fn keys_not_ascending_are_refused_with_3() {
    assert_eq!(build_plain(b"KY\x01aKY\x01a"), Answer::Refused(3));
    assert_eq!(build_plain(b"KY\x02abKY\x01a"), Answer::Refused(3));
    assert_eq!(build_plain(b"KY\x01aKY\x02\x60z"), Answer::Refused(3));
}

#[test]
fn record_behind_65535_others_is_refused_with_4() {
    let keys: Vec<[u8; 2]> = (1..=0xFFFF_u16).map(u16::to_be_bytes).collect();
    assert_eq!(keys.len(), MAX_KEYS);
    let list = keys::write(&keys);
    assert_eq!(build_plain(&list).number(), 0);
    let one_more = [list.clone(), b"KY\x03\xFF\xFF\x00".to_vec()].concat();
    assert_eq!(build_plain(&one_more), Answer::Refused(4));
    let stray = [list, vec![0]].concat();
    assert_eq!(build_plain(&stray), Answer::Refused(4));
    let mut faulty = stray;
    faulty[0] = b'X';
    assert_eq!(build_plain(&faulty), Answer::Refused(1));
}
