//! The examples of document 01, and those of orders 2, 3 and 8 of document 02. Those of order 4
//! stand in `hash_bits.rs`.

use crate::shared::{
    body, image, image_a_version_2, image_with, settings, versions, A, IMAGE_A, NO_KEYS, VAN,
};
use range_filter::{build, Filter, Rule, Settings};

/// Gives an image of a list in each version and at each number of dense levels: the answers are
/// the same.
fn images<K: AsRef<[u8]>>(keys: &[K], real_bits: u8) -> Vec<Vec<u8>> {
    let dense_levels = 0..=4;
    dense_levels
        .flat_map(|levels| versions(settings(levels, real_bits)))
        .map(|settings| image_with(keys, settings))
        .collect()
}

/// Gives what a seek finds, as a place and a key.
fn sought(filter: &Filter, start: &str) -> Option<(usize, Vec<u8>)> {
    let found = filter.seek(start).expect("the start is short enough");
    found.map(|found| (found.place, found.key.to_vec()))
}

/// Asserts the number and the rule of points.
fn assert_points<K: AsRef<[u8]>>(filter: &Filter, points: &[(K, bool, Rule)]) {
    for (key, number, rule) in points {
        assert_eq!(filter.may_contain(key), Ok(*number));
        assert_eq!(filter.rule(key), Ok(*rule));
    }
}

#[test]
fn list_a_builds_its_110_bytes() {
    assert_eq!(image(&A, 0, 0), IMAGE_A);
}

#[test]
fn list_a_builds_its_128_bytes_in_version_2() {
    let image = image_with(&A, settings(0, 0).with_version(2));
    assert_eq!(image, image_a_version_2());
    assert_eq!(image.len(), 128);
}

/// Asserts that a list's images differ in the version byte and in LV alone, at some settings.
fn assert_level_starts_added<K: AsRef<[u8]>>(keys: &[K], levels: u32, settings: Settings) {
    let [first, second] = versions(settings).map(|settings| image_with(keys, settings));
    let (same, added) = second.split_at(first.len());
    assert_eq!([&same[..2], &same[3..]], [&first[..2], &first[3..]]);
    assert_eq!([first[2], same[2]], [1, 2]);
    assert_eq!(added.len(), 6 + 4 * levels as usize);
    assert_eq!(added[..2], *b"LV");
    assert_eq!(added[2..6], (4 * levels).to_le_bytes());
}

#[test]
fn version_2_has_an_entry_more_for_each_level() {
    let longest = [b'k'; 64];
    for (dense_levels, real_bits) in [(0, 0), (1, 8), (4, 16)] {
        let settings = settings(dense_levels, real_bits);
        assert_level_starts_added(&NO_KEYS, 0, settings);
        assert_level_starts_added(&["V"], 1, settings);
        assert_level_starts_added(&A, 3, settings);
        assert_level_starts_added(&[&longest[..63], &longest], 64, settings);
    }
}

#[test]
fn list_a_with_a_dense_level() {
    let image = image(&A, 1, 0);
    let mut labels = [0; 32];
    labels[8] = 0x10;
    labels[10] = 0x40;
    let mut children = [0; 32];
    children[8] = 0x10;
    assert_eq!(image.len(), 209);
    assert_eq!(body(&image, b"DL"), labels);
    assert_eq!(body(&image, b"DC"), children);
    assert_eq!(body(&image, b"DP"), [0]);
    assert_eq!(body(&image, b"SL"), *b"\x31\x32\xFF\x32");
    assert_eq!(body(&image, b"SC"), [0x01]);
    assert_eq!(body(&image, b"SB"), [0x05]);
    assert_eq!(
        body(&image, b"RL"),
        *b"\0\0\0\0\0\0\0\0\x02\0\0\0\x02\0\0\0"
    );
    assert_eq!(
        body(&image, b"RC"),
        *b"\0\0\0\0\0\0\0\0\x01\0\0\0\x01\0\0\0"
    );
}

#[test]
fn the_empty_list_has_94_bytes_and_100_in_version_2() {
    assert_eq!(image(&NO_KEYS, 0, 0).len(), 94);
    let second = image_with(&NO_KEYS, settings(0, 0).with_version(2));
    assert_eq!(second.len(), 100);
    assert_eq!(second[94..], *b"LV\0\0\0\0");
}

#[test]
fn the_empty_list_has_no_key() {
    for image in images(&NO_KEYS, 0) {
        let filter = Filter::open(&image).expect("the image is accepted");
        assert!(filter.is_empty());
        assert_points(
            &filter,
            &[("", false, Rule::NoNodes), ("D1", false, Rule::NoNodes)],
        );
        assert_eq!(filter.may_contain_range("", [0xFF; 64]), Ok(false));
        assert_eq!(filter.starts_with(""), Ok(false));
        assert_eq!(filter.count("", [0xFF; 64]), Ok(0));
        assert_eq!(filter.seek(""), Ok(None));
        assert_eq!(filter.leaf(0), Ok(None));
        assert_eq!(filter.leaves().count(), 0);
    }
}

#[test]
fn ff_alone_is_a_label() {
    let image = image(&[b"\xFF"], 0, 0);
    assert_eq!(image.len(), 105);
    assert_eq!(body(&image, b"SL"), [0xFF]);
    let filter = Filter::open(&image).expect("the image is accepted");
    assert_points(&filter, &[(b"\xFF", true, Rule::SuffixEqual)]);
}

#[test]
fn ff_and_ff_ff_have_an_extra_ff() {
    let image = image(&[&b"\xFF"[..], b"\xFF\xFF"], 0, 0);
    assert_eq!(image.len(), 107);
    assert_eq!(body(&image, b"SL"), [0xFF; 3]);
    assert_eq!(body(&image, b"SC"), [0x01]);
    assert_eq!(body(&image, b"SB"), [0x03]);
    let filter = Filter::open(&image).expect("the image is accepted");
    assert_points(
        &filter,
        &[
            (&b"\xFF"[..], true, Rule::ExactLeaf),
            (b"\xFF\xFF", true, Rule::SuffixEqual),
            (b"\xFF\xFE", false, Rule::BranchMissing),
        ],
    );
}

#[test]
fn points_of_list_a() {
    for image in images(&A, 0) {
        let filter = Filter::open(&image).expect("the image is accepted");
        assert_points(
            &filter,
            &[
                (&b"D1"[..], true, Rule::ExactLeaf),
                (b"D10", false, Rule::BranchMissing),
                (b"D", false, Rule::KeyEnded),
                (b"D2x", true, Rule::SuffixEqual),
                (b"", false, Rule::KeyEnded),
                (b"D1\xFF", false, Rule::BranchMissing),
            ],
        );
    }
}

#[test]
fn ranges_and_counts_of_list_a() {
    for image in images(&A, 0) {
        let filter = Filter::open(&image).expect("the image is accepted");
        assert_eq!(filter.count("D12Z", "D2"), Ok(2));
        assert_eq!(filter.count("D11", "D13"), Ok(1));
        assert_eq!(filter.count("", "W"), Ok(4));
        assert_eq!(filter.count("D2", "D2"), Ok(1));
        assert_eq!(filter.may_contain_range("D12Z", "D2"), Ok(true));
        assert_eq!(filter.may_contain_range("D11", "D13"), Ok(true));
        assert_eq!(filter.may_contain_range("D10", "D11"), Ok(false));
        assert_eq!(filter.may_contain_range("E", "U"), Ok(false));
    }
}

#[test]
fn stems_of_list_a() {
    for image in images(&A, 0) {
        let filter = Filter::open(&image).expect("the image is accepted");
        let starts = |stem| filter.starts_with(stem).expect("the stem is short enough");
        assert!(["", "D", "D1", "D12", "D12Z", "V", "VAN"]
            .into_iter()
            .all(starts));
        assert!(!["D10", "D3", "E", "W"].into_iter().any(starts));
    }
}

#[test]
fn seeks_of_list_a() {
    for image in images(&A, 0) {
        let filter = Filter::open(&image).expect("the image is accepted");
        assert_eq!(sought(&filter, ""), Some((0, b"D1".to_vec())));
        assert_eq!(sought(&filter, "D13"), Some((2, b"D2".to_vec())));
        assert_eq!(sought(&filter, "D2a"), Some((2, b"D2a".to_vec())));
        assert_eq!(sought(&filter, "W"), None);
    }
}

#[test]
fn van_for_v_has_the_same_image() {
    for (a, van) in images(&A, 0).iter().zip(images(&VAN, 0)) {
        assert_eq!(*a, van);
        let filter = Filter::open(&van).expect("the image is accepted");
        assert_eq!(filter.count("D2a", "V"), Ok(2));
    }
}

#[test]
fn van_with_eight_real_bits() {
    assert_eq!(image(&VAN, 0, 8).len(), 114);
    assert_eq!(body(&image(&VAN, 0, 8), b"SV"), *b"\x82\0\0\0");
    for image in images(&VAN, 8) {
        let filter = Filter::open(&image).expect("the image is accepted");
        assert_points(
            &filter,
            &[
                ("VAX", true, Rule::SuffixEqual),
                ("VB", false, Rule::SuffixOther),
            ],
        );
        assert_eq!(sought(&filter, "VB"), None);
        assert_eq!(sought(&filter, "V"), Some((3, b"VA".to_vec())));
    }
}

#[test]
fn any_bytes_follow_a_stem() {
    for image in images(&[b"S017\xFF\x01", b"S017\xFF\x02"], 0) {
        let filter = Filter::open(&image).expect("the image is accepted");
        assert_eq!(filter.starts_with("S017"), Ok(true));
        assert_eq!(filter.starts_with("S018"), Ok(false));
    }
}

#[test]
fn stems_of_the_highest_keys() {
    let mut highest = [[0xFF; 64]; 2];
    highest[0][63] = 0xFE;
    for image in images(&highest, 0) {
        let filter = Filter::open(&image).expect("the image is accepted");
        assert_eq!(filter.starts_with(""), Ok(true));
        assert_eq!(filter.starts_with([0xFF; 63]), Ok(true));
        assert_eq!(filter.starts_with([0xFE]), Ok(false));
    }
}

#[test]
fn settings_and_length_are_read_from_the_header() {
    let all = [
        settings(0, 0),
        settings(1, 8).with_version(2),
        settings(4, 16),
        settings(0, 0).with_version(2),
        settings(2, 5).with_hash_bits(3),
        settings(4, 16).with_version(2).with_hash_bits(16),
    ];
    for settings in all {
        let image = image_with(&A, settings);
        let filter = Filter::open(&image).expect("the image is accepted");
        assert_eq!(filter.settings(), settings);
        assert_eq!(image[2], filter.settings().version());
        assert_eq!(image[3], filter.settings().dense_levels());
        assert_eq!(image[4], filter.settings().real_bits());
        assert_eq!(image[5], filter.settings().hash_bits());
        assert_eq!(filter.len(), 4);
        assert_eq!(filter.image(), image);
    }
}

#[test]
fn an_image_has_up_to_65_535_keys() {
    let keys = (0..65_535u32).map(u32::to_be_bytes);
    let image = build(keys, settings(0, 0)).expect("so many keys are taken");
    let filter = Filter::open(&image).expect("the image is accepted");
    assert_eq!(filter.len(), 65_535);
    assert_eq!(filter.may_contain(65_534u32.to_be_bytes()), Ok(true));
    assert_eq!(filter.may_contain(65_535u32.to_be_bytes()), Ok(false));
}
