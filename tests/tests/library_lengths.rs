//! Building in two calls, of the proved library against the reference: the length first,
//! then the image, with lengths that are stated right and wrong, into outputs shorter and
//! longer than they say.

use range_filter_tests::answer::Answer;
use range_filter_tests::compare::Case;
use range_filter_tests::examples::list_a;
use range_filter_tests::generate::keys::{any_keys, keys_with_most_entries, many_keys};
use range_filter_tests::generate::{any_settings, damaged, every_setting, in_both_versions};
use range_filter_tests::library;
use range_filter_tests::random::Random;
use range_filter_tests::reference::keys;
use range_filter_tests::settings::{version_1, version_2, Settings};
use range_filter_tests::tally::Tally;

const LISTS_A_SETTING: usize = 4;
const DAMAGED_LISTS: usize = 10_000;
const LARGE_KEYS: usize = 20_000;

/// Versions that there are none of. Those that are no byte are put into the settings' number
/// as 255.
const OTHER_VERSIONS: [u64; 8] = [0, 3, 4, 16, 254, 255, 256 + 1, u64::MAX];

/// Lengths that no image has, whatever the list: the least has 94 bytes.
const NO_LENGTHS: [u64; 5] = [0, 93, 1 << 32, 1 << 63, u64::MAX];

/// Compares a build with a stated length, and gives the answer.
fn build(case: &Case, stated: u64, room: usize) -> Answer {
    case.build(library::build, stated, room)
}

/// Asserts what both calls give for an accepted list: the length; with it the image, where
/// the output holds it, else 7; and 8 with any other length, whatever the output.
fn assert_built(list: &[u8], settings: Settings) {
    let case = Case::new(list, settings);
    let length = case.length(library::image_length).expect("no refusal");
    let right = length as u64;
    for room in [length, length + 1, 2 * length] {
        assert_eq!(build(&case, right, room), Answer::Written(length));
    }
    for room in [0, length - 1] {
        assert_eq!(build(&case, right, room), Answer::Refused(7));
    }
    let near = [right - 1, right + 1, (1 << 32) + right];
    for wrong in near.into_iter().chain(NO_LENGTHS) {
        for room in [0, length - 1, length, length + 1] {
            assert_eq!(build(&case, wrong, room), Answer::Refused(8));
        }
    }
}

/// Asserts that both calls refuse a list or a setting with one number, whatever the stated
/// length and the output, and gives the number; 0 where they are accepted.
fn refusal(list: &[u8], settings: Settings) -> u32 {
    let case = Case::new(list, settings);
    let Err(number) = case.length(library::image_length) else {
        return 0;
    };
    for stated in NO_LENGTHS.into_iter().chain([94, 110]) {
        for room in [0, 94, 300] {
            assert_eq!(build(&case, stated, room), Answer::Refused(number));
        }
    }
    number
}

#[test]
fn list_a_has_110_bytes() {
    let list = keys::write(&list_a());
    let case = Case::new(&list, version_1(0, 0));
    assert_eq!(case.length(library::image_length), Ok(110));
    assert_eq!(build(&case, 110, 110), Answer::Written(110));
    assert_eq!(build(&case, 109, 109), Answer::Refused(8));
    assert_eq!(build(&case, 111, 111), Answer::Refused(8));
    assert_eq!(build(&case, 110, 109), Answer::Refused(7));
    assert_built(&list, version_1(0, 0));
}

#[test]
fn the_empty_list_has_94_or_100_bytes_at_every_setting() {
    for settings in every_setting() {
        let length = if settings.version == 1 { 94 } else { 100 };
        let case = Case::new(b"", settings);
        assert_eq!(case.length(library::image_length), Ok(length));
        assert_built(b"", settings);
    }
}

#[test]
fn random_lists_are_measured_and_built_at_every_setting() {
    let mut random = Random::new(51);
    for settings in every_setting() {
        for _ in 0..LISTS_A_SETTING {
            assert_built(&keys::write(&any_keys(&mut random)), settings);
        }
    }
}

#[test]
fn damaged_lists_get_one_number_from_both_calls() {
    let tally = Tally::of(52, DAMAGED_LISTS, |random| {
        let list = keys::write(&any_keys(random));
        let list = damaged(random, &list);
        refusal(&list, any_settings(random))
    });
    assert_eq!(tally.numbers(), [0, 1, 2, 3]);
}

#[test]
fn settings_out_of_range_get_5_from_both_calls() {
    let list = keys::write(&list_a());
    for (dense_levels, n, h) in [
        (5, 0, 0),
        (0, 17, 0),
        (0, 0, 17),
        (1 << 32, 0, 0),
        (0, u64::MAX, 0),
        (0, 0, 1 << 32),
    ] {
        for settings in in_both_versions(version_1(dense_levels, n).with_hash(h)) {
            assert_eq!(refusal(&list, settings), 5);
            assert_eq!(refusal(b"bad", settings), 5);
        }
    }
}

#[test]
fn versions_out_of_range_get_5_from_both_calls() {
    let lists = [
        &keys::write(&list_a())[..],
        b"",
        b"bad",
        b"KY\x00",
        b"KY\x01bKY\x01a",
    ];
    for version in OTHER_VERSIONS {
        for (dense_levels, n) in [(0, 0), (4, 16), (5, 0), (0, 17), (version, version)] {
            let settings = Settings {
                version,
                ..version_1(dense_levels, n)
            };
            for list in lists {
                assert_eq!(refusal(list, settings), 5);
            }
        }
    }
}

#[test]
fn one_key_too_many_gets_4_from_both_calls() {
    let keys: Vec<[u8; 2]> = (0..=0xFFFF_u16).map(u16::to_be_bytes).collect();
    for settings in [version_1(2, 8), version_2(2, 8)] {
        assert_eq!(refusal(&keys::write(&keys), settings), 4);
    }
}

#[test]
fn large_lists_are_measured_and_built() {
    let mut random = Random::new(53);
    for (settings, length) in [
        (version_2(0, 0), 8),
        (version_1(2, 8).with_hash(11), 8),
        (version_2(4, 16), 13),
        (version_2(0, 16).with_hash(16), 64),
    ] {
        let keys = many_keys(&mut random, LARGE_KEYS, length);
        assert_built(&keys::write(&keys), settings);
    }
}

#[test]
fn the_list_with_the_most_trie_entries_is_measured_and_built() {
    let settings = version_1(0, 16).with_hash(16);
    assert_built(&keys::write(&keys_with_most_entries()), settings);
}
