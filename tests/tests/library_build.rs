//! The proved library's build against the reference, on generated lists.

use range_filter_tests::answer::Answer;
use range_filter_tests::generate::keys::{
    any_keys, ascending, keys_with_most_entries, many_keys, owned,
};
use range_filter_tests::generate::level_starts::{body, read};
use range_filter_tests::generate::universe::Universe;
use range_filter_tests::generate::{any_settings, damaged, every_setting};
use range_filter_tests::random::Random;
use range_filter_tests::reference::keys::{self, MAX_KEYS};
use range_filter_tests::settings::{version_1, version_2, Settings};
use range_filter_tests::tally::Tally;
use range_filter_tests::{compare, library};

const LISTS_A_SETTING: usize = 12;
const DAMAGED_LISTS: usize = 20_000;
const TIGHT_LISTS: usize = 400;
const LARGE_KEYS: usize = 20_000;

/// The bytes of an output that takes the image of each list of some kind.
const ROOM: usize = 1 << 17;
const LARGE_ROOM: usize = 1 << 24;

/// Compares a build, and gives the answer.
fn compare(list: &[u8], settings: Settings, room: usize) -> Answer {
    compare::build(library::build, list, settings, room)
}

#[test]
fn random_lists_are_built_at_every_setting() {
    let mut random = Random::new(41);
    for settings in every_setting() {
        for _ in 0..LISTS_A_SETTING {
            let list = keys::write(&any_keys(&mut random));
            assert_eq!(compare(&list, settings, ROOM).number(), 0);
        }
    }
}

#[test]
fn all_lists_of_two_byte_keys_are_built() {
    for list in Universe::of_two_byte_keys().lists {
        let list = keys::write(&list);
        let hashed = version_1(1, 3).with_hash(11);
        for settings in [version_1(0, 0), version_2(1, 9), version_2(2, 1), hashed] {
            assert_eq!(compare(&list, settings, 1 << 11).number(), 0);
        }
    }
}

#[test]
fn outputs_one_byte_short_are_refused_with_7() {
    let mut random = Random::new(42);
    for _ in 0..TIGHT_LISTS {
        let list = keys::write(&any_keys(&mut random));
        let settings = any_settings(&mut random);
        let length = compare(&list, settings, ROOM).length();
        assert_eq!(compare(&list, settings, length), Answer::Written(length));
        assert_eq!(compare(&list, settings, length - 1), Answer::Refused(7));
    }
}

#[test]
fn damaged_lists_are_judged_alike() {
    let tally = Tally::of(43, DAMAGED_LISTS, |random| {
        let list = keys::write(&any_keys(random));
        compare(&damaged(random, &list), version_2(1, 3), ROOM).number()
    });
    assert_eq!(tally.numbers(), [0, 1, 2, 3]);
}

#[test]
fn every_length_of_a_list_is_judged_alike() {
    let list = keys::write(&owned(&[b"D1", b"D12", b"D2", b"V", b"VAN", b"VANS"]));
    for length in 0..=list.len() {
        compare(&list[..length], version_1(0, 0), 200);
        compare(&list[length..], version_2(2, 9), 200);
    }
}

#[test]
fn large_lists_are_built() {
    let mut random = Random::new(44);
    for (settings, length) in [
        (version_2(0, 0), 8),
        (version_1(2, 8).with_hash(9), 8),
        (version_2(4, 16), 13),
        (version_1(1, 5), 3),
        (version_2(0, 16).with_hash(16), 64),
    ] {
        let list = keys::write(&many_keys(&mut random, LARGE_KEYS, length));
        assert_eq!(compare(&list, settings, LARGE_ROOM).number(), 0);
    }
}

#[test]
fn the_longest_list_is_built_and_one_key_more_is_refused_with_4() {
    let keys = many_keys(&mut Random::new(46), MAX_KEYS + 1, 4);
    let most = keys::write(&keys[..MAX_KEYS]);
    assert_eq!(compare(&most, version_1(0, 0), LARGE_ROOM).number(), 0);
    let settings = version_2(1, 9).with_hash(16);
    assert_eq!(compare(&most, settings, LARGE_ROOM).number(), 0);
    let all = keys::write(&keys);
    assert_eq!(compare(&all, settings, LARGE_ROOM), Answer::Refused(4));
}

#[test]
fn pairs_that_differ_in_the_last_of_64_bytes_are_built() {
    let mut random = Random::new(45);
    let stems = (0..LARGE_KEYS / 8).map(|_| random.bytes(63, 63));
    let pair = |stem: Vec<u8>| [0x00, 0xFF].map(|last| [&stem[..], &[last]].concat());
    let list = keys::write(&ascending(stems.flat_map(pair).collect()));
    for settings in [version_2(0, 0), version_1(3, 7).with_hash(5)] {
        assert_eq!(compare(&list, settings, LARGE_ROOM).number(), 0);
    }
}

#[test]
fn the_list_with_the_most_trie_entries_is_built() {
    let list = keys::write(&keys_with_most_entries());
    let settings = version_2(0, 16);
    let length = compare(&list, settings, LARGE_ROOM).length();
    let mut image = vec![0; length];
    library::build(&list, settings, length as u64, &mut image);
    let deeper = (0..62).map(|level| 257 + 32_767 * level);
    let starts: Vec<u32> = [0, 1].into_iter().chain(deeper).collect();
    assert_eq!(read(body(&image)), starts);
}
