//! The proved library's version 2 against the reference: level starts that are wrong in every
//! way, alone and beside other faults, each version byte, and tries of every number of levels.

use range_filter_tests::answer::Answer;
use range_filter_tests::generate::images::{any_image, built, Change, CHANGES};
use range_filter_tests::generate::keys::{any_keys, ascending, no_keys};
use range_filter_tests::generate::level_starts::{
    body, changed, read, with_body, wrong_bodies, wrong_frames,
};
use range_filter_tests::generate::questions::questions_near;
use range_filter_tests::generate::{any_settings, in_both_versions, settings_of_version_1};
use range_filter_tests::random::Random;
use range_filter_tests::reference::format::{frame, Header, MAX_DENSE_LEVELS};
use range_filter_tests::reference::keys::{self, MAX_KEY};
use range_filter_tests::reference::questions::write;
use range_filter_tests::reference::replies::REPLY_HEAD;
use range_filter_tests::reference::walk::RECORD_BYTES;
use range_filter_tests::settings::Settings;
use range_filter_tests::tally::Tally;
use range_filter_tests::{compare, library};

const CHANGES_A_KIND: usize = 8_000;
const VERSIONED_IMAGES: usize = 40;
const QUESTIONS_AN_IMAGE: usize = 60;
const ROOM: usize = 1 << 14;

/// Compares a check, and gives the number.
fn check(image: &[u8]) -> u32 {
    compare::check(library::check, image)
}

/// Compares the numbers of ask and walk over an image that the check refuses.
fn assert_refused_by_all(image: &[u8], number: u32) {
    let asked = compare::ask(library::ask, image, b"", 0);
    let walked = compare::walk(library::walk, image, 0, RECORD_BYTES);
    assert_eq!([asked, walked], [Answer::Refused(number); 2]);
}

/// Gives the header of an image.
fn header(image: &[u8]) -> Header {
    frame(image).expect("the image has its frame").header
}

/// Gives settings in version 2.
fn in_version_2(settings: Settings) -> Settings {
    let [_, two] = in_both_versions(settings);
    two
}

/// Gives an image of version 2 for each number of dense levels and each n, from random keys or
/// from none.
fn images_of_every_setting(seed: u64) -> impl Iterator<Item = Vec<u8>> {
    let mut random = Random::new(seed);
    settings_of_version_1().map(move |settings| {
        let keys = random.pick(&[any_keys, any_keys, any_keys, no_keys])(&mut random);
        built(&keys, in_version_2(settings))
    })
}

#[test]
fn wrong_level_starts_are_refused_with_15() {
    let mut bodies = 0;
    for image in images_of_every_setting(131) {
        assert_eq!(check(&image), 0);
        let header = header(&image);
        let nodes = header.dense_nodes + header.sparse_nodes;
        for (number, wrong) in wrong_bodies(&read(body(&image)), nodes).iter().enumerate() {
            let wrong = with_body(&image, wrong);
            assert_eq!(check(&wrong), 15, "{wrong:?}");
            if number % 16 == 0 {
                assert_refused_by_all(&wrong, 15);
            }
        }
        bodies += 1;
    }
    assert_eq!(bodies, 85);
}

#[test]
fn wrong_frames_of_level_starts_are_refused_with_11() {
    for image in images_of_every_setting(132) {
        for (number, wrong) in wrong_frames(&image).iter().enumerate() {
            assert_eq!(check(wrong), 11, "{wrong:?}");
            if number % 16 == 0 {
                assert_refused_by_all(wrong, 11);
            }
        }
    }
}

/// Gives the number of an image with another version byte: it is judged for 11 with the
/// records of that version, and there are two versions.
fn number_by_version(version: u64, byte: u8) -> u32 {
    match (version, byte) {
        (1, 1) | (2, 2) => 0,
        (1, 2) | (2, _) => 11,
        _ => 12,
    }
}

#[test]
fn every_version_byte_is_judged_by_its_records() {
    let mut random = Random::new(133);
    let mut tally = Tally::default();
    for _ in 0..VERSIONED_IMAGES {
        let mut image = any_image(&mut random);
        let version = header(&image).settings.version;
        for byte in 0..=0xFF {
            image[2] = byte;
            let number = check(&image);
            assert_eq!(number, number_by_version(version, byte));
            tally.note(number);
        }
    }
    assert_eq!(tally.numbers(), [0, 11, 12]);
}

/// Changes an image of version 2 in a way, and then its level starts. Gives the number before
/// and behind that, if the changed image has a frame of version 2, its tables and level starts
/// were right so far, and now the level starts are others.
fn numbers_of_two_faults(random: &mut Random, change: &Change) -> Option<[u32; 2]> {
    let settings = in_version_2(any_settings(random));
    let image = built(&any_keys(random), settings);
    let image = (change.apply)(random, &image);
    let before = check(&image);
    if matches!(before, 11 | 15) || header(&image).settings.version != 2 {
        return None;
    }
    let starts = changed(random, body(&image));
    let behind = (starts != body(&image)).then(|| check(&with_body(&image, &starts)));
    behind.map(|behind| [before, behind])
}

#[test]
fn wrong_level_starts_are_judged_behind_14_and_before_16() {
    let mut random = Random::new(134);
    let mut tally = Tally::default();
    for change in &CHANGES {
        for _ in 0..CHANGES_A_KIND {
            if let Some([before, behind]) = numbers_of_two_faults(&mut random, change) {
                let comes_first = matches!(before, 12..=14);
                assert_eq!(behind, if comes_first { before } else { 15 });
                tally.note(before);
            }
        }
    }
    assert_eq!(tally.numbers(), [0, 12, 13, 14, 16]);
}

/// Gives keys whose trie has so many levels: a stem, prefixes of it, and for each level a key
/// that parts from the stem there.
fn keys_of_levels(random: &mut Random, levels: usize) -> Vec<Vec<u8>> {
    let stem = random.string(b"\x00l\xFF", levels, levels);
    let mut keys = vec![stem.clone()];
    for level in 0..levels {
        let mut key = stem[..=level].to_vec();
        if random.once_in(4) {
            keys.push(key.clone());
        }
        key[level] ^= 1 << random.below(8);
        key.extend(random.bytes(0, (MAX_KEY - key.len()).min(3)));
        keys.push(key);
    }
    ascending(keys)
}

/// Compares the build of a list, and the image's check, replies and walk.
fn compare_all(random: &mut Random, keys: &[Vec<u8>], settings: Settings) -> Vec<u8> {
    let list = keys::write(keys);
    assert_eq!(
        compare::build(library::build, &list, settings, ROOM).number(),
        0
    );
    let image = built(keys, settings);
    assert_eq!(check(&image), 0);
    let asked = questions_near(random, &image, QUESTIONS_AN_IMAGE);
    let room = asked.len() * (REPLY_HEAD + MAX_KEY);
    compare::ask(library::ask, &image, &write(&asked), room).length();
    compare::walk(library::walk, &image, 0, keys.len() * RECORD_BYTES).length();
    image
}

#[test]
fn tries_of_every_number_of_levels_are_built_and_asked_alike() {
    let mut random = Random::new(135);
    for levels in 1..=MAX_KEY {
        for dense_levels in 0..=MAX_DENSE_LEVELS {
            let keys = keys_of_levels(&mut random, levels);
            let settings = Settings {
                dense_levels,
                ..any_settings(&mut random)
            };
            let [one, two] = in_both_versions(settings)
                .map(|settings| compare_all(&mut random, &keys, settings));
            assert_eq!(two.len(), one.len() + 6 + 4 * levels);
            assert_eq!(read(body(&two)).len(), levels);
        }
    }
}
