//! The settings' number that the proved library's two calls of build take, against the
//! reference: header bytes 2 to 5 as one number, the low byte first. Every number has a
//! meaning, and settings out of range are refused with 5.

use range_filter_tests::answer::Answer;
use range_filter_tests::compare::Case;
use range_filter_tests::examples::list_a;
use range_filter_tests::generate::keys::any_keys;
use range_filter_tests::generate::{any_settings, every_setting};
use range_filter_tests::library::{build_by_number, image_length_by_number};
use range_filter_tests::random::Random;
use range_filter_tests::reference::keys;
use range_filter_tests::settings::{version_1, version_2, Settings};
use range_filter_tests::tally::Tally;

const RANDOM_NUMBERS: usize = 3_000;

/// The highest value of each part that is in range, from the lowest byte on.
const HIGHEST: [u64; 4] = [2, 4, 16, 16];

/// Lists that are refused with another number, where the settings are in range.
const FAULTY_LISTS: [&[u8]; 3] = [b"bad", b"KY\x00", b"KY\x01bKY\x01a"];

/// Compares both calls with settings given by a number, and gives the number of the refusal, 0
/// for none.
fn compare(list: &[u8], number: u64) -> u32 {
    let case = Case::new(list, Settings::of_number(number));
    let length = case.length(|list, _| image_length_by_number(list, number));
    let build = |list: &[u8], _, stated, out: &mut [u8]| build_by_number(list, number, stated, out);
    let room = length.unwrap_or(300);
    let answer = case.build(build, room as u64, room);
    assert_eq!(answer.number(), length.err().unwrap_or(0));
    answer.number()
}

/// Asserts that settings are refused with 5, whatever the list.
fn assert_refused(number: u64) {
    assert_eq!(compare(&keys::write(&list_a()), number), 5, "{number}");
    for list in FAULTY_LISTS {
        assert_eq!(compare(list, number), 5, "{number}");
    }
}

#[test]
fn every_number_in_range_is_taken_and_stands_in_the_header() {
    let list = keys::write(&list_a());
    for settings in every_setting() {
        let number = settings.number();
        assert_eq!(compare(&list, number), 0);
        let mut image = [0; 1 << 10];
        let length = image_length_by_number(&list, number).expect("no refusal");
        let answer = build_by_number(&list, number, length as u64, &mut image);
        assert_eq!(answer, Answer::Written(length));
        assert_eq!(image[2..6], (number as u32).to_le_bytes());
    }
}

#[test]
fn every_value_of_each_part_is_judged() {
    let list = keys::write(&list_a());
    let rests = [
        version_1(0, 0),
        version_2(4, 16).with_hash(16),
        version_1(2, 7).with_hash(9),
    ];
    for rest in rests.map(Settings::number) {
        for (part, highest) in HIGHEST.into_iter().enumerate() {
            let lowest = u64::from(part == 0);
            for value in 0..=0xFF {
                let number = rest & !(0xFF << (8 * part)) | value << (8 * part);
                match (lowest..=highest).contains(&value) {
                    true => assert_eq!(compare(&list, number), 0, "{number}"),
                    false => assert_refused(number),
                }
            }
        }
    }
}

#[test]
fn numbers_from_2_to_the_32_on_are_refused_with_5() {
    for settings in [
        version_1(0, 0),
        version_2(4, 16).with_hash(16),
        version_1(1, 3),
    ] {
        for power in 32..64 {
            assert_refused(settings.number() + (1 << power));
            assert_refused((1 << power) - 1);
            assert_refused(1 << power);
        }
        for high in [2, 3, 16, 17, 255, 256, 1 << 16, u64::from(u32::MAX)] {
            assert_refused(settings.number() + (high << 32));
        }
    }
    assert_refused(u64::MAX);
}

#[test]
fn a_part_out_of_range_does_not_reach_into_its_neighbour() {
    for part in [255, 256, 257, 1 << 16, (1 << 32) + 1, u64::MAX] {
        let settings = [
            Settings {
                version: part,
                ..version_1(0, 0)
            },
            version_1(part, 0),
            version_1(0, part),
            version_1(0, 0).with_hash(part),
        ];
        for settings in settings {
            assert_refused(settings.number());
        }
    }
}

#[test]
fn random_numbers_are_judged_alike() {
    let tally = Tally::of(181, RANDOM_NUMBERS, |random| {
        let list = keys::write(&any_keys(random));
        let number = match random.below(3) {
            0 => any_settings(random).number(),
            1 => any_settings(random).number() ^ 1 << random.below(64),
            _ => random.number() >> random.below(64),
        };
        compare(&list, number)
    });
    assert_eq!(tally.numbers(), [0, 5]);
    assert!(
        tally.times(0).min(tally.times(5)) > RANDOM_NUMBERS / 4,
        "{tally:?}"
    );
}

#[test]
fn faulty_lists_are_judged_behind_the_settings() {
    let mut random = Random::new(182);
    for (list, refusal) in FAULTY_LISTS.into_iter().zip([1, 2, 3]) {
        for _ in 0..100 {
            let number = any_settings(&mut random).number();
            assert_eq!(compare(list, number), refusal);
            assert_eq!(compare(list, number + (17 << 24)), 5);
        }
    }
}
