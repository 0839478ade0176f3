//! The proved library over images whose slots or settings were changed, against the reference
//! and by what order 4 of document 02 says of them: hash bits of open leaves are free, and
//! points follow them; all other bits of slots are as they were without hash bits.

use range_filter_tests::accepted::{AcceptedCalls, Found, Number, FOUND_BYTES};
use range_filter_tests::answer::Answer;
use range_filter_tests::compare::{self, AcceptedCase};
use range_filter_tests::generate::hashed::held_key;
use range_filter_tests::generate::images::{built, with_byte};
use range_filter_tests::generate::keys::{any_keys, growing_keys, long_keys, wide_keys};
use range_filter_tests::generate::questions::question_near;
use range_filter_tests::generate::slots::{
    settings_of, slot_starts, with_flipped_bits, with_zero_slots,
};
use range_filter_tests::generate::{any_settings, every_setting};
use range_filter_tests::library::{self, accept, Accepted};
use range_filter_tests::random::Random;
use range_filter_tests::reference::check::accepted_leaves;
use range_filter_tests::reference::keys::MAX_KEY;
use range_filter_tests::reference::leaves::Leaf;
use range_filter_tests::reference::questions::Question;
use range_filter_tests::reference::walk::RECORD_BYTES;
use range_filter_tests::refused::assert_refused;
use range_filter_tests::settings::{version_1, Settings};
use range_filter_tests::tally::Tally;

const QUESTIONS_AN_IMAGE: usize = 30;
const IMAGES: usize = 60;
const TRIES: usize = 400;

/// Compares a check, and gives the number.
fn check(image: &[u8]) -> u32 {
    compare::check(library::check, image)
}

/// Gives the leaves of an image that is accepted.
fn leaves(image: &[u8]) -> Vec<Leaf> {
    accepted_leaves(image).expect("the image is accepted")
}

/// Gives some settings in range with hash bits.
fn hashed_settings(random: &mut Random) -> Settings {
    any_settings(random).with_hash(1 + random.below(16) as u64)
}

/// Gives what a call says over an accepted image, and the bytes of a seek's buffer.
fn said(image: Accepted, question: &Question) -> (Number, Found) {
    let mut found = [0x5A; FOUND_BYTES];
    (image.ask(question, &mut found), found)
}

/// Gives the positions of some hash bits of open leaves, and the numbers of these leaves.
fn some_hash_bits(random: &mut Random, image: &[u8]) -> (Vec<usize>, Vec<usize>) {
    let (mut positions, mut changed) = (Vec::new(), Vec::new());
    let most = 1 + random.below(4);
    for (number, (leaf, start)) in leaves(image).iter().zip(slot_starts(image)).enumerate() {
        if !leaf.exact && random.once_in(most) {
            positions.push(start + random.below(leaf.hash.len()));
            changed.push(number);
        }
    }
    (positions, changed)
}

/// Compares every kind of question and the walk over an accepted image.
fn compare_calls(random: &mut Random, image: &[u8]) {
    let leaves = leaves(image);
    let accepted = accept(image).expect("the library accepts what the reference does");
    let case = AcceptedCase::new(image, &leaves, accepted);
    for _ in 0..QUESTIONS_AN_IMAGE {
        let question = question_near(random, &leaves);
        case.question(&question).expect("the question is taken");
    }
    let whole = leaves.len() * RECORD_BYTES;
    assert_eq!(case.walk(0, whole), Answer::Written(whole));
    compare::walk(library::walk, image, 0, whole).length();
}

#[test]
fn other_hash_bits_of_open_leaves_are_accepted_and_change_points_alone() {
    let mut random = Random::new(191);
    let mut tally = Tally::default();
    for settings in every_setting().filter(|settings| settings.h > 0) {
        let keys = any_keys(&mut random);
        let image = built(&keys, settings);
        let (positions, changed) = some_hash_bits(&mut random, &image);
        let other = with_flipped_bits(&image, positions);
        assert_eq!(check(&other), 0);
        compare_calls(&mut random, &other);
        let [before, behind] = [&image, &other].map(|image| accept(image).expect("accepted"));
        for (number, key) in keys.iter().enumerate() {
            let rule = behind.rule(key).expect("the key is taken");
            match changed.contains(&number) {
                true => assert_eq!((behind.point(key), rule), (Ok(0), 5)),
                false => assert_eq!(behind.rule(key), before.rule(key)),
            }
            tally.note(rule);
        }
        for _ in 0..QUESTIONS_AN_IMAGE {
            let question = question_near(&mut random, &leaves(&other));
            if !matches!(question, Question::Point(_)) {
                assert_eq!(
                    said(before, &question),
                    said(behind, &question),
                    "{question:?}"
                );
            }
        }
    }
    assert_eq!(tally.numbers(), [3, 4, 5]);
    assert!(tally.times(4).min(tally.times(5)) > 500, "{tally:?}");
}

#[test]
fn points_find_keys_with_the_other_hash_bits() {
    let mut random = Random::new(192);
    let mut found = 0;
    for _ in 0..IMAGES {
        let settings = any_settings(&mut random).with_hash(1 + random.below(7) as u64);
        let image = built(&any_keys(&mut random), settings);
        let (positions, changed) = some_hash_bits(&mut random, &image);
        let other = with_flipped_bits(&image, positions);
        let [before, behind] = [&image, &other].map(|image| accept(image).expect("accepted"));
        for number in changed {
            let leaf = &leaves(&other)[number];
            if let Some(key) = held_key(&mut random, leaf, TRIES) {
                assert_eq!((behind.point(&key), behind.rule(&key)), (Ok(1), Ok(4)));
                assert_eq!((before.point(&key), before.rule(&key)), (Ok(0), Ok(5)));
                found += 1;
            }
        }
    }
    assert!(found > 200, "{found} keys");
}

/// Says whether a bit of a leaf's slot may have either value: a hash bit of an open leaf, or a
/// real bit of one that does not stand past the key's 64th byte.
fn is_free(leaf: &Leaf, bit: usize) -> bool {
    let h = leaf.hash.len();
    !leaf.exact && (bit < h || leaf.cut_key.len() + (bit - h) / 8 < MAX_KEY)
}

/// Turns over each bit of the slots of a list's image, and asserts that the bits that are not
/// free are refused with 16 and no others. Notes how many bits of which kind there are: 1 and 2
/// for hash bits and real bits of exact leaves, 3 for hash bits of open leaves, 4 and 5 for
/// their real bits up to the 64th byte and past it.
fn turn_each_bit(keys: &[Vec<u8>], settings: Settings, tally: &mut Tally) {
    let image = built(keys, settings);
    for (leaf, start) in leaves(&image).iter().zip(slot_starts(&image)) {
        for bit in 0..settings.slot_bits() as usize {
            let other = with_flipped_bits(&image, [start + bit]);
            let free = is_free(leaf, bit);
            match free {
                true => assert_eq!(check(&other), 0),
                false => assert_refused(&other, 16),
            }
            tally.note(match (leaf.exact, bit < settings.h as usize) {
                (true, true) => 1,
                (true, false) => 2,
                (false, true) => 3,
                (false, false) if free => 4,
                _ => 5,
            });
        }
    }
}

#[test]
fn each_bit_of_each_slot_is_judged_by_its_kind() {
    let mut random = Random::new(193);
    let mut tally = Tally::default();
    for _ in 0..IMAGES {
        let settings = hashed_settings(&mut random);
        for kind in [growing_keys, long_keys] {
            turn_each_bit(&kind(&mut random), settings, &mut tally);
        }
    }
    assert_eq!(tally.numbers(), [1, 2, 3, 4, 5]);
    assert!((1..=5).all(|kind| tally.times(kind) > 200), "{tally:?}");
}

#[test]
fn each_spare_bit_behind_the_slots_is_refused_with_13() {
    let mut random = Random::new(194);
    let mut spare = 0;
    for settings in every_setting().filter(|settings| settings.h > 0) {
        let keys = any_keys(&mut random);
        let image = built(&keys, settings);
        let bits = keys.len() * settings.slot_bits() as usize;
        for position in bits..bits.next_multiple_of(8) {
            assert_refused(&with_flipped_bits(&image, [position]), 13);
            spare += 1;
        }
    }
    assert!(spare > 300, "{spare} bits");
}

#[test]
fn every_h_byte_is_judged_alike() {
    let mut random = Random::new(195);
    let mut tally = Tally::default();
    for round in 0..IMAGES {
        let mut keys = [any_keys, wide_keys][round % 2](&mut random);
        keys.truncate([1, 2, 5, 100][round % 4]);
        let settings = any_settings(&mut random);
        let image = built(&keys, settings);
        for h in (0..=0xFF).filter(|&h| u64::from(h) != settings.h) {
            let number = check(&with_byte(&image, 5, h));
            if keys.len() >= 8 || h > 16 {
                assert_eq!(number, 12, "h {h} over {image:?}");
            }
            tally.note(number);
        }
    }
    assert_eq!(tally.numbers(), [0, 12, 13, 16]);
}

#[test]
fn every_h_byte_with_slots_that_fit_is_judged_by_h_alone() {
    let mut random = Random::new(197);
    for _ in 0..IMAGES {
        let image = built(&any_keys(&mut random), any_settings(&mut random));
        for h in 0..=0xFF {
            let other = with_zero_slots(&image, h);
            match h {
                0..=16 => assert_eq!(check(&other), 0, "h {h}"),
                _ => assert_refused(&other, 12),
            }
        }
    }
}

#[test]
fn slots_of_as_many_bits_are_read_by_h_and_n() {
    let mut random = Random::new(196);
    let mut tally = Tally::default();
    for _ in 0..IMAGES {
        let image = built(&any_keys(&mut random), any_settings(&mut random));
        let slot_bits = settings_of(&image).slot_bits();
        for h in slot_bits.saturating_sub(16)..=slot_bits.min(16) {
            let mut other = image.clone();
            [other[4], other[5]] = [slot_bits - h, h].map(|bits| bits as u8);
            let number = check(&other);
            if number == 0 {
                compare_calls(&mut random, &other);
            }
            tally.note(number);
        }
    }
    assert_eq!(tally.numbers(), [0, 16]);
}

#[test]
fn images_built_by_no_list_are_accepted() {
    let keys = [1, 2].map(|last| [vec![b'k'; MAX_KEY - 1], vec![last]].concat());
    let image = built(&keys, version_1(0, 0).with_hash(16));
    let cut_keys: Vec<Vec<u8>> = leaves(&image)
        .into_iter()
        .map(|leaf| leaf.cut_key)
        .collect();
    assert_eq!(cut_keys, keys);
    let other = with_flipped_bits(&image, 0..32);
    assert_eq!(check(&other), 0);
    let accepted = accept(&other).expect("the image is accepted");
    for key in &keys {
        assert_eq!((accepted.point(key), accepted.rule(key)), (Ok(0), Ok(5)));
        assert_eq!(accepted.range(key, key), Ok(1));
    }
    assert_eq!(accepted.count(b"", &[0xFF; MAX_KEY]), Ok(2));
}
