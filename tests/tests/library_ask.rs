//! The proved library's ask against the reference, on generated images and question files.

use range_filter_tests::answer::Answer;
use range_filter_tests::examples::IMAGE_A;
use range_filter_tests::generate::images::{any_image, built, large_images};
use range_filter_tests::generate::keys::{any_keys, ff_keys, keys_by_node_size};
use range_filter_tests::generate::neighbours::{keys_around, questions_about, stems_about};
use range_filter_tests::generate::questions::{key_near, questions_near};
use range_filter_tests::generate::universe::Universe;
use range_filter_tests::generate::{damaged, every_setting};
use range_filter_tests::random::Random;
use range_filter_tests::reference::check::accepted_leaves;
use range_filter_tests::reference::format::{frame, SB};
use range_filter_tests::reference::keys::MAX_KEY;
use range_filter_tests::reference::leaves::{highest, lowest};
use range_filter_tests::reference::questions::{write, Question, MAX_QUESTIONS};
use range_filter_tests::reference::replies::REPLY_HEAD;
use range_filter_tests::settings::{version_1, version_2};
use range_filter_tests::tally::Tally;
use range_filter_tests::{compare, library};

const IMAGES: usize = 3_000;
const QUESTIONS_AN_IMAGE: usize = 50;
const LISTS_A_SETTING: usize = 1;
const DAMAGED_FILES: usize = 20_000;
const DAMAGED_IMAGES: usize = 20_000;
const LARGE_KEYS: usize = 5_000;
const LARGE_QUESTIONS: usize = 600;
const LISTS_BY_NODE_SIZE: usize = 120;

/// The hash bits h and the real bits n that lists of small universes are built with.
const SLOTS: [(u64, u64); 9] = [
    (0, 0),
    (0, 1),
    (0, 8),
    (0, 9),
    (0, 16),
    (1, 0),
    (3, 1),
    (5, 8),
    (16, 16),
];

/// Compares the replies to a question file in a buffer of some length.
fn compare(image: &[u8], file: &[u8], room: usize) -> Answer {
    compare::ask(library::ask, image, file, room)
}

/// Gives the most bytes that the replies to so many questions have.
fn most(questions: usize) -> usize {
    questions * (REPLY_HEAD + MAX_KEY)
}

/// Compares the replies to questions in a buffer that takes all of them.
fn compare_replies(image: &[u8], asked: &[Question]) {
    for questions in asked.chunks(MAX_QUESTIONS) {
        compare(image, &write(questions), most(questions.len())).length();
    }
}

/// Gives a question of each kind.
fn one_of_each() -> Vec<Question> {
    vec![
        Question::Point(b"D1".to_vec()),
        Question::Range(b"D12Z".to_vec(), b"D2".to_vec()),
        Question::Seek(b"D2a".to_vec()),
        Question::Count(Vec::new(), b"V".to_vec()),
        Question::BeginsWith(b"D".to_vec()),
    ]
}

#[test]
fn all_lists_of_small_universes_get_the_reference_replies() {
    let universes = [
        Universe::of_two_byte_keys(),
        Universe::of_three_byte_keys(),
        Universe::of_short_lists(),
    ];
    for (dense_levels, universe) in (0..).zip(&universes) {
        for (number, list) in universe.lists.iter().enumerate() {
            let (h, n) = SLOTS[number % SLOTS.len()];
            let version = [version_1, version_2][number % 2];
            let settings = version(dense_levels, n).with_hash(h);
            compare_replies(&built(list, settings), &universe.questions);
        }
    }
}

#[test]
fn random_questions_get_the_reference_replies() {
    let mut random = Random::new(61);
    for _ in 0..IMAGES {
        let image = any_image(&mut random);
        let asked = questions_near(&mut random, &image, QUESTIONS_AN_IMAGE);
        compare_replies(&image, &asked);
    }
}

#[test]
fn every_setting_gets_the_reference_replies() {
    let mut random = Random::new(62);
    for settings in every_setting() {
        for _ in 0..LISTS_A_SETTING {
            let image = built(&any_keys(&mut random), settings);
            let asked = questions_near(&mut random, &image, QUESTIONS_AN_IMAGE);
            compare_replies(&image, &asked);
        }
    }
}

#[test]
fn keys_around_every_end_get_the_reference_replies() {
    let mut random = Random::new(70);
    let mut count = 0;
    for settings in every_setting() {
        let stored = any_keys(&mut random);
        let image = built(&stored, settings);
        let leaves = accepted_leaves(&image).expect("a built image is accepted");
        let asked = questions_about(&keys_around(&stored, &leaves));
        compare_replies(&image, &asked);
        count += asked.len();
    }
    assert!(count > 50_000, "{count} questions");
}

#[test]
fn stems_before_runs_of_ff_get_the_reference_replies() {
    let mut random = Random::new(73);
    let mut kinds = [0, 0];
    for settings in every_setting() {
        for _ in 0..LISTS_A_SETTING {
            let stored = ff_keys(&mut random);
            let image = built(&stored, settings);
            let leaves = accepted_leaves(&image).expect("a built image is accepted");
            let ends = leaves.iter().flat_map(|leaf| [lowest(leaf), highest(leaf)]);
            for key in stored.iter().cloned().chain(ends) {
                compare_replies(&image, &stems_about(&key));
            }
            for leaf in leaves {
                kinds[usize::from(leaf.exact)] += 1;
            }
        }
    }
    assert!(kinds.iter().all(|&count| count > 200), "{kinds:?}");
}

#[test]
fn keys_of_every_length_get_the_reference_replies() {
    let mut random = Random::new(63);
    for _ in 0..IMAGES / 10 {
        let image = any_image(&mut random);
        let leaves = accepted_leaves(&image).expect("a built image is accepted");
        let mut asked = Vec::new();
        for length in [0, 1, 2, 62, 63, 64] {
            let mut key = key_near(&mut random, &leaves);
            key.resize(length, random.byte());
            asked.push(Question::Point(key.clone()));
            asked.push(Question::Seek(key.clone()));
            asked.push(Question::BeginsWith(key.clone()));
            asked.push(Question::Range(Vec::new(), key.clone()));
            asked.push(Question::Count(Vec::new(), key));
        }
        compare_replies(&image, &asked);
    }
}

#[test]
fn large_images_get_the_reference_replies() {
    let images: Vec<Vec<u8>> = large_images(&mut Random::new(69), LARGE_KEYS).collect();
    let mut random = Random::new(71);
    for image in images {
        let asked = questions_near(&mut random, &image, LARGE_QUESTIONS);
        compare_replies(&image, &asked);
    }
}

#[test]
fn every_byte_of_s_louds_gets_the_reference_replies() {
    let mut random = Random::new(72);
    let mut met = [false; 256];
    for number in 0..LISTS_BY_NODE_SIZE {
        let keys = keys_by_node_size(&mut random, [2, 4, 6, 24][number % 4]);
        let version = [version_1, version_2][number % 2];
        let image = built(&keys, version(0, 0));
        for &byte in frame(&image).expect("a built image has a frame").bodies[SB] {
            met[usize::from(byte)] = true;
        }
        let asked: Vec<Question> = keys.into_iter().map(Question::Point).collect();
        compare_replies(&image, &asked);
    }
    assert!(met.iter().all(|&met| met), "{met:?}");
}

#[test]
fn reply_buffers_one_byte_short_are_refused_with_25() {
    let mut random = Random::new(64);
    for _ in 0..IMAGES / 10 {
        let image = any_image(&mut random);
        let file = write(&questions_near(&mut random, &image, 9));
        let length = compare(&image, &file, most(9)).length();
        assert_eq!(compare(&image, &file, length), Answer::Written(length));
        assert_eq!(compare(&image, &file, length - 1), Answer::Refused(25));
    }
}

#[test]
fn reply_buffers_of_every_length_are_judged_alike() {
    let file = write(&one_of_each());
    let most = most(one_of_each().len());
    let length = compare(IMAGE_A, &file, most).length();
    for room in 0..=most + 1 {
        let expected = match room < length {
            true => Answer::Refused(25),
            false => Answer::Written(length),
        };
        assert_eq!(compare(IMAGE_A, &file, room), expected);
    }
}

#[test]
fn questions_behind_1024_others_are_refused_with_24() {
    let mut random = Random::new(65);
    let image = any_image(&mut random);
    let asked = questions_near(&mut random, &image, MAX_QUESTIONS + 1);
    let room = most(asked.len());
    let taken = write(&asked[..MAX_QUESTIONS]);
    assert_eq!(compare(&image, &taken, room).number(), 0);
    assert_eq!(compare(&image, &write(&asked), room), Answer::Refused(24));
}

#[test]
fn question_files_damaged_at_every_byte_are_judged_alike() {
    let whole = write(&one_of_each());
    let mut tally = Tally::default();
    for at in 0..whole.len() {
        let mut files = vec![whole[..at].to_vec()];
        files.push([&whole[..at], &whole[at + 1..]].concat());
        for byte in [0x00, 0x01, 0x40, 0x41, b'P', b'Q', b'X', 0xFF] {
            files.push([&whole[..at], &[byte], &whole[at..]].concat());
            files.push([&whole[..at], &[byte], &whole[at + 1..]].concat());
        }
        for file in files {
            tally.note(compare(IMAGE_A, &file, most(8)).number());
        }
    }
    assert_eq!(tally.numbers(), [0, 21, 22, 23]);
}

#[test]
fn the_first_fault_of_a_long_file_is_its_number() {
    let one = write(&[Question::Point(b"D1".to_vec())]);
    let few = one.repeat(MAX_QUESTIONS - 1);
    let faults: [(&[u8], u32); 5] = [
        (b"QX", 21),
        (b"QP\x40a", 21),
        (b"QP\x41", 22),
        (b"QR\x01b\x41", 22),
        (b"QC\x01b\x01a", 23),
    ];
    for (fault, number) in faults {
        let last = [&few[..], fault, &one[..]].concat();
        assert_eq!(compare(IMAGE_A, &last, 0), Answer::Refused(number));
        let behind = [&few[..], &one[..], fault].concat();
        assert_eq!(compare(IMAGE_A, &behind, 0), Answer::Refused(24));
    }
}

#[test]
fn damaged_question_files_are_judged_alike() {
    let tally = Tally::of(66, DAMAGED_FILES, |random| {
        let image = any_image(random);
        let file = write(&questions_near(random, &image, 4));
        compare(&image, &damaged(random, &file), most(8)).number()
    });
    assert_eq!(tally.numbers(), [0, 21, 22, 23]);
}

#[test]
fn damaged_images_are_refused_alike() {
    let tally = Tally::of(67, DAMAGED_IMAGES, |random| {
        let image = any_image(random);
        let file = write(&questions_near(random, &image, 3));
        compare(&damaged(random, &image), &file, most(3)).number()
    });
    assert_eq!(tally.numbers(), [0, 11, 12, 13, 14, 15, 16]);
}
