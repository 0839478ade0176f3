//! The fast implementation gives what the reference gives, so that the benchmark compares
//! with one that does the same work.

use range_filter_bench::fast;
use range_filter_bench::fast::accepted::Opened;
use range_filter_bench::keys::{KEY_SETS, MANY_LEVELS};
use range_filter_bench::questions::{questions, KEY_KINDS, RANGE_KINDS};
use range_filter_tests::answer::Answer;
use range_filter_tests::compare::{self, AcceptedCase, Case};
use range_filter_tests::generate::images::{any_image, built, large_images, small_frame, CHANGES};
use range_filter_tests::generate::keys::{
    any_keys, ascending, ff_keys, growing_keys, keys_by_node_size, many_keys, many_mixed_keys,
    no_keys,
};
use range_filter_tests::generate::places::{far_places, ROOMS};
use range_filter_tests::generate::questions::{any_question, key_near, keys_about, questions_near};
use range_filter_tests::generate::slots::with_flipped_bits;
use range_filter_tests::generate::{any_settings, damaged, every_setting, in_both_versions};
use range_filter_tests::random::Random;
use range_filter_tests::reference::check::accepted_leaves;
use range_filter_tests::reference::format::VERSIONS;
use range_filter_tests::reference::keys::{self, MAX_KEYS};
use range_filter_tests::reference::questions::{write, Question, MAX_QUESTIONS};
use range_filter_tests::reference::replies::POINT_REPLY;
use range_filter_tests::reference::walk::RECORD_BYTES;
use range_filter_tests::settings::{version_1, version_2, Settings};
use range_filter_tests::tally::{judge_changed_images, Tally};

const LISTS: usize = 4_000;
const DAMAGED_LISTS: usize = 10_000;
const LARGE_LISTS: usize = 40;
const IMAGES: usize = 3_000;
const CHANGES_A_KIND: usize = 20_000;
const SMALL_FRAMES: usize = 100_000;
const CHANGES_A_LARGE_IMAGE: usize = 20;
const QUESTION_FILES: usize = 3_000;
const LARGE_QUESTION_FILES: usize = 20;
const NODE_SIZES: [usize; 6] = [2, 8, 16, 17, 64, 256];
const MEASURED_QUESTIONS: usize = 100;
const WALKED_IMAGES: usize = 1_000;
const WALKED_KEYS: usize = 5_000;
const PLACES_A_LARGE_IMAGE: usize = 20;
const ACCEPTED_LISTS_A_SETTING: usize = 20;
const ROOM: usize = 1 << 20;

/// Compares a build, and gives the answer.
fn compare_build(list: &[u8], settings: Settings, room: usize) -> Answer {
    compare::build(fast::build::build, list, settings, room)
}

/// Compares a check, and gives the number.
fn compare_check(image: &[u8]) -> u32 {
    compare::check(fast::check::check, image)
}

/// Compares the replies to a question file, and gives the answer.
fn compare_ask(image: &[u8], file: &[u8], room: usize) -> Answer {
    compare::ask(fast::ask::ask, image, file, room)
}

/// Compares the records from a place on in a buffer of some length, and gives the answer.
fn compare_walk(image: &[u8], place: u64, room: usize) -> Answer {
    compare::walk(fast::walk::walk, image, place, room)
}

/// Compares walks over an accepted image from its start and from some places, and gives
/// the number of its leaves.
fn compare_walks(random: &mut Random, image: &[u8], places: usize) -> usize {
    let leaves = compare_walk(image, 0, ROOM).length() / RECORD_BYTES;
    for _ in 0..places {
        let place = random.below(leaves + 1) as u64;
        compare_walk(image, place, ROOM).length();
        compare_walk(image, place, random.below(10 * RECORD_BYTES)).length();
    }
    let behind = compare_walk(image, leaves as u64 + 1, ROOM);
    assert_eq!(behind, Answer::Refused(17));
    leaves
}

/// Compares the calls over an accepted image, one question each, and walks from every place
/// so many places apart; notes the refusals.
fn compare_accepted(image: &[u8], asked: &[Question], apart: usize, tally: &mut Tally) {
    let leaves = accepted_leaves(image).expect("the image is accepted");
    let accepted = fast::check::accept(image).expect("and so it is by the fast check");
    let case = AcceptedCase::new(image, &leaves, Opened::new(&accepted));
    for question in asked {
        tally.note(case.question(question).err().unwrap_or(0));
    }
    let done = leaves.len() as u64;
    let places = (0..=done).step_by(apart).chain([done, done + 1]);
    for place in places.chain(far_places()) {
        for room in ROOMS.into_iter().chain([5 * RECORD_BYTES]) {
            tally.note(case.walk(place, room).number());
        }
    }
}

/// Compares the replies to questions over an image: of all kinds, about keys near the ends
/// of the leaves' intervals, and with bounds near the same leaf or near neighbours.
fn compare_questions(random: &mut Random, image: &[u8], count: usize) {
    let file = write(&questions_near(random, image, count));
    compare_ask(image, &file, ROOM).length();
    let file = write(&close_questions(random, image, count));
    compare_ask(image, &file, ROOM).length();
}

/// Gives ranges and counts whose bounds are near the same leaf or near neighbours.
fn close_questions(random: &mut Random, image: &[u8], count: usize) -> Vec<Question> {
    let leaves = accepted_leaves(image).expect("a built image is accepted");
    let question = |_| {
        let first = random.below(leaves.len().max(1));
        let end = leaves.len().min(first + 1 + random.below(3));
        let mut bounds = [(); 2].map(|()| key_near(random, &leaves[first..end]));
        bounds.sort();
        let [lower, upper] = bounds;
        match random.below(2) {
            0 => Question::Range(lower, upper),
            _ => Question::Count(lower, upper),
        }
    };
    (0..count).map(question).collect()
}

/// Gives two keys each that are cut behind 62, 63 and 64 bytes, and keys that begin these.
fn late_keys() -> Vec<Vec<u8>> {
    let lengths = [62, 63, 64].into_iter();
    let pair = |length: usize| {
        let start = vec![length as u8; length - 1];
        [vec![7], vec![9], Vec::new()].map(|last| [start.clone(), last].concat())
    };
    lengths.flat_map(pair).collect()
}

/// Gives one question of each kind.
fn one_of_each_kind() -> Vec<u8> {
    write(&[
        Question::Point(b"a".to_vec()),
        Question::Seek(Vec::new()),
        Question::BeginsWith(Vec::new()),
        Question::Range(Vec::new(), vec![0xFF; 64]),
        Question::Count(b"a".to_vec(), b"b".to_vec()),
    ])
}

/// Gives some hundred keys, of which some begin others, with settings that go round.
fn large_list(random: &mut Random, round: usize) -> (Vec<Vec<u8>>, Settings) {
    let count = 200 + random.below(1_000);
    let length = 2 + random.below(5);
    let keys = many_mixed_keys(random, count, length);
    let settings = Settings {
        version: VERSIONS[round % 2],
        dense_levels: (round % 5) as u64,
        n: (round % 17) as u64,
        h: (round / 2 * 5 % 17) as u64,
    };
    (keys, settings)
}

/// Gives dense levels, real bits and hash bits as settings in both versions.
fn in_versions(parts: &[(u64, u64, u64)]) -> Vec<Settings> {
    let settings = parts
        .iter()
        .map(|&(dense_levels, n, h)| version_1(dense_levels, n).with_hash(h));
    settings.flat_map(in_both_versions).collect()
}

#[test]
fn lists_build_alike() {
    let mut random = Random::new(1);
    for _ in 0..LISTS {
        let list = keys::write(&any_keys(&mut random));
        let settings = any_settings(&mut random);
        let length = compare_build(&list, settings, ROOM).length();
        compare_build(&list, settings, length).length();
        let short = compare_build(&list, settings, length - 1);
        assert_eq!(short, Answer::Refused(7));
        let case = Case::new(&list, settings);
        let wrong = case.build(fast::build::build, length as u64 + 1, length);
        assert_eq!(wrong, Answer::Refused(8));
    }
}

#[test]
fn damaged_lists_are_refused_alike() {
    let tally = Tally::of(2, DAMAGED_LISTS, |random| {
        let list = keys::write(&any_keys(random));
        let list = damaged(random, &list);
        let settings = Settings {
            version: *random.pick(&[1, 1, 2, 2, 0, 3, 257]),
            dense_levels: *random.pick(&[0, 2, 4, 5, 256]),
            n: *random.pick(&[0, 8, 16, 17, 1 << 32]),
            h: *random.pick(&[0, 8, 16, 17, 1 << 32]),
        };
        compare_build(&list, settings, ROOM).number()
    });
    assert_eq!(tally.numbers(), [0, 1, 2, 3, 5]);
}

#[test]
fn large_lists_build_alike() {
    let mut random = Random::new(3);
    for round in 0..LARGE_LISTS {
        let (keys, settings) = large_list(&mut random, round);
        compare_build(&keys::write(&keys), settings, ROOM).length();
    }
}

#[test]
fn longest_list_builds_and_checks_alike() {
    let keys = many_keys(&mut Random::new(4), MAX_KEYS, 4);
    let mut list = keys::write(&keys);
    for settings in in_versions(&[(1, 9, 0), (1, 9, 14)]) {
        compare_build(&list, settings, ROOM).length();
        assert_eq!(compare_check(&built(&keys, settings)), 0);
    }
    list.push(0);
    let longer = compare_build(&list, version_2(1, 9), ROOM);
    assert_eq!(longer, Answer::Refused(4));
}

#[test]
fn images_are_judged_alike() {
    let tally = Tally::of(5, IMAGES, |random| compare_check(&any_image(random)));
    assert_eq!(tally.numbers(), [0]);
}

#[test]
fn changed_images_are_judged_alike() {
    judge_changed_images(6, CHANGES_A_KIND, any_image, compare_check);
}

#[test]
fn small_frames_are_judged_alike() {
    let tally = Tally::of(9, SMALL_FRAMES, |random| {
        compare_check(&small_frame(random))
    });
    assert_eq!(tally.numbers(), [0, 14, 16]);
}

#[test]
fn bits_of_late_slots_are_judged_alike() {
    let mut tally = Tally::default();
    let keys = ascending(late_keys());
    for settings in every_setting() {
        let image = built(&keys, settings);
        assert_eq!(compare_check(&image), 0);
        for position in 0..keys.len() * settings.slot_bits() as usize {
            let changed = with_flipped_bits(&image, [position]);
            tally.note(compare_check(&changed));
        }
    }
    assert_eq!(tally.numbers(), [0, 16]);
}

#[test]
fn large_images_are_judged_alike() {
    let mut random = Random::new(10);
    let mut tally = Tally::default();
    for round in 0..LARGE_LISTS {
        let (keys, settings) = large_list(&mut random, round);
        let image = built(&keys, settings);
        assert_eq!(compare_check(&image), 0);
        for change in &CHANGES {
            for _ in 0..CHANGES_A_LARGE_IMAGE {
                tally.note(compare_check(&(change.apply)(&mut random, &image)));
            }
        }
    }
    assert!(tally.times(14) > 0 && tally.times(15) > 0, "{tally:?}");
}

#[test]
fn questions_are_replied_to_alike() {
    let mut random = Random::new(11);
    let mut tally = Tally::default();
    for _ in 0..QUESTION_FILES {
        let image = any_image(&mut random);
        let file = write(&questions_near(&mut random, &image, 20));
        tally.note(compare_ask(&image, &file, ROOM).number());
        let room = random.below(400);
        tally.note(compare_ask(&image, &file, room).number());
        let file = damaged(&mut random, &file);
        tally.note(compare_ask(&image, &file, ROOM).number());
    }
    assert_eq!(tally.numbers(), [0, 21, 22, 23, 25]);
}

#[test]
fn points_of_every_rule_are_replied_to_alike() {
    let mut random = Random::new(25);
    for _ in 0..QUESTION_FILES {
        let list = random.pick(&[any_keys, ff_keys, growing_keys, no_keys])(&mut random);
        let image = built(&list, any_settings(&mut random));
        let leaves = accepted_leaves(&image).expect("a built image is accepted");
        let keys = keys_about(&mut random, &leaves).into_iter();
        let asked: Vec<Question> = keys.take(MAX_QUESTIONS).map(Question::Point).collect();
        let length = asked.len() * POINT_REPLY;
        assert_eq!(compare_ask(&image, &write(&asked), ROOM).length(), length);
    }
}

#[test]
fn questions_over_large_images_are_replied_to_alike() {
    let mut random = Random::new(12);
    for round in 0..LARGE_QUESTION_FILES {
        let (keys, settings) = large_list(&mut random, round);
        let image = built(&keys, settings);
        let mut file = write(&questions_near(&mut random, &image, MAX_QUESTIONS));
        compare_ask(&image, &file, ROOM).length();
        file.push(b'Q');
        assert_eq!(compare_ask(&image, &file, ROOM), Answer::Refused(24));
    }
}

#[test]
fn damaged_images_are_refused_by_ask_alike() {
    let tally = Tally::of(13, QUESTION_FILES, |random| {
        let image = any_image(random);
        compare_ask(&damaged(random, &image), &one_of_each_kind(), ROOM).number()
    });
    assert!(tally.times(0) > 0 && tally.times(11) > 0, "{tally:?}");
}

#[test]
fn changed_images_are_asked_or_refused_alike() {
    let mut random = Random::new(18);
    let mut tally = Tally::default();
    for _ in 0..QUESTION_FILES {
        let image = any_image(&mut random);
        for change in &CHANGES {
            let changed = (change.apply)(&mut random, &image);
            let number = compare_ask(&changed, &one_of_each_kind(), ROOM).number();
            tally.note(number);
            if number == 0 {
                compare_questions(&mut random, &changed, 10);
            }
        }
    }
    assert_eq!(tally.numbers(), [0, 11, 12, 13, 14, 15, 16]);
}

#[test]
fn empty_images_are_asked_alike() {
    for settings in every_setting() {
        let image = built(&[], settings);
        compare_ask(&image, &one_of_each_kind(), ROOM).length();
    }
}

#[test]
fn close_bounds_are_replied_to_alike() {
    let mut random = Random::new(19);
    for _ in 0..QUESTION_FILES {
        let image = any_image(&mut random);
        compare_questions(&mut random, &image, 40);
    }
}

#[test]
fn questions_over_nodes_of_any_size_are_replied_to_alike() {
    let mut random = Random::new(20);
    for most in NODE_SIZES {
        for settings in in_versions(&[(0, 0, 0), (0, 8, 0), (0, 0, 8), (1, 3, 5), (2, 16, 16)]) {
            let mut keys = keys_by_node_size(&mut random, most);
            let exact = (0..=u8::MAX).filter(|_| random.once_in(3));
            keys.extend(exact.map(|first| vec![first]));
            let image = built(&ascending(keys), settings);
            compare_questions(&mut random, &image, 200);
        }
    }
}

#[test]
fn questions_at_the_end_of_a_whole_block_are_replied_to_alike() {
    let mut random = Random::new(21);
    for first in [0x00, 0x7F, 0xFF] {
        let node = (0..=u8::MAX).map(|second| vec![first, second]);
        let others = (0..=u8::MAX).filter(|&other| other != first);
        let keys = ascending(node.chain(others.map(|other| vec![other])).collect());
        for settings in in_versions(&[(0, 0, 0), (0, 8, 0), (1, 8, 8), (2, 8, 3)]) {
            let image = built(&keys, settings);
            compare_questions(&mut random, &image, 200);
        }
    }
}

#[test]
fn measured_questions_are_replied_to_alike() {
    for key_set in KEY_SETS.iter().chain(&MANY_LEVELS) {
        let [keys, others] = [22, 23].map(|seed| (key_set.make)(&mut Random::new(seed), 1_000));
        for settings in in_versions(&[(0, 0, 0), (0, 8, 0), (2, 0, 8), (2, 8, 8)]) {
            let image = built(&keys, settings);
            for kind in KEY_KINDS.iter().chain(&RANGE_KINDS) {
                let mut random = Random::new(24);
                let asked = questions(&mut random, [&keys, &others], kind, MEASURED_QUESTIONS);
                compare_ask(&image, &write(&asked), ROOM).length();
            }
        }
    }
}

#[test]
fn images_are_walked_alike() {
    let mut random = Random::new(14);
    for _ in 0..WALKED_IMAGES {
        let image = any_image(&mut random);
        compare_walks(&mut random, &image, 3);
    }
}

#[test]
fn large_images_are_walked_alike() {
    let mut random = Random::new(15);
    let images: Vec<Vec<u8>> = large_images(&mut random, WALKED_KEYS).collect();
    for image in images {
        let leaves = compare_walks(&mut random, &image, PLACES_A_LARGE_IMAGE);
        assert_eq!(leaves, WALKED_KEYS);
    }
    for round in 0..LARGE_LISTS {
        let (keys, settings) = large_list(&mut random, round);
        compare_walks(&mut random, &built(&keys, settings), 3);
    }
}

#[test]
fn changed_images_are_walked_or_refused_alike() {
    let mut random = Random::new(16);
    let mut tally = Tally::default();
    for _ in 0..CHANGES_A_KIND {
        let image = any_image(&mut random);
        for change in &CHANGES {
            let changed = (change.apply)(&mut random, &image);
            let place = random.below(8) as u64;
            tally.note(compare_walk(&changed, place, random.below(300)).number());
        }
    }
    assert_eq!(tally.numbers(), [0, 11, 12, 13, 14, 15, 16, 17]);
}

#[test]
fn measured_lists_are_built_checked_and_walked_alike() {
    let mut random = Random::new(17);
    for key_set in KEY_SETS.iter().chain(&MANY_LEVELS) {
        let keys = (key_set.make)(&mut random, WALKED_KEYS);
        assert_eq!(keys.len(), WALKED_KEYS);
        for settings in in_versions(&[(0, 0, 0), (0, 4, 0), (0, 0, 8), (2, 8, 8)]) {
            compare_build(&keys::write(&keys), settings, ROOM).length();
            let image = built(&keys, settings);
            assert_eq!(compare_check(&image), 0);
            compare_walks(&mut random, &image, 1);
        }
    }
}

#[test]
fn accepted_images_are_asked_and_walked_alike() {
    let mut random = Random::new(26);
    let mut tally = Tally::default();
    for settings in every_setting() {
        for _ in 0..ACCEPTED_LISTS_A_SETTING {
            let keys = random.pick(&[any_keys, ff_keys, growing_keys, no_keys])(&mut random);
            let image = built(&keys, settings);
            let leaves = accepted_leaves(&image).expect("a built image is accepted");
            let asked = [(); 40].map(|()| any_question(&mut random, &leaves));
            compare_accepted(&image, &asked, 1, &mut tally);
        }
    }
    assert_eq!(tally.numbers(), [0, 17, 22, 23]);
}

#[test]
fn large_accepted_images_are_asked_and_walked_alike() {
    let mut random = Random::new(27);
    let mut tally = Tally::default();
    let mut images: Vec<Vec<u8>> = large_images(&mut random, WALKED_KEYS).collect();
    for round in 0..LARGE_LISTS {
        let (keys, settings) = large_list(&mut random, round);
        images.push(built(&keys, settings));
    }
    for image in images {
        let asked = questions_near(&mut random, &image, 200);
        compare_accepted(&image, &asked, 7, &mut tally);
    }
    assert_eq!(tally.numbers(), [0, 17]);
}
