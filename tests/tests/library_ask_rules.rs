//! The proved library's points against the reference, by the rules behind them: each rule has
//! to come often, at dense and at sparse nodes, with hash bits and without, and with real bits
//! and without.

use range_filter_tests::answer::Answer;
use range_filter_tests::examples::IMAGE_A;
use range_filter_tests::generate::images::built;
use range_filter_tests::generate::in_both_versions;
use range_filter_tests::generate::keys::{any_keys, ff_keys, growing_keys, no_keys};
use range_filter_tests::generate::questions::{decided_at_dense, keys_about};
use range_filter_tests::random::Random;
use range_filter_tests::reference::check::accepted_leaves;
use range_filter_tests::reference::format::MAX_DENSE_LEVELS;
use range_filter_tests::reference::leaves::Leaf;
use range_filter_tests::reference::questions::{write, Question, MAX_QUESTIONS};
use range_filter_tests::reference::replies::{POINT_REPLY, REPLY_HEAD};
use range_filter_tests::settings::{version_1, version_2, Settings};
use range_filter_tests::tally::Tally;
use range_filter_tests::{compare, library};

const LISTS_A_SETTING: usize = 150;
const RULE_TIMES: usize = 1_000;

/// The hash bits h and the real bits n of images.
const SLOTS: [(u64, u64); 10] = [
    (0, 0),
    (0, 1),
    (0, 8),
    (0, 16),
    (1, 0),
    (5, 0),
    (16, 0),
    (2, 1),
    (8, 9),
    (16, 16),
];

/// The rules that points meet, by dense or sparse nodes, by whether there are hash bits, and
/// by whether there are real bits.
type Tallies = [[[Tally; 2]; 2]; 2];

/// Compares the replies to points about some keys in a buffer of some length, and gives the
/// answer.
fn compare(image: &[u8], keys: &[Vec<u8>], room: usize) -> Answer {
    compare::ask(library::ask, image, &points(keys), room)
}

/// Gives a file of points about some keys.
fn points(keys: &[Vec<u8>]) -> Vec<u8> {
    let points: Vec<Question> = keys.iter().cloned().map(Question::Point).collect();
    write(&points)
}

/// Compares the replies to points about at most 1,024 keys, and gives the rules in them.
fn rules(image: &[u8], keys: &[Vec<u8>]) -> Vec<u32> {
    let mut replies = vec![0; keys.len() * POINT_REPLY];
    let written = Answer::Written(replies.len());
    assert_eq!(compare(image, keys, replies.len()), written);
    assert_eq!(library::ask(image, &points(keys), &mut replies), written);
    let replies = replies.chunks(POINT_REPLY);
    replies.map(|reply| reply[REPLY_HEAD].into()).collect()
}

/// Gives every number of dense levels with some numbers of hash bits and real bits, in both
/// versions.
fn settings() -> impl Iterator<Item = Settings> {
    let plain = (0..=MAX_DENSE_LEVELS)
        .flat_map(|dense_levels| SLOTS.map(|(h, n)| version_1(dense_levels, n).with_hash(h)));
    plain.flat_map(in_both_versions)
}

/// Notes the rules of a list's keys and of keys about its leaves.
fn note_rules(random: &mut Random, list: &[Vec<u8>], settings: Settings, tallies: &mut Tallies) {
    let image = built(list, settings);
    let leaves = accepted_leaves(&image).expect("a built image is accepted");
    let mut keys = [list, &keys_about(random, &leaves)].concat();
    keys.truncate(MAX_QUESTIONS);
    let [hash, real] = [settings.h, settings.n].map(|bits| usize::from(bits > 0));
    for (key, rule) in keys.iter().zip(rules(&image, &keys)) {
        if let Some(dense) = decided_at_dense(key, settings.dense_levels) {
            tallies[usize::from(dense)][hash][real].note(rule);
        }
    }
}

/// Notes the rules of exact leaves' keys with FF behind them: by dense or sparse nodes.
fn note_rules_of_ff(list: &[Vec<u8>], settings: Settings, tallies: &mut [Tally; 2]) {
    let image = built(list, settings);
    let mut leaves = accepted_leaves(&image).expect("a built image is accepted");
    leaves.retain(|leaf| leaf.exact);
    let longer = |leaf: &Leaf| [&leaf.cut_key, b"\xFF".as_slice()].concat();
    let keys: Vec<Vec<u8>> = leaves.iter().map(longer).collect();
    for (leaf, rule) in leaves.iter().zip(rules(&image, &keys)) {
        let dense = leaf.cut_key.len() < settings.dense_levels as usize;
        tallies[usize::from(dense)].note(rule);
    }
}

/// Asserts that each of some rules came often, and no other.
fn assert_came_often(tally: &Tally, rules: &[u32]) {
    assert_eq!(tally.numbers(), rules);
    let often = |&rule: &u32| tally.times(rule) >= RULE_TIMES;
    assert!(rules.iter().all(often), "{tally:?}");
}

#[test]
fn each_rule_comes_at_dense_and_at_sparse_nodes() {
    let mut random = Random::new(101);
    let mut tallies = Tallies::default();
    for setting in settings() {
        for _ in 0..LISTS_A_SETTING {
            let list = random.pick(&[any_keys, ff_keys, growing_keys, no_keys])(&mut random);
            note_rules(&mut random, &list, setting, &mut tallies);
        }
    }
    for [[without_suffixes, real], [hash, both]] in &tallies {
        assert_came_often(without_suffixes, &[1, 2, 3, 4, 6]);
        for with_suffixes in [real, hash, both] {
            assert_came_often(with_suffixes, &[1, 2, 3, 4, 5, 6]);
        }
    }
}

#[test]
fn ff_behind_an_exact_leaf_takes_a_branch_of_that_label_alone() {
    let mut random = Random::new(102);
    let mut tallies: [Tally; 2] = Default::default();
    for setting in settings() {
        for _ in 0..LISTS_A_SETTING {
            note_rules_of_ff(&growing_keys(&mut random), setting, &mut tallies);
        }
    }
    for tally in &tallies {
        assert_eq!(tally.numbers(), [1, 2, 3, 4, 5]);
        let taken: usize = (2..=5).map(|rule| tally.times(rule)).sum();
        assert!(tally.times(1).min(taken) >= RULE_TIMES, "{tally:?}");
    }
}

#[test]
fn buffers_that_held_points_without_rules_are_refused_with_25() {
    let keys = [b"D1".as_slice(), b"D10", b"D", b"D2x", b"", b"D1\xFF"].map(<[u8]>::to_vec);
    for image in [IMAGE_A, &built(&[], version_2(2, 8))] {
        for count in [1, 2, 6, 7, 1_000, MAX_QUESTIONS] {
            let keys: Vec<Vec<u8>> = keys.iter().cycle().take(count).cloned().collect();
            for room in [8 * count, 9 * count - 1] {
                assert_eq!(compare(image, &keys, room), Answer::Refused(25));
            }
            for room in [9 * count, 9 * count + 1] {
                assert_eq!(compare(image, &keys, room), Answer::Written(9 * count));
            }
        }
    }
}
