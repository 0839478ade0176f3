//! The reference alone: its replies compared with brute force over all key lists of a
//! small universe.
//!
//! The lists are grouped by the image they build, and every reply is compared with the
//! lists of its group alone: a point or range is denied just if no list has such a key, and
//! a stem just if no list has a key that begins with it; a count is the most of any list,
//! and a seek gives the least key not below its start that any list has, with its number in
//! the list. No interval is used. The rule behind a point's reply is the one whose sentence
//! holds of the key.
//!
//! With hash bits only points are compared with the lists of one image. The other replies are
//! compared with all lists of the same cut keys and real bits, which are those whose images
//! are the same with the hash bits struck out.
//!
//! This is exact for questions from the universe though longer keys exist: cutting a byte
//! of an alphabet of 00, 80 and FF to its high bit and filling with zeros stays in the
//! alphabet, so that with the real bits below each leaf's lowest key lies in the universe,
//! and so does the greater of it and a bound.
//!
//! Longer keys and other settings are covered by lists of the same cut keys and real bits
//! that have as many keys in a question's range as any list can have, and, for points, by
//! lists that have the point's key in the place of one of theirs.

use range_filter_tests::generate::any_settings;
use range_filter_tests::generate::images::built;
use range_filter_tests::generate::keys::{any_keys, ff_keys};
use range_filter_tests::generate::questions::{question_near, stems_of};
use range_filter_tests::generate::universe::{List, Universe};
use range_filter_tests::random::Random;
use range_filter_tests::reference::build;
use range_filter_tests::reference::check::accepted_leaves;
use range_filter_tests::reference::keys;
use range_filter_tests::reference::leaves::{is_possible, leaves, lowest, Leaf};
use range_filter_tests::reference::questions::Question;
use range_filter_tests::reference::replies::{replies, Reply, NONE};
use range_filter_tests::reference::rule_sentences::rules;
use range_filter_tests::reference::strike::struck;
use range_filter_tests::settings::{version_1, version_2, Settings};
use std::collections::HashMap;

const ATTAINED_LISTS: usize = 400;
const QUESTIONS_A_LIST: usize = 40;

/// The hash bits h and the real bits n that all lists of small universes are tried with.
const SLOTS: [(u64, u64); 9] = [
    (0, 0),
    (0, 1),
    (0, 8),
    (0, 9),
    (0, 16),
    (1, 0),
    (16, 0),
    (3, 1),
    (4, 9),
];

/// Lists by the image they build.
type Group<'a> = HashMap<Vec<u8>, Vec<&'a List>>;

/// Lists that a reply is compared with: those of its image, and those of the same cut keys
/// and real bits.
struct Lists<'a> {
    of_image: &'a [&'a List],
    of_real_bits: &'a [&'a List],
}

/// Groups lists by the image they build with the hash bits struck out, and each group by the
/// image they build.
fn grouped(lists: &[List], settings: Settings) -> HashMap<Vec<u8>, Group<'_>> {
    let mut groups: HashMap<Vec<u8>, Group> = HashMap::new();
    for list in lists {
        let image = built(list, settings);
        let group = groups.entry(struck_out(&image)).or_default();
        group.entry(image).or_default().push(list);
    }
    groups
}

/// Strikes the hash bits out of an accepted image.
fn struck_out(image: &[u8]) -> Vec<u8> {
    struck(image).expect("an accepted image has its slots")
}

/// Gives the most keys that any list of a group has in a range.
fn most_in_range(group: &[&List], lower: &[u8], upper: &[u8]) -> u32 {
    let inside = |key: &&Vec<u8>| lower <= key.as_slice() && key.as_slice() <= upper;
    let count = |list: &&List| list.iter().filter(inside).count() as u32;
    group.iter().map(count).max().unwrap_or(0)
}

/// Gives the least key not below a start that any list of a group has, and its number in
/// that list.
fn least_from(group: &[&List], start: &[u8]) -> (u32, Vec<u8>) {
    let first = |list: &&List| {
        let number = list.iter().position(|key| key.as_slice() >= start)?;
        Some((list[number].clone(), number as u32))
    };
    match group.iter().filter_map(first).min() {
        Some((key, number)) => (number, key),
        None => (NONE, Vec::new()),
    }
}

/// Gives 1 if some list of a group has a key that begins with a stem, else 0.
fn some_begins(group: &[&List], stem: &[u8]) -> u32 {
    let mut keys = group.iter().flat_map(|list| list.iter());
    u32::from(keys.any(|key| key.starts_with(stem)))
}

/// Gives the numbers of the rules whose sentences hold of a key over leaves: one byte, if one
/// rule does.
fn rule_bytes(leaves: &[Leaf], key: &[u8]) -> Vec<u8> {
    let rules = rules(leaves, key);
    rules.into_iter().map(|rule| rule.number()).collect()
}

/// Gives the reply that lists call for over an image with these leaves.
fn brute_reply(lists: &Lists, leaves: &[Leaf], question: &Question) -> Reply {
    let most = |lower: &[u8], upper: &[u8]| most_in_range(lists.of_real_bits, lower, upper);
    let (number, key) = match question {
        Question::Point(key) => {
            let number = most_in_range(lists.of_image, key, key);
            (number, rule_bytes(leaves, key))
        }
        Question::Range(lower, upper) => (most(lower, upper).min(1), Vec::new()),
        Question::BeginsWith(stem) => (some_begins(lists.of_real_bits, stem), Vec::new()),
        Question::Count(lower, upper) => (most(lower, upper), Vec::new()),
        Question::Seek(start) => least_from(lists.of_real_bits, start),
    };
    Reply {
        letter: question.letter(),
        number,
        key,
    }
}

/// Compares the replies over every image of a universe with the lists that build it.
fn compare_universe(universe: &Universe, settings: fn(u64) -> Settings) {
    for (h, n) in SLOTS {
        for (struck, group) in grouped(&universe.lists, settings(n).with_hash(h)) {
            let of_real_bits: Vec<&List> = group.values().flatten().copied().collect();
            assert_eq!(built(of_real_bits[0], settings(n)), struck);
            for (image, of_image) in &group {
                let lists = Lists {
                    of_image,
                    of_real_bits: &of_real_bits,
                };
                compare_image(image, &lists, &universe.questions);
            }
        }
    }
}

/// Compares the replies over an image with the lists that build it.
fn compare_image(image: &[u8], lists: &Lists, questions: &[Question]) {
    let leaves = accepted_leaves(image).expect("a built image is accepted");
    for (question, reply) in questions.iter().zip(replies(&leaves, questions)) {
        let brute = brute_reply(lists, &leaves, question);
        assert_eq!(reply, brute, "{question:?} over {:?}", lists.of_image[0]);
    }
}

#[test]
fn replies_agree_over_all_lists_of_two_byte_keys() {
    let universe = Universe::of_two_byte_keys();
    assert_eq!(universe.lists.len(), 1 << 12);
    compare_universe(&universe, |n| version_1(0, n));
}

#[test]
fn replies_agree_over_all_lists_of_three_byte_keys() {
    compare_universe(&Universe::of_three_byte_keys(), |n| version_2(1, n));
}

#[test]
fn replies_agree_over_all_short_lists_of_three_byte_keys() {
    compare_universe(&Universe::of_short_lists(), |n| version_2(2, n));
}

/// Gives a list of the same cut keys and real bits that has as many keys from a bound on as it
/// can: each leaf's key is the least possible one from the bound on, if there is one.
fn fullest_list(list: &[Vec<u8>], leaves: &[Leaf], lower: &[u8]) -> List {
    let fullest = |(key, leaf): (&Vec<u8>, &Leaf)| {
        let least = lowest(leaf).max(lower.to_vec());
        match is_possible(leaf, &least) {
            true => least,
            false => key.clone(),
        }
    };
    list.iter().zip(leaves).map(fullest).collect()
}

/// Gives a list and those with a key in the place of one of its neighbours in the list, if
/// they build the same image.
fn exchanged_lists(list: &List, key: &[u8], settings: Settings) -> Vec<List> {
    let image = built(list, settings);
    let behind = list.partition_point(|other| other.as_slice() < key);
    let mut lists = vec![list.clone()];
    for at in behind.saturating_sub(1)..(behind + 1).min(list.len()) {
        let mut exchanged = list.clone();
        exchanged[at] = key.to_vec();
        lists.push(exchanged);
    }
    lists.retain(|list| build::image(&keys::write(list), settings).as_ref() == Ok(&image));
    lists
}

#[test]
fn replies_over_long_keys_are_attained() {
    let mut random = Random::new(13);
    for _ in 0..ATTAINED_LISTS {
        let list = any_keys(&mut random);
        let settings = any_settings(&mut random);
        let struck = struck_out(&built(&list, settings));
        let leaves = leaves(&list, settings);
        for _ in 0..QUESTIONS_A_LIST {
            let question = question_near(&mut random, &leaves);
            let key = question.keys()[0];
            let fullest = fullest_list(&list, &leaves, key);
            assert_eq!(struck_out(&built(&fullest, settings)), struck);
            let exchanged = exchanged_lists(&list, key, settings);
            let lists = Lists {
                of_image: &exchanged.iter().collect::<Vec<&List>>(),
                of_real_bits: &[&fullest, &list],
            };
            let brute = brute_reply(&lists, &leaves, &question);
            assert_eq!(replies(&leaves, &[question]), [brute], "{list:?}");
        }
    }
}

/// Asserts that none of some questions about a list's keys is denied over its image.
fn assert_none_denied(random: &mut Random, list: &List, asked: &[Question]) {
    let image = built(list, any_settings(random));
    let leaves = accepted_leaves(&image).expect("a built image is accepted");
    let replies = replies(&leaves, asked);
    assert_eq!(replies.len(), asked.len());
    assert!(replies.iter().all(|reply| reply.number == 1), "{list:?}");
}

#[test]
fn keys_of_a_list_are_never_denied() {
    let mut random = Random::new(14);
    for _ in 0..ATTAINED_LISTS {
        let list = any_keys(&mut random);
        let points: Vec<Question> = list.iter().cloned().map(Question::Point).collect();
        assert_none_denied(&mut random, &list, &points);
    }
}

#[test]
fn stems_of_a_list_are_never_denied() {
    let mut random = Random::new(15);
    for number in 0..ATTAINED_LISTS {
        let list = match number % 2 {
            0 => ff_keys(&mut random),
            _ => any_keys(&mut random),
        };
        let stems: Vec<Question> = list.iter().flat_map(|key| stems_of(key)).collect();
        assert_none_denied(&mut random, &list, &stems);
    }
}
