//! The reference alone: the rule behind a point's reply, found by a descent, compared with
//! the sentences of the six rules, of which one holds of each key, and with the reply's
//! number, which is 1 with rules 3 and 4 and with no other.

use range_filter_tests::generate::any_settings;
use range_filter_tests::generate::keys::{any_keys, ff_keys, growing_keys, no_keys};
use range_filter_tests::generate::questions::keys_about;
use range_filter_tests::generate::universe::Universe;
use range_filter_tests::random::Random;
use range_filter_tests::reference::leaves::{leaves, Leaf};
use range_filter_tests::reference::questions::Question;
use range_filter_tests::reference::replies::replies;
use range_filter_tests::reference::rule_sentences::rules;
use range_filter_tests::reference::rules::{rule, Rule};
use range_filter_tests::reference::trie::trie;
use range_filter_tests::settings::version_1;
use range_filter_tests::tally::Tally;

const LISTS: usize = 3_000;
const RULE_TIMES: usize = 2_000;

/// The hash bits h and the real bits n that all lists of small universes are tried with.
const SLOTS: [(u64, u64); 8] = [
    (0, 0),
    (0, 1),
    (0, 8),
    (0, 9),
    (0, 16),
    (1, 0),
    (3, 1),
    (16, 8),
];

/// Compares the rules of some keys over leaves, and notes them.
fn compare_rules(tally: &mut Tally, leaves: &[Leaf], keys: &[Vec<u8>]) {
    let trie = trie(leaves);
    let asked: Vec<Question> = keys.iter().cloned().map(Question::Point).collect();
    for (key, reply) in keys.iter().zip(replies(leaves, &asked)) {
        let rule = rule(leaves, &trie, key);
        assert_eq!(rules(leaves, key), [rule], "{key:?} over {leaves:?}");
        assert_eq!(reply.key, [rule.number()], "{key:?} over {leaves:?}");
        let is_held = matches!(rule, Rule::ExactLeaf | Rule::SuffixEqual);
        assert_eq!(reply.number, is_held.into(), "{key:?} over {leaves:?}");
        tally.note(rule.number().into());
    }
}

/// Gives the keys of a universe, the empty one among them, each as it is and with one byte
/// more.
fn keys_of(universe: &Universe) -> Vec<Vec<u8>> {
    let mut keys = Vec::new();
    for question in &universe.questions {
        if let Question::Point(key) = question {
            let behind = [b"".as_slice(), b"\x00", b"\x7F", b"\x80", b"\xFF"];
            keys.extend(behind.map(|bytes| [key, bytes].concat()));
        }
    }
    keys
}

/// Compares the rules of all keys over all lists of a universe, and notes them.
fn compare_universe(tally: &mut Tally, universe: &Universe) {
    let keys = keys_of(universe);
    for (h, n) in SLOTS {
        for list in &universe.lists {
            let leaves = leaves(list, version_1(0, n).with_hash(h));
            compare_rules(tally, &leaves, &keys);
        }
    }
}

#[test]
fn one_rule_holds_of_each_key_over_all_lists_of_small_universes() {
    let mut tally = Tally::default();
    compare_universe(&mut tally, &Universe::of_two_byte_keys());
    compare_universe(&mut tally, &Universe::of_three_byte_keys());
    compare_universe(&mut tally, &Universe::of_short_lists());
    assert_eq!(tally.numbers(), [1, 2, 3, 4, 5, 6]);
}

#[test]
fn one_rule_holds_of_each_key_about_random_leaves() {
    let mut random = Random::new(16);
    let mut tally = Tally::default();
    for _ in 0..LISTS {
        let list = random.pick(&[any_keys, ff_keys, growing_keys, no_keys])(&mut random);
        let settings = any_settings(&mut random);
        let leaves = leaves(&list, settings);
        let keys = [keys_about(&mut random, &leaves), list].concat();
        compare_rules(&mut tally, &leaves, &keys);
    }
    let often = |rule: Rule| tally.times(rule.number().into()) >= RULE_TIMES;
    assert!(Rule::ALL.into_iter().all(often), "{tally:?}");
}
