//! The reference alone: how many trie entries a key list has, beside the bound of order 9.

use range_filter_tests::generate::keys::{any_keys, keys_with_most_entries};
use range_filter_tests::random::Random;
use range_filter_tests::reference::keys::{MAX_KEY, MAX_KEYS};
use range_filter_tests::reference::leaves::leaves;
use range_filter_tests::reference::trie::{entry_count, nodes};
use range_filter_tests::settings::version_1;

const LISTS: usize = 20_000;

/// The most trie entries that a key adds: one for each of its bytes, and one for its leaf.
const KEY_ENTRIES: usize = MAX_KEY + 1;

/// The most trie entries of a list: an entry for each leaf, and one for each node below
/// the root. Two leaves at least are below each node, so that a level has at most 32,767.
const MOST_ENTRIES: usize = MAX_KEYS + 256 + 62 * 32_767;

/// Counts the trie entries of keys that make a list.
fn entries(keys: &[Vec<u8>]) -> usize {
    entry_count(&nodes(&leaves(keys, version_1(0, 0))))
}

#[test]
fn lists_have_at_most_65_entries_a_key() {
    assert_eq!(KEY_ENTRIES * MAX_KEYS, 4_259_775);
    let mut random = Random::new(91);
    for _ in 0..LISTS {
        let keys = any_keys(&mut random);
        assert!(entries(&keys) <= KEY_ENTRIES * keys.len(), "{keys:?}");
    }
}

#[test]
fn the_most_entries_of_a_list_are_reached() {
    assert_eq!(MOST_ENTRIES, 2_097_345);
    let keys = keys_with_most_entries();
    assert_eq!(keys.len(), MAX_KEYS);
    assert_eq!(entries(&keys), MOST_ENTRIES);
}
