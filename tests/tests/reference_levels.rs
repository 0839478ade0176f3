//! The reference alone: the level starts of an image compared with their definition, read over
//! all cut keys.

use range_filter_tests::generate::images::built;
use range_filter_tests::generate::keys::any_keys;
use range_filter_tests::generate::level_starts::{body, read};
use range_filter_tests::generate::settings_of_version_1;
use range_filter_tests::random::Random;
use range_filter_tests::reference::leaves::{leaves, Leaf};
use range_filter_tests::settings::Settings;
use std::collections::BTreeSet;

const LISTS_A_SETTING: usize = 20;

/// Gives the first node of each level by definition: a level's nodes are the proper prefixes
/// of cut keys that have so many bytes, and before its first node come all shorter ones.
fn defined_starts(leaves: &[Leaf]) -> Vec<u32> {
    let mut nodes = BTreeSet::new();
    for leaf in leaves {
        nodes.extend((0..leaf.cut_key.len()).map(|length| &leaf.cut_key[..length]));
    }
    let levels: BTreeSet<usize> = nodes.iter().map(|node| node.len()).collect();
    let shorter = |level: usize| nodes.iter().filter(|node| node.len() < level).count();
    let starts = levels.into_iter().map(|level| shorter(level) as u32);
    starts.collect()
}

#[test]
fn level_starts_agree_with_their_definition() {
    let mut random = Random::new(151);
    for settings in settings_of_version_1() {
        let settings = Settings {
            version: 2,
            ..settings
        };
        for _ in 0..LISTS_A_SETTING {
            let keys = any_keys(&mut random);
            let image = built(&keys, settings);
            let starts = defined_starts(&leaves(&keys, settings));
            assert_eq!(read(body(&image)), starts, "{keys:?}");
        }
    }
}
