//! The tables of version 2 against version 1, in Markdown.

use crate::accepted;
use crate::markdown::{print_head, print_heading, print_row, print_text, with_commas};
use crate::measure::List;
use crate::tables::{cell, keys_heading, settings_name, FEW_SETTINGS};
use crate::versions;
use range_filter_bench::keys::{KEY_SETS, MANY_LEVELS};
use range_filter_bench::questions::{Kind, VERSION_KINDS};
use range_filter_tests::reference::keys::MAX_KEYS;
use range_filter_tests::reference::questions::MAX_QUESTIONS;
use range_filter_tests::settings::Settings;

/// The questions of a file of few.
const FEW_QUESTIONS: usize = 8;

/// The columns of the table by key.
const BY_KEY: [&str; 6] = [
    "levels",
    "image bytes, version 2",
    "image bytes, version 1",
    "build",
    "check",
    "walk",
];

/// Prints the tables of version 2 against version 1.
pub fn print_versions() {
    print_heading("Version 2 against version 1", "Version 2 of the image has a record more, LV, with the number of each level's first node. Seeks over version 1 find these numbers level by level, once in a call, and over version 2 take them from LV. A count sums up the levels below the ends of its keys, level by level; over version 2 it passes levels in a row at once on which each node has one branch and no exact leaf, which LV and a few lookups tell. All other tables of this page are of version 1.

Both are of the library, on the same keys, questions and other settings, and give the same; a round times version 2 and right behind it version 1, as above; nanoseconds: version 2, version 1, ratio. Three more kinds of keys have many levels: paths such as `/srv/archive/hamburg-altona/2024/07/manifests/104233.csv`; 40 bytes that are the same in all keys before 8 random ones; and keys of 64 random bytes together with all keys of three bytes or more that begin them, so that from level 3 on all levels have about as many nodes, and none of them can be passed.

Build and check by key, and a walk from place 0 over all leaves by leaf, with the check.");
    print_rows(&BY_KEY, by_key);
    let many = with_commas(MAX_QUESTIONS);
    print_text(&format!("Ask, with {many} questions of one kind, by question, the check of the image included. The way of a point needs nothing from LV."));
    print_rows(&names(&[]), |list, settings| {
        ask(list, settings, MAX_QUESTIONS)
    });
    print_text(&format!(
        "Ask, with {FEW_QUESTIONS} questions, likewise: the check weighs more."
    ));
    print_rows(&names(&[]), |list, settings| {
        ask(list, settings, FEW_QUESTIONS)
    });
    print_text("One question a call over an accepted image, by call. A leaf is the one at any place: a walk from there with room for one record.");
    print_rows(&names(&["leaf"]), over_accepted);
}

/// Gives the names of the kinds of questions, and further ones.
fn names(further: &[&'static str]) -> Vec<&'static str> {
    let kinds = VERSION_KINDS.iter().map(|kind| kind.name);
    kinds.chain(further.iter().copied()).collect()
}

/// Prints a table with a row for each key set with some settings.
fn print_rows(columns: &[&str], cells: impl Fn(&List, Settings) -> Vec<String>) {
    print_head(&keys_heading(), columns);
    for key_set in KEY_SETS.iter().chain(&MANY_LEVELS) {
        let list = List::new(key_set, MAX_KEYS);
        for settings in FEW_SETTINGS {
            let name = format!("{}, {}", list.name, settings_name(settings));
            print_row(&name, cells(&list, settings));
        }
    }
}

/// Gives the levels, the image's bytes in both versions, and the times by key.
fn by_key(list: &List, settings: Settings) -> Vec<String> {
    let [version_2, version_1] = versions::image_bytes(list, settings);
    let counts = [versions::levels(list), version_2, version_1].map(with_commas);
    let times = [versions::build, versions::check, versions::walk];
    let times = times.map(|measure| cell(&measure(list, settings), 1.0));
    counts.into_iter().chain(times).collect()
}

/// Gives the times of ask with so many questions of each kind.
fn ask(list: &List, settings: Settings, count: usize) -> Vec<String> {
    let time = |kind: &Kind| cell(&versions::ask(list, settings, kind, count), 1.0);
    VERSION_KINDS.iter().map(time).collect()
}

/// Gives the times of calls over an accepted image with a question of each kind, and for a leaf.
fn over_accepted(list: &List, settings: Settings) -> Vec<String> {
    let asked = VERSION_KINDS.iter();
    let asked = asked.map(|kind| accepted::questions(list, kind));
    let calls = asked.chain([accepted::leaves(list)]);
    let time = |calls: Vec<_>| cell(&versions::over_accepted(list, settings, &calls), 1.0);
    calls.map(time).collect()
}
