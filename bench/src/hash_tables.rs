//! The tables of hash bits, in Markdown.

use crate::accepted;
use crate::hashes::{self, hash_alone, hash_and_real};
use crate::markdown::{print_head, print_heading, print_row, print_text, with_commas};
use crate::measure::{self, Asked, List};
use crate::tables::{cell, keys_heading};
use range_filter_bench::keys::{KeySet, KEY_SETS, RANDOM_64};
use range_filter_bench::questions::POINT;
use range_filter_tests::reference::keys::MAX_KEYS;
use range_filter_tests::reference::questions::MAX_QUESTIONS;

/// The numbers of dense levels.
const LEVELS: [u64; 2] = [0, 2];

/// The columns of the table of points.
const BY_POINT: [&str; 4] = [
    "ask, stored keys",
    "ask, other keys",
    "one a call, stored keys",
    "one a call, other keys",
];

/// The columns of the table by key.
const BY_KEY: [&str; 4] = [
    "build, h 8, n 0",
    "build, h 8, n 8",
    "check, h 8, n 0",
    "check, h 8, n 8",
];

/// The columns of the table of the library against the fast implementation.
const AGAINST_FAST: [&str; 5] = ["build", "check", "walk", "ask, point", "one a call, point"];

/// Prints the tables of hash bits.
pub fn print_hash() {
    let many = with_commas(MAX_QUESTIONS);
    print_heading("Hash bits", &format!("A point that reaches an open leaf with the real bits of its key takes the hash of the whole key, and a build that of every key that is no exact leaf; other questions take none. The hash takes the bytes of a key one at a time, and each step waits for the last, so that long keys take long. One more kind of keys has 64 random bytes: they are cut behind a few of them, so that the hash weighs most there.

Points with h 8 and n 0 against points with h 0 and n 8, both of the library, on the same keys and questions and with slots of the same length; a round times h 8 and right behind it h 0; nanoseconds: h 8, h 0, ratio. By ask, {many} points in a call, the check of the image included, and by one point a call over an accepted image; about keys of the list, and about others made like them that are not in it."));
    print_rows(&BY_POINT, by_point);
    print_text("Build and check with h 8 against h 0 and n 8, both of the library, likewise; nanoseconds a key.");
    print_rows(&BY_KEY, by_key);
    print_text("The library against the fast implementation with h 8 and n 0; nanoseconds a key, leaf or point: library, fast, ratio. The points are those of the tables above, half of them about keys of the list.");
    print_rows(&AGAINST_FAST, against_fast);
    print_text("The hash alone, of all keys in the order of the list; nanoseconds a key: library, fast, ratio.");
    print_head(&keys_heading(), ["hash"]);
    for list in lists() {
        print_row(list.name, [cell(&measure::hash(&list), 1.0)]);
    }
}

/// Gives the lists that are measured, one at a time.
fn lists() -> impl Iterator<Item = List> {
    let key_sets = KEY_SETS.iter().chain([&RANDOM_64]);
    key_sets.map(|key_set: &KeySet| List::new(key_set, MAX_KEYS))
}

/// Prints a table with a row for each key set with some dense levels.
fn print_rows<const COLUMNS: usize>(
    columns: &[&str; COLUMNS],
    cells: impl Fn(&List, u64) -> [String; COLUMNS],
) {
    print_head(&keys_heading(), columns);
    for list in lists() {
        for levels in LEVELS {
            let name = format!("{}, dense {levels}", list.name);
            print_row(&name, cells(&list, levels));
        }
    }
}

/// Gives the times of points with hash bits alone against real bits alone.
fn by_point(list: &List, levels: u64) -> [String; 4] {
    let settings = hash_alone(levels);
    let [stored, missing] = [Asked::Stored, Asked::Missing];
    let figures = [
        hashes::ask(list, settings, stored),
        hashes::ask(list, settings, missing),
        hashes::over_accepted(list, settings, stored),
        hashes::over_accepted(list, settings, missing),
    ];
    figures.map(|figures| cell(&figures, 1.0))
}

/// Gives the times of build and check with hash bits against real bits alone.
fn by_key(list: &List, levels: u64) -> [String; 4] {
    let figures = [
        hashes::build(list, hash_alone(levels)),
        hashes::build(list, hash_and_real(levels)),
        hashes::check(list, hash_alone(levels)),
        hashes::check(list, hash_and_real(levels)),
    ];
    figures.map(|figures| cell(&figures, 1.0))
}

/// Gives the times of the library against the fast implementation with hash bits alone.
fn against_fast(list: &List, levels: u64) -> [String; 5] {
    let settings = hash_alone(levels);
    let points = accepted::questions(list, &POINT);
    let figures = [
        measure::build(list, settings),
        measure::check(list, settings),
        measure::walk(list, settings),
        measure::ask(list, settings, &POINT, MAX_QUESTIONS),
        accepted::against_fast(list, settings, &points),
    ];
    figures.map(|figures| cell(&figures, 1.0))
}
