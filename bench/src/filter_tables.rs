//! The table of an image's bits and false positives by settings, in Markdown.

use crate::markdown::{print_head, print_heading, print_row};
use crate::measure::{self, List};
use crate::tables::keys_heading;
use range_filter_bench::keys::{KeySet, RANDOM_8, STATION, TEXT};
use range_filter_bench::questions::{Kind, POINT, SHORT_RANGE};
use range_filter_bench::rates::Rate;
use range_filter_tests::reference::keys::MAX_KEYS;
use range_filter_tests::settings::version_1;

/// The key sets of the table.
const CHOICE: [KeySet; 3] = [RANDOM_8, STATION, TEXT];

/// The numbers of hash bits and of real bits, each with each, and the numbers of dense levels.
const WIDTHS: [u64; 4] = [0, 4, 8, 16];
const LEVELS: [u64; 2] = [0, 2];

/// Prints the table that helps to choose dense levels, real bits and hash bits.
pub fn print_filter() {
    print_heading(
        "Choosing dense levels, n and h",
        "Bits of the image a key at n 0, to which each real bit adds one; and by n how often a question for which the list has no key is answered with 1 (a false positive), in percent, where 0 is none at all and 0.002 is one question. The questions are about the keys of another list made like it; those for which the list has a key are left out. A short range goes from a key to the same with its last byte FF; at every h it gets the same answers. The number of dense levels changes no answer. Nothing is timed, so that every run gives these figures.",
    );
    let bits = LEVELS.map(|levels| format!("bits a key, dense {levels}"));
    let rates = WIDTHS.map(|n| format!("n {n}, %"));
    let rows = format!("{}, question", keys_heading());
    print_head(&rows, bits.into_iter().chain(rates));
    for key_set in &CHOICE {
        print_list(&List::new(key_set, MAX_KEYS));
    }
}

/// Prints the rows of a list: points with each number of hash bits, and ranges, on which hash
/// bits have no bearing.
fn print_list(list: &List) {
    for h in WIDTHS {
        let rates = cells(rates(list, h, &POINT));
        let name = format!("{}, point, h {h}", list.name);
        print_row(&name, bits(list, h).into_iter().chain(rates));
    }
    let [ranges, others @ ..] = WIDTHS.map(|h| rates(list, h, &SHORT_RANGE));
    assert_eq!(others, [ranges; WIDTHS.len() - 1]);
    let name = format!("{}, short range, any h", list.name);
    let no_bits = LEVELS.map(|_| String::new());
    print_row(&name, no_bits.into_iter().chain(cells(ranges)));
}

/// Gives the bits of a list's image a key without real bits, by dense levels. Each real bit has
/// to add one.
fn bits(list: &List, h: u64) -> [String; LEVELS.len()] {
    LEVELS.map(|levels| {
        let bits = |n| 8.0 * measure::image_bytes(list, version_1(levels, n).with_hash(h));
        for n in WIDTHS {
            assert!((bits(n) - bits(0) - n as f64).abs() < 0.01);
        }
        format!("{:.1}", bits(0))
    })
}

/// Gives the rates of false positives of a list's image with some hash bits, by real bits.
fn rates(list: &List, h: u64, kind: &Kind) -> [Rate; WIDTHS.len()] {
    WIDTHS.map(|n| measure::rate(list, version_1(LEVELS[0], n).with_hash(h), kind))
}

/// Gives a cell for each rate, in percent: with three places behind the point below 1, and
/// with two from there on.
fn cells(rates: [Rate; WIDTHS.len()]) -> [String; WIDTHS.len()] {
    rates.map(|rate| match rate.percent() {
        0.0 => "0".to_string(),
        percent if percent < 0.9995 => format!("{percent:.3}"),
        percent => format!("{percent:.2}"),
    })
}
