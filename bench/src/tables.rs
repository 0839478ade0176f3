//! The tables of the report, in Markdown.

use crate::accepted::{self, Call};
use crate::markdown::{number, print_head, print_heading, print_row, print_text, with_commas};
use crate::measure::{self, List};
use crate::timing::{Figures, ROUNDS};
use range_filter_bench::keys::{KeySet, BURST, KEY_SETS, RANDOM_13, STATION, STATIONS};
use range_filter_bench::questions::{Kind, KEY_KINDS, POINT, RANGE_KINDS};
use range_filter_tests::reference::keys::MAX_KEYS;
use range_filter_tests::reference::questions::MAX_QUESTIONS;
use range_filter_tests::settings::{version_1, Settings};

/// The settings that build, check and walk are measured with.
const SETTINGS: [Settings; 6] = [
    version_1(0, 0),
    version_1(0, 4),
    version_1(0, 8),
    version_1(2, 0),
    version_1(2, 4),
    version_1(2, 8),
];

/// The settings that ask, and calls over an accepted image, are measured with.
const ASK_SETTINGS: [Settings; 4] = [
    version_1(0, 0),
    version_1(0, 8),
    version_1(2, 0),
    version_1(2, 8),
];

/// The settings of the tables that show how costs grow and compare versions.
pub const FEW_SETTINGS: [Settings; 2] = [version_1(0, 0), version_1(2, 8)];

/// The key sets and the numbers of keys of the table that shows how costs grow.
const GROWING: [KeySet; 2] = [RANDOM_13, STATION];
const COUNTS: [usize; 5] = [1 << 8, 1 << 10, 1 << 12, 1 << 14, MAX_KEYS];

/// What a short, a middle and a wide range is.
const RANGES: &str = "A short range goes from a key to the same with its last byte FF, a middle one from a key to the second behind it in its list, a wide one over one hundredth of the list.";

/// A measurement by key.
type Measure = fn(&List, Settings) -> Figures;

/// The calls that are measured by key.
const CALLS: [(&str, Measure); 3] = [
    ("build", measure::build),
    ("check", measure::check),
    ("walk", measure::walk),
];

/// Prints what stands before the tables.
pub fn print_introduction() {
    let keys = with_commas(MAX_KEYS);
    println!(
        "# Benchmark

`./archives && cargo run --release --offline --manifest-path bench/Cargo.toml --target-dir target/cargo >docs/benchmark.md` writes this page. With `-- build`, `-- length`, `-- check`, `-- walk`, `-- ask`, `-- accepted`, `-- versions`, `-- hash`, `-- growth` or `-- filter` it writes that part of it.

The library is compared with a fast implementation without proofs (`bench/src/fast`), on the same input and in the same process; both are compiled for any x86-64. A round times the library and right behind it the fast implementation, by the processor time of the thread. A figure is the median of {ROUNDS} rounds, and so is a ratio, which is taken within a round. Both are called once before the first round, and buffers are not cleared between calls.

The keys come from a fixed seed, {keys} of each kind. A station key has 4 bytes of the number of one of {STATIONS} stations, 8 of the time in milliseconds, in bursts of up to {BURST} keys, and 1 of the kind, all with the high byte first. A text key is a reversed host name and a user, such as `com.example.depot12/anna.b`; some begin others. Of the 64-byte keys two each differ in the last byte alone."
    );
}

/// Prints the table of build.
pub fn print_build() {
    print_heading("Build", "Nanoseconds a key: library, fast, ratio.");
    print_calls(measure::build);
}

/// Prints the table of the call that gives the image's length.
pub fn print_length() {
    print_heading(
        "Image length",
        "The first call of build against the second, both of the library; nanoseconds a key: length, build, ratio.",
    );
    print_calls(measure::length);
}

/// Prints the table of check.
pub fn print_check() {
    print_heading("Check", "Nanoseconds a key: library, fast, ratio.");
    print_calls(measure::check);
}

/// Prints the table of walk.
pub fn print_walk() {
    print_heading(
        "Walk",
        "One call from place 0 that writes the records of all leaves, the check of the image included; nanoseconds a leaf: library, fast, ratio.",
    );
    print_calls(measure::walk);
}

/// Prints a table of the times of a call by key.
fn print_calls(measure: Measure) {
    print_by_setting(&SETTINGS, |list, settings| {
        cell(&measure(list, settings), 1.0)
    });
}

/// Prints the tables of ask.
pub fn print_ask() {
    let questions = with_commas(MAX_QUESTIONS);
    print_heading("Ask", &format!("Calls with {questions} questions of one kind, half of them about keys of the list and half of them about keys of another list made like it, the check of the image included; nanoseconds a question: library, fast, ratio. A stem is the first half of a key. The last column is a call with one question, for a point: its microseconds."));
    let ask = |list: &List, settings, kind: &Kind| {
        cell(&measure::ask(list, settings, kind, MAX_QUESTIONS), 1.0)
    };
    print_by_kind(&KEY_KINDS, &["one question"], ask, |list, settings| {
        vec![cell(&measure::ask(list, settings, &POINT, 1), 1e3)]
    });
    print_text(&format!("Ranges and counts, likewise. {RANGES}"));
    print_by_kind(&RANGE_KINDS, &[], ask, |_, _| Vec::new());
}

/// Prints the tables of calls over an accepted image.
pub fn print_accepted() {
    let calls = with_commas(accepted::CALLS);
    print_heading("One question a call, over an accepted image", &format!("Calls over an image that the check has accepted before, one question each, without a question file; the fast implementation has opened its trie before. A round makes {calls} calls, with the questions that the tables of ask have; nanoseconds a call: library, fast, ratio. The rule is the one behind a point. A leaf is the one at any place: a walk with room for one record."));
    let measure = |list: &List, settings, calls: Vec<Call>| {
        cell(&accepted::against_fast(list, settings, &calls), 1.0)
    };
    let ask = |list: &List, settings, kind: &Kind| {
        measure(list, settings, accepted::questions(list, kind))
    };
    print_by_kind(&KEY_KINDS, &["rule", "leaf"], ask, |list, settings| {
        let calls = [accepted::rules(list), accepted::leaves(list)];
        Vec::from(calls.map(|calls| measure(list, settings, calls)))
    });
    print_text(&format!("Ranges and counts, likewise. {RANGES}"));
    print_by_kind(&RANGE_KINDS, &[], ask, |_, _| Vec::new());
    print_text("A point over an accepted image beside a call of ask with one point, which checks the image, both of the library; nanoseconds: accepted, ask, and how many times as long ask takes.");
    print_by_setting(&ASK_SETTINGS, |list, settings| {
        let calls = accepted::questions(list, &POINT);
        let accepted = accepted::against_fast(list, settings, &calls).first;
        let ask = measure::ask(list, settings, &POINT, 1).first;
        [accepted, ask, ask / accepted].map(number).join(", ")
    });
}

/// Prints a table with a row for each key set with some settings, with a column for each kind
/// of questions and further ones.
fn print_by_kind(
    kinds: &[Kind],
    further: &[&str],
    cell: impl Fn(&List, Settings, &Kind) -> String,
    further_cells: impl Fn(&List, Settings) -> Vec<String>,
) {
    let names = kinds.iter().map(|kind| kind.name);
    print_head(&keys_heading(), names.chain(further.iter().copied()));
    for key_set in &KEY_SETS {
        let list = List::new(key_set, MAX_KEYS);
        for settings in ASK_SETTINGS {
            let name = format!("{}, {}", list.name, settings_name(settings));
            let cells = kinds.iter().map(|kind| cell(&list, settings, kind));
            print_row(&name, cells.chain(further_cells(&list, settings)));
        }
    }
}

/// Gives a cell with the figures of two in a unit of so many nanoseconds, and their ratio.
pub fn cell(figures: &Figures, unit: f64) -> String {
    let [first, second] = [figures.first, figures.second].map(|time| number(time / unit));
    format!("{first}, {second}, {:.2}", figures.ratio)
}

/// Prints the table of costs against the number of keys.
pub fn print_growth() {
    print_heading(
        "Cost against the number of keys",
        "Nanoseconds a key by the library, and bytes of the image a key. With dense levels a short list has many dense nodes for its keys, of 96 bytes each. Calls on shorter lists are repeated so that a round takes as many keys as one call on the longest.",
    );
    print_head("keys", COUNTS.map(with_commas));
    for key_set in &GROWING {
        let lists = COUNTS.map(|count| List::new(key_set, count));
        for settings in FEW_SETTINGS {
            let name = format!("{}, {}", key_set.name, settings_name(settings));
            let bytes = lists
                .iter()
                .map(|list| measure::image_bytes(list, settings));
            print_row(&format!("{name}: image bytes"), bytes.map(number));
            for (call, measure) in CALLS {
                let times = lists.iter().map(|list| measure(list, settings).first);
                print_row(&format!("{name}: {call}"), times.map(number));
            }
        }
    }
}

/// Prints a table with a row for each key set and a column for each of some settings.
fn print_by_setting(columns: &[Settings], cell: impl Fn(&List, Settings) -> String) {
    print_head(&keys_heading(), columns.iter().copied().map(settings_name));
    for key_set in &KEY_SETS {
        let list = List::new(key_set, MAX_KEYS);
        let cells = columns.iter().map(|&settings| cell(&list, settings));
        print_row(list.name, cells);
    }
}

/// Gives the head of the column that names key sets.
pub fn keys_heading() -> String {
    format!("{} keys", with_commas(MAX_KEYS))
}

/// Gives the name of settings, the version aside.
pub fn settings_name(settings: Settings) -> String {
    format!("dense {}, n {}", settings.dense_levels, settings.n)
}
