//! Compares the proved library with a fast implementation without proofs, version 2 of the image
//! with version 1, and hash bits with real bits, and prints the report, or the part of it that is
//! named. The module `timing` says how times are taken.

mod accepted;
mod filter_tables;
mod hash_tables;
mod hashes;
mod markdown;
mod measure;
mod pairs;
mod tables;
mod timing;
mod version_tables;
mod versions;

use std::env;
use std::process::ExitCode;

/// A part of the report, by its name.
struct Part {
    name: &'static str,
    print: fn(),
}

/// The parts of the report.
const PARTS: [Part; 10] = [
    Part {
        name: "build",
        print: tables::print_build,
    },
    Part {
        name: "length",
        print: tables::print_length,
    },
    Part {
        name: "check",
        print: tables::print_check,
    },
    Part {
        name: "walk",
        print: tables::print_walk,
    },
    Part {
        name: "ask",
        print: tables::print_ask,
    },
    Part {
        name: "accepted",
        print: tables::print_accepted,
    },
    Part {
        name: "versions",
        print: version_tables::print_versions,
    },
    Part {
        name: "hash",
        print: hash_tables::print_hash,
    },
    Part {
        name: "growth",
        print: tables::print_growth,
    },
    Part {
        name: "filter",
        print: filter_tables::print_filter,
    },
];

/// Prints the part that the first argument names, or the whole report.
fn main() -> ExitCode {
    let Some(name) = env::args().nth(1) else {
        tables::print_introduction();
        PARTS.iter().for_each(|part| (part.print)());
        return ExitCode::SUCCESS;
    };
    let Some(part) = PARTS.iter().find(|part| part.name == name) else {
        eprintln!("the parts are {}", PARTS.map(|part| part.name).join(", "));
        return ExitCode::FAILURE;
    };
    (part.print)();
    ExitCode::SUCCESS
}
