//! The stored files that the printer's programs run on: each image is the one that its
//! name says, and each expected output is the reference's text.

use range_filter_tests::examples::{list_a, list_van};
use range_filter_tests::generate::images::built;
use range_filter_tests::reference::check::check;
use range_filter_tests::reference::print::{print, MAX_INPUT};
use range_filter_tests::settings::version_1;
use std::collections::BTreeSet;
use std::fs;
use std::path::PathBuf;

/// The files that the program print_cases prints, in its order.
const CASES: [&str; 15] = [
    "empty_list",
    "dense_levels",
    "suffixes",
    "hash_bits",
    "hash_and_real_bits",
    "pages",
    "empty_file",
    "bytes_left_over",
    "wrong_version",
    "spare_bit",
    "labels_not_ascending",
    "wrong_rank",
    "exact_slot",
    "longest_input",
    "too_long",
];

/// Gives the path of a file or folder of a crate.
fn path(below: &str) -> PathBuf {
    let crates = PathBuf::from(env!("CARGO_MANIFEST_DIR")).join("../crates");
    crates.join(below)
}

/// Reads a file of a crate.
fn file(below: &str) -> Vec<u8> {
    fs::read(path(below)).expect("the crate has the file")
}

/// Reads a file that print_cases prints.
fn case(name: &str) -> Vec<u8> {
    file(&format!("print_cases/data/{name}"))
}

#[test]
fn every_stored_file_is_a_case() {
    let stored = fs::read_dir(path("print_cases/data")).expect("the crate has the folder");
    let name = |file: fs::DirEntry| file.file_name().into_string().expect("a name in ASCII");
    let names = stored.map(|file| name(file.expect("the folder can be read")));
    let cases: BTreeSet<String> = CASES.map(str::to_owned).into();
    assert_eq!(names.collect::<BTreeSet<String>>(), cases);
}

#[test]
fn images_are_built_from_their_lists() {
    let long_keys: Vec<Vec<u8>> = (0..128)
        .map(|last| [&[b'k'; 63][..], &[last]].concat())
        .collect();
    assert_eq!(
        file("print_leaves/stdin"),
        built(&list_a(), version_1(0, 0))
    );
    assert_eq!(case("empty_list"), built(&[], version_1(0, 0)));
    assert_eq!(case("dense_levels"), built(&list_a(), version_1(3, 0)));
    assert_eq!(case("suffixes"), built(&list_van(), version_1(0, 8)));
    let hashed = version_1(0, 0).with_hash(8);
    assert_eq!(case("hash_bits"), built(&list_a(), hashed));
    let widest = version_1(0, 16).with_hash(16);
    assert_eq!(case("hash_and_real_bits"), built(&list_van(), widest));
    assert_eq!(case("pages"), built(&long_keys, version_1(4, 16)));
}

#[test]
fn refused_images_have_each_number_of_the_check() {
    let refused = [
        ("empty_file", 11),
        ("bytes_left_over", 11),
        ("wrong_version", 12),
        ("spare_bit", 13),
        ("labels_not_ascending", 14),
        ("wrong_rank", 15),
        ("exact_slot", 16),
    ];
    for (name, number) in refused {
        assert_eq!(check(&case(name)), number, "{name}");
    }
}

#[test]
fn lengths_stand_at_the_limit() {
    assert_eq!(case("longest_input").len(), MAX_INPUT);
    assert_eq!(case("too_long").len(), MAX_INPUT + 1);
}

#[test]
fn expected_outputs_are_the_reference_texts() {
    let expected = print(&file("print_leaves/stdin"));
    assert_eq!(file("print_leaves/stdout"), expected.into_bytes());
    let texts = CASES.map(|name| format!("{name}\n{}", print(&case(name))));
    assert_eq!(file("print_cases/stdout"), texts.concat().into_bytes());
}
