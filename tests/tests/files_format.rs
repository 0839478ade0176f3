//! The bytes on the page docs/format.md: list A's key list, its images in both versions byte by
//! byte, the questions with their replies, and hashes, slots, points and ranges with hash bits.
//! The reference and the proved library both have to give them.

use range_filter_tests::accepted::AcceptedCalls;
use range_filter_tests::answer::Answer;
use range_filter_tests::examples::{list_a, list_van, IMAGE_A};
use range_filter_tests::generate::images::built;
use range_filter_tests::library::accept;
use range_filter_tests::reference::check::accepted_leaves;
use range_filter_tests::reference::format::{frame, SV};
use range_filter_tests::reference::{keys, print, replies};
use range_filter_tests::settings::{version_1, version_2, Settings};
use range_filter_tests::{compare, library};
use std::fs;

/// The questions on the page that have their bytes beside them.
const QUESTIONS: usize = 8;

/// The rows of the page's table of hashes, and of that of points and ranges.
const HASHES: usize = 9;
const POINTS: usize = 7;

/// Reads the page.
fn page() -> String {
    let path = concat!(env!("CARGO_MANIFEST_DIR"), "/../docs/format.md");
    fs::read_to_string(path).expect("the repository has the page")
}

/// Gives the lines of the page's first code block behind a heading.
fn block(page: &str, heading: &str) -> Vec<String> {
    let (_, behind) = page.split_once(heading).expect("the page has the heading");
    let text = behind.split("```").nth(1).expect("a code block follows");
    text.trim_matches('\n').lines().map(str::to_owned).collect()
}

/// Gives the bytes at the start of a line, up to its first word that is no byte.
fn bytes(line: &str) -> Vec<u8> {
    let byte = |word: &str| {
        let number = u8::from_str_radix(word, 16).ok();
        number.filter(|_| word.len() == 2)
    };
    line.split_whitespace().map_while(byte).collect()
}

/// Gives the cells of the page's first table behind a heading, row by row without its head.
fn table(page: &str, heading: &str) -> Vec<Vec<String>> {
    let (_, behind) = page.split_once(heading).expect("the page has the heading");
    let rows = behind.lines().skip_while(|line| !line.starts_with('|'));
    let rows = rows.take_while(|line| line.starts_with('|')).skip(2);
    let cells = |row: &str| {
        row.trim_matches('|')
            .split('|')
            .map(|cell| cell.trim().to_owned())
            .collect()
    };
    rows.map(cells).collect()
}

/// Gives the number behind a name in a text.
fn number_behind(text: &str, name: &str) -> u64 {
    let (_, behind) = text.split_once(name).expect("the text has the name");
    let digits: String = behind.chars().take_while(char::is_ascii_digit).collect();
    digits.parse().expect("a number follows the name")
}

/// Gives the image that a cell of the page describes: list A, with VAN for V where it says so.
fn described_image(cell: &str) -> Vec<u8> {
    let keys = match cell.contains("VAN for V") {
        true => list_van(),
        false => list_a(),
    };
    let [n, h] = [", n ", ", h "].map(|name| number_behind(cell, name));
    built(&keys, version_1(0, n).with_hash(h))
}

#[test]
fn key_list_is_list_a() {
    let lines = block(&page(), "### Key list\n");
    let list: Vec<u8> = lines.iter().flat_map(|line| bytes(line)).collect();
    assert_eq!(list, keys::write(&list_a()));
}

/// Gives the bytes of the page's dump behind a heading, whose first line has the offset `start`.
fn dump(heading: &str, start: usize) -> Vec<u8> {
    let mut dump = Vec::new();
    for line in block(&page(), heading) {
        let (offset, rest) = line.trim_start().split_once(' ').expect("an offset");
        assert_eq!(offset.parse(), Ok(start + dump.len()), "{line}");
        dump.extend(bytes(rest));
    }
    dump
}

/// Asserts that the library builds an image of list A.
fn assert_built(settings: Settings, expected: &[u8]) {
    let list = keys::write(&list_a());
    let mut image = vec![0; expected.len()];
    let answer = library::build(&list, settings, expected.len() as u64, &mut image);
    assert_eq!(answer, Answer::Written(expected.len()));
    assert_eq!(image, expected);
}

#[test]
fn dump_is_the_image_of_list_a() {
    let dump = dump("### List A, byte by byte\n", 0);
    assert_built(version_1(0, 0), &dump);
    assert_eq!(dump, IMAGE_A);
}

#[test]
fn version_2_has_the_dump_of_lv_more() {
    let lv = dump("### List A in version 2\n", IMAGE_A.len());
    let mut image = [IMAGE_A, &lv].concat();
    image[2] = 2;
    assert_built(version_2(0, 0), &image);
}

#[test]
fn questions_get_their_replies() {
    let page = page();
    let rows = page.lines().filter(|line| line.contains("| `51 "));
    let mut asked = 0;
    for row in rows {
        let cells: Vec<&str> = row.split('`').collect();
        let [question, reply] = [cells[1], cells[3]].map(bytes);
        let mut found = vec![0; reply.len()];
        let answer = compare::ask(library::ask, IMAGE_A, &question, reply.len());
        assert_eq!(answer, replies::ask(IMAGE_A, &question, &mut found));
        assert_eq!(found, reply, "{row}");
        asked += 1;
    }
    assert_eq!(asked, QUESTIONS);
}

#[test]
fn printed_leaves_are_those_of_list_a() {
    let lines = block(&page(), "## The leaf printer\n");
    let text = print::print(IMAGE_A);
    assert_eq!(lines, text.lines().collect::<Vec<&str>>());
}

#[test]
fn hashes_are_those_of_their_keys() {
    let rows = table(&page(), "### The hash\n");
    assert_eq!(rows.len(), HASHES);
    for row in rows {
        let key = match row[0].as_str() {
            "the empty key" => "",
            key => key,
        };
        let hash = u64::from_str_radix(&row[1], 16);
        assert_eq!(hash, Ok(library::hash(key.as_bytes())), "{row:?}");
    }
}

#[test]
fn slots_are_those_of_van() {
    let rows = table(&page(), "### The slot of a leaf\n");
    let image = built(&list_van(), version_1(0, 8).with_hash(4));
    let leaves = accepted_leaves(&image).expect("the image is accepted");
    let slots = leaves.iter().map(|leaf| {
        let bits = leaf.suffix().into_iter();
        bits.map(|bit| if bit { '1' } else { '0' })
            .collect::<String>()
    });
    let last = rows.iter().map(|row| row.last().expect("a row has cells"));
    assert!(last.eq(&slots.collect::<Vec<String>>()), "{rows:?}");
}

#[test]
fn slots_have_the_bytes_on_the_page() {
    let page = page();
    for (keys, h, n) in [(list_a(), 8, 0), (list_van(), 4, 8), (list_van(), 0, 8)] {
        let image = built(&keys, version_1(0, n).with_hash(h));
        let slots = frame(&image).expect("the image has its frame").bodies[SV];
        let bytes: Vec<String> = slots.iter().map(|byte| format!("{byte:02X}")).collect();
        assert!(
            page.contains(&format!("`{}`", bytes.join(" "))),
            "{bytes:?}"
        );
        assert!(page.contains(&format!("The image has {} bytes.", image.len())));
    }
}

#[test]
fn points_and_ranges_are_those_of_the_page() {
    let rows = table(&page(), "### Points against ranges\n");
    assert_eq!(rows.len(), POINTS);
    let mut image = Vec::new();
    for row in rows {
        if !row[1].starts_with("the same") {
            image = described_image(&row[1]);
        }
        let accepted = accept(&image).expect("the image is accepted");
        let key = row[0].as_bytes();
        let found = [
            accepted.point(key),
            accepted.rule(key),
            accepted.range(key, key),
        ];
        let expected = [2, 3, 4].map(|cell| Ok(row[cell].parse().expect("a number")));
        assert_eq!(found, expected, "{row:?}");
    }
}
