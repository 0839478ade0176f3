//! `range-filter check`.

use crate::examples::{
    image_a_dense, in_version_2, with_slots, IMAGE_A, IMAGE_VAN, SLOTS_A, SLOTS_VAN,
};
use crate::program::{Folder, Outcome};

/// How the line of a refused image starts, number by number.
const FRAME_WRONG: &str = "refused with 11, FRAME_WRONG: ";
const HEADER_WRONG: &str = "refused with 12, HEADER_WRONG: ";
const SPARE_BIT_SET: &str = "refused with 13, SPARE_BIT_SET: ";
const TRIE_WRONG: &str = "refused with 14, TRIE_WRONG: ";
const TABLE_WRONG: &str = "refused with 15, TABLE_WRONG: ";
const SLOT_WRONG: &str = "refused with 16, SLOT_WRONG: ";

/// Runs the check over some bytes.
fn check(test: &str, image: &[u8]) -> Outcome {
    let folder = Folder::new(test);
    folder.write("image", image);
    folder.run(&["check", "image"])
}

/// Gives list A's image with one byte changed.
fn damaged(offset: usize, byte: u8) -> Vec<u8> {
    let mut image = IMAGE_A.to_vec();
    image[offset] = byte;
    image
}

#[test]
fn images_are_accepted_with_leaves_and_settings() {
    assert_eq!(
        check("check_a", IMAGE_A).done(),
        "accepted: 4 leaves, version 1, dense levels 0, real bits 0, hash bits 0\n"
    );
    assert_eq!(
        check("check_version_2", &in_version_2(IMAGE_A)).done(),
        "accepted: 4 leaves, version 2, dense levels 0, real bits 0, hash bits 0\n"
    );
    assert_eq!(
        check("check_dense", &image_a_dense()).done(),
        "accepted: 4 leaves, version 1, dense levels 1, real bits 0, hash bits 0\n"
    );
    assert_eq!(
        check("check_van", IMAGE_VAN).done(),
        "accepted: 4 leaves, version 1, dense levels 0, real bits 8, hash bits 0\n"
    );
}

#[test]
fn hash_bits_are_told() {
    assert_eq!(
        check("check_hash", &with_slots(0, 8, SLOTS_A)).done(),
        "accepted: 4 leaves, version 1, dense levels 0, real bits 0, hash bits 8\n"
    );
    assert_eq!(
        check("check_hash_van", &with_slots(8, 4, SLOTS_VAN)).done(),
        "accepted: 4 leaves, version 1, dense levels 0, real bits 8, hash bits 4\n"
    );
    // The slots of V, D2, D1 and D12 start at 72. Hash bits may be any, but for the exact leaf.
    let with_slot = |place: usize| {
        let mut image = with_slots(0, 8, SLOTS_A);
        image[72 + place] = 0xFF;
        image
    };
    for place in [0, 1, 3] {
        check("check_hash_open", &with_slot(place)).done();
    }
    refused("check_hash_exact", &with_slot(2), SLOT_WRONG, "anew");
}

/// Asserts that an image is refused in a line with this start, and with what stands in brackets.
fn refused(test: &str, image: &[u8], start: &str, detail: &str) {
    let outcome = check(test, image);
    assert_eq!((outcome.status, outcome.errors.as_str()), (1, ""));
    assert!(outcome.output.starts_with(start), "{}", outcome.output);
    assert!(
        outcome.output.ends_with(&format!("{detail}\n")),
        "{}",
        outcome.output
    );
    assert_eq!(outcome.output.lines().count(), 1);
}

#[test]
fn broken_frames_get_11() {
    refused(
        "check_11_none",
        b"",
        FRAME_WRONG,
        " (it has 0 bytes, and a header alone 22)",
    );
    let short = " (it has 21 bytes, and a header alone 22)";
    refused("check_11_short", &IMAGE_A[..21], FRAME_WRONG, short);
    refused(
        "check_11_head",
        &damaged(0, b'h'),
        FRAME_WRONG,
        " (it does not begin with the mark HD)",
    );
    let mark = " (the record DC is not where it belongs)";
    refused("check_11_mark", &damaged(28, b'd'), FRAME_WRONG, mark);
    let end = " (the record TS runs past the end of the file)";
    refused("check_11_end", &IMAGE_A[..109], FRAME_WRONG, end);
    refused(
        "check_11_length",
        &damaged(45, 0xFF),
        FRAME_WRONG,
        " (the record SL runs past the end of the file)",
    );
    let more = [IMAGE_A, b"ab"].concat();
    refused(
        "check_11_more",
        &more,
        FRAME_WRONG,
        " (2 bytes stand behind the last record)",
    );
}

#[test]
fn records_of_another_version_get_11() {
    let missing = " (the record LV is not where it belongs)";
    refused("check_11_version_2", &damaged(2, 2), FRAME_WRONG, missing);
    let second = in_version_2(IMAGE_A);
    let more = " (18 bytes stand behind the last record)";
    for version in [1, 3] {
        let mut image = second.clone();
        image[2] = version;
        refused("check_11_version", &image, FRAME_WRONG, more);
    }
    let end = " (the record LV runs past the end of the file)";
    refused("check_11_level_starts", &second[..127], FRAME_WRONG, end);
    let more = [&second[..], b"ab"].concat();
    let behind = " (2 bytes stand behind the last record)";
    refused("check_11_behind", &more, FRAME_WRONG, behind);
}

#[test]
fn wrong_headers_get_12_with_the_field() {
    refused(
        "check_12_version",
        &damaged(2, 3),
        HEADER_WRONG,
        " (the version is 3, and neither 1 nor 2)",
    );
    refused(
        "check_12_dense",
        &damaged(3, 5),
        HEADER_WRONG,
        " (there are 5 dense levels, over 4)",
    );
    refused(
        "check_12_n",
        &damaged(4, 17),
        HEADER_WRONG,
        " (there are 17 real bits, over 16)",
    );
    refused(
        "check_12_h",
        &damaged(5, 17),
        HEADER_WRONG,
        " (there are 17 hash bits, over 16)",
    );
    refused(
        "check_12_leaves",
        &damaged(8, 1),
        HEADER_WRONG,
        " (there are 65,540 leaves, over 65,535)",
    );
    let mut two = damaged(2, 0);
    two[5] = 255;
    let both = " (the version is 0, and neither 1 nor 2; there are 255 hash bits, over 16)";
    refused("check_12_two", &two, HEADER_WRONG, both);
    // A body that is not as long as the counts and settings give shows in no field alone.
    refused("check_12_body", &damaged(14, 7), HEADER_WRONG, "anew");
    refused("check_12_slots", &damaged(5, 9), HEADER_WRONG, "anew");
}

#[test]
fn a_refusal_is_told_with_number_name_and_sentence() {
    let outcome = check("check_line", &damaged(3, 5));
    let line = "refused with 12, HEADER_WRONG: the image's header has a wrong value, \
                or a record another length than it says: \
                copy the image again, or build it anew (there are 5 dense levels, over 4)\n";
    assert_eq!(outcome.output, line);
}

#[test]
fn wrong_bodies_get_13_to_16() {
    // SL stands at 40, SC at 52, SB at 59, RS at 90: six bytes of mark and length, then the body.
    refused("check_13", &damaged(58, 0x45), SPARE_BIT_SET, "anew");
    let mut unsorted = damaged(46, 0x56);
    unsorted[47] = 0x44;
    refused("check_14", &unsorted, TRIE_WRONG, "anew");
    refused("check_15", &damaged(96, 1), TABLE_WRONG, "anew");
    // Level 1 starts with the node at 120, which is 1.
    let mut starts = in_version_2(IMAGE_A);
    starts[120] = 2;
    refused("check_15_level_starts", &starts, TABLE_WRONG, "anew");
    // The slots of V, D2, D1 and D12 are the body of SV at 66.
    let mut image = IMAGE_VAN.to_vec();
    image[72 + 2] = 1;
    refused("check_16", &image, SLOT_WRONG, "anew");
}

#[test]
fn files_that_cannot_be_read_are_told() {
    let folder = Folder::new("check_files");
    assert!(folder
        .run(&["check", "none"])
        .failed(2)
        .starts_with("none can't be read ("));
    assert_eq!(
        folder.run(&["check", "."]).failed(2),
        ". is a folder: name a file in it"
    );
    let help = "`range-filter check --help` says what it takes";
    assert_eq!(
        folder.run(&["check"]).failed(2),
        format!("IMAGE is missing: {help}")
    );
    assert_eq!(
        folder.run(&["check", "a", "b"]).failed(2),
        format!("'b' is one argument too many: {help}")
    );
}
