//! `range-filter leaves`.

use crate::examples::{in_version_2, with_slots, IMAGE_A, IMAGE_VAN, SLOTS_A, SLOTS_VAN};
use crate::program::Folder;

/// Runs the subcommand over list A's image.
fn leaves(test: &str, options: &[&str]) -> String {
    let folder = Folder::new(test);
    folder.write("image", IMAGE_A);
    let arguments = [&["leaves", "image"], options].concat();
    folder.run(&arguments).done()
}

#[test]
fn list_a_has_document_01s_lines() {
    let expected = "leaves 4\n0 E 4431 -\n1 O 443132 -\n2 O 4432 -\n3 O 56 -\n";
    assert_eq!(leaves("leaves_a", &[]), expected);
    let folder = Folder::new("leaves_version_2");
    folder.write("image", in_version_2(IMAGE_A));
    assert_eq!(folder.run(&["leaves", "image"]).done(), expected);
}

#[test]
fn real_bits_stand_behind_open_leaves() {
    let folder = Folder::new("leaves_van");
    folder.write("image", IMAGE_VAN);
    let expected =
        "leaves 4\n0 E 4431 -\n1 O 443132 00000000\n2 O 4432 00000000\n3 O 56 01000001\n";
    assert_eq!(folder.run(&["leaves", "image"]).done(), expected);
}

#[test]
fn hash_bits_stand_before_real_bits() {
    let folder = Folder::new("leaves_hash");
    folder.write("image", with_slots(0, 8, SLOTS_A));
    let expected =
        "leaves 4\n0 E 4431 -\n1 O 443132 00111010\n2 O 4432 11001010\n3 O 56 10010110\n";
    assert_eq!(folder.run(&["leaves", "image"]).done(), expected);
    folder.write("image", with_slots(8, 4, SLOTS_VAN));
    let expected = "leaves 4\n0 E 4431 -\n1 O 443132 001100000000\n\
                    2 O 4432 110000000000\n3 O 56 010001000001\n";
    assert_eq!(folder.run(&["leaves", "image"]).done(), expected);
}

#[test]
fn from_and_limit_take_a_part() {
    assert_eq!(
        leaves("leaves_from", &["--from", "2"]),
        "leaves 4\n2 O 4432 -\n3 O 56 -\n"
    );
    assert_eq!(
        leaves("leaves_limit", &["--limit=1"]),
        "leaves 4\n0 E 4431 -\n"
    );
    let both = leaves("leaves_both", &["--limit", "1", "--from", "1"]);
    assert_eq!(both, "leaves 4\n1 O 443132 -\n");
    assert_eq!(leaves("leaves_done", &["--from", "4"]), "leaves 4\n");
    assert_eq!(leaves("leaves_none", &["--limit", "0"]), "leaves 4\n");
}

#[test]
fn a_place_behind_the_end_is_refused() {
    let folder = Folder::new("leaves_place");
    folder.write("image", IMAGE_A);
    let sentence = folder.run(&["leaves", "image", "--from", "5"]).failed(1);
    assert_eq!(sentence, "there is no place 5: take one from 0 to 4");
}

#[test]
fn an_empty_image_has_one_line() {
    let folder = Folder::new("leaves_empty");
    folder.build("image", "", &[]);
    assert_eq!(folder.run(&["leaves", "image"]).done(), "leaves 0\n");
}
