//! `range-filter build`.

use std::fs;
use std::os::unix::fs::symlink;

use crate::examples::{image_a_dense, in_version_2, with_slots, SLOTS_A, SLOTS_VAN};
use crate::examples::{IMAGE_A, IMAGE_VAN, LIST_A, LIST_VAN};
use crate::program::{many_keys, Folder};

/// Builds an image from a file of keys and gives its bytes.
fn image(test: &str, keys: impl AsRef<[u8]>, options: &[&str]) -> Vec<u8> {
    let folder = Folder::new(test);
    folder.write("keys", keys);
    let arguments = [&["build", "keys", "-o", "image"], options].concat();
    folder.run(&arguments).done();
    assert_eq!(folder.names(), ["image", "keys"]);
    folder.read("image")
}

/// Gives the body of a record of an image.
fn body<'a>(image: &'a [u8], mark: &str) -> &'a [u8] {
    let mut rest = &image[22..];
    while rest[..2] != *mark.as_bytes() {
        rest = &rest[6 + length(rest)..];
    }
    &rest[6..6 + length(rest)]
}

/// Gives the length of the body of the record at the start of some bytes.
fn length(record: &[u8]) -> usize {
    u32::from_le_bytes(record[2..6].try_into().unwrap()) as usize
}

#[test]
fn list_a_has_110_bytes() {
    assert_eq!(image("build_a", LIST_A, &[]), IMAGE_A);
    assert_eq!(IMAGE_A.len(), 110);
}

#[test]
fn a_line_says_what_is_written() {
    let folder = Folder::new("build_says");
    folder.write("keys", LIST_A);
    let output = folder.run(&["build", "keys", "-o", "a.image"]).done();
    assert_eq!(output, "a.image: 4 keys, 110 bytes\n");
}

#[test]
fn settings_come_from_options() {
    assert_eq!(
        image("build_dense", LIST_A, &["--dense", "1"]),
        image_a_dense()
    );
    assert_eq!(image("build_n", LIST_VAN, &["--real-bits=8"]), IMAGE_VAN);
    let both = image(
        "build_both",
        LIST_VAN,
        &["--dense", "4", "--real-bits", "16"],
    );
    assert_eq!(both[3..5], [4, 16]);
}

#[test]
fn hash_bits_come_from_an_option() {
    let none = ["--hash-bits", "0"];
    assert_eq!(image("build_h_0", LIST_A, &none), IMAGE_A);
    let alone = image("build_h", LIST_A, &["--hash-bits=8"]);
    assert_eq!(alone, with_slots(0, 8, SLOTS_A));
    let both = ["--hash-bits", "4", "--real-bits", "8"];
    let second = ["--image-version", "2", "--hash-bits", "4", "--real-bits=8"];
    let expected = with_slots(8, 4, SLOTS_VAN);
    assert_eq!(image("build_h_n", LIST_VAN, &both), expected);
    assert_eq!(
        image("build_h_n_version_2", LIST_VAN, &second),
        in_version_2(&expected)
    );
}

#[test]
fn the_version_comes_from_an_option() {
    let first = ["--image-version", "1"];
    assert_eq!(image("build_version_1", LIST_A, &first), IMAGE_A);
    let second = image("build_version_2", LIST_A, &["--image-version=2"]);
    assert_eq!(second, in_version_2(IMAGE_A));
    assert_eq!(second.len(), 128);
    let dense = ["--dense", "1", "--image-version", "2"];
    assert_eq!(
        image("build_version_2_dense", LIST_A, &dense),
        in_version_2(&image_a_dense())
    );
    let real_bits = ["--image-version", "2", "--real-bits", "8"];
    assert_eq!(
        image("build_version_2_n", LIST_VAN, &real_bits),
        in_version_2(IMAGE_VAN)
    );
}

#[test]
fn an_empty_file_gives_the_empty_image() {
    assert_eq!(image("build_empty", "", &[]).len(), 94);
    let second = image("build_empty_version_2", "", &["--image-version", "2"]);
    assert_eq!(second.len(), 100);
}

#[test]
fn escapes_stand_for_bytes() {
    assert_eq!(body(&image("build_ff", "\\xFF\n", &[]), "SL"), [0xFF]);
    let two = image("build_ff_ff", "\\xff\n\\xFF\\xfF\n", &[]);
    assert_eq!(body(&two, "SL"), [0xFF, 0xFF, 0xFF]);
    assert_eq!(body(&two, "SC"), [0x01]);
    assert_eq!(body(&two, "SB"), [0x03]);
    let three = image("build_escapes", "\\x00\n\\x0A\n\\\\\n", &[]);
    assert_eq!(body(&three, "SL"), [0x00, 0x0A, b'\\']);
}

#[test]
fn other_bytes_stand_for_themselves() {
    let keys = image("build_raw", b"a b\nb\tc\n\"\"\nx=y\n\xFF\n", &["--sort"]);
    assert_eq!(body(&keys, "SL"), *b"\"abx\xFF");
}

#[test]
fn the_last_line_feed_may_be_missing() {
    assert_eq!(image("build_no_line_feed", "D1\nD12\nD2\nV", &[]), IMAGE_A);
}

#[test]
fn sort_orders_keys_and_drops_doubles() {
    let keys = "V\nD2\nD1\nV\nD12\nD1\nD2\n";
    assert_eq!(image("build_sort", keys, &["--sort"]), IMAGE_A);
}

#[test]
fn keys_come_from_standard_input() {
    for (sort, keys) in [(&[][..], LIST_A), (&["--sort"][..], "V\nD2\nD12\nD1\n")] {
        let folder = Folder::new("build_input");
        let arguments = [&["build", "-", "-o", "image"], sort].concat();
        folder.run_with_input(&arguments, keys.as_bytes()).done();
        assert_eq!(folder.read("image"), IMAGE_A);
    }
}

#[test]
fn a_key_has_at_most_64_bytes() {
    let longest = "\\x41".repeat(64);
    assert_eq!(body(&image("build_64", longest, &[]), "SL"), *b"A");
}

#[test]
fn most_keys_are_taken() {
    let most = image("build_most", many_keys(65_535), &[]);
    assert_eq!(most[6..10], [0xFF, 0xFF, 0, 0]);
    let sorted = many_keys(65_535) + "key000000\nkey065534\n";
    assert_eq!(image("build_most_sorted", sorted, &["--sort"]), most);
}

/// Asserts that keys are refused with a sentence, and that an image from before stays as it is.
fn refuses(test: &str, keys: impl AsRef<[u8]>, options: &[&str], sentence: &str) {
    let folder = Folder::new(test);
    folder.write("keys", keys);
    let arguments = [&["build", "keys", "-o", "image"], options].concat();
    assert_eq!(folder.run(&arguments).failed(1), sentence);
    assert_eq!(folder.names(), ["keys"], "nothing is written");
    folder.write("image", "the image from before");
    folder.run(&arguments).failed(1);
    assert_eq!(folder.read("image"), b"the image from before");
    assert_eq!(folder.names(), ["image", "keys"]);
}

#[test]
fn unsorted_keys_are_refused() {
    let sentence = "keys, line 3: the key D12 is below D2, the key before it: \
                    sort the keys, or give --sort";
    refuses("build_unsorted", "D1\nD2\nD12\nV\n", &[], sentence);
    let sentence = "keys, line 2: the key a\\x20b is there twice: \
                    remove one, or give --sort";
    refuses("build_double", "a b\na b\n", &[], sentence);
}

#[test]
fn empty_lines_are_refused() {
    let sentence = "keys, line 2: the line is empty, and the empty key can't be stored: \
                    remove it";
    refuses("build_empty_line", "D1\n\nD2\n", &[], sentence);
    refuses("build_empty_sort", "D1\n\nD2\n", &["--sort"], sentence);
}

#[test]
fn bad_escapes_are_refused() {
    let bad = [
        ("D\\n", 2),
        ("\\x4", 1),
        ("\\xG0", 1),
        ("AB\\", 3),
        ("\\\\\\X41", 3),
    ];
    for (key, column) in bad {
        let sentence = format!(
            "keys, line 2: the backslash in column {column} of the key starts no escape: \
             write \\\\ for a backslash, or \\x and two hexadecimal digits for another byte"
        );
        refuses("build_bad_escape", format!("\x01\n{key}\n"), &[], &sentence);
    }
}

#[test]
fn long_keys_are_refused() {
    let sentence = "keys, line 1: the key has 65 bytes, and the longest has 64: shorten it";
    refuses("build_65", "A".repeat(65), &[], sentence);
    refuses(
        "build_65_escapes",
        "\\x41".repeat(65),
        &["--sort"],
        sentence,
    );
}

#[test]
fn carriage_returns_are_refused() {
    let sentence = "keys, line 1: a carriage return stands before the line feed: \
                    remove it, or write \\x0D if it belongs to the key";
    refuses("build_carriage_return", "D1\r\nD12\r\n", &[], sentence);
}

#[test]
fn too_many_keys_are_refused() {
    let sentence = "keys, line 65536: there are over 65,535 keys: \
                    share them out among several images";
    refuses("build_too_many", many_keys(65_536), &[], sentence);
    refuses(
        "build_too_many_sort",
        many_keys(65_536),
        &["--sort"],
        sentence,
    );
}

/// Asserts that arguments are refused with a sentence and that nothing is written.
fn refuses_arguments(test: &str, arguments: &[&str], sentence: &str) {
    let folder = Folder::new(test);
    folder.write("keys", LIST_A);
    let arguments = [&["build"], arguments].concat();
    assert_eq!(folder.run(&arguments).failed(2), sentence);
    assert_eq!(folder.names(), ["keys"]);
}

#[test]
fn wrong_arguments_are_refused() {
    let wrong: [(&[&str], &str); 7] = [
        (&["-o", "image"], "KEYS is missing"),
        (&["keys", "-o"], "-o has no value behind it"),
        (
            &["keys", "-o", "image", "more"],
            "'more' is one argument too many",
        ),
        (&["keys", "-o", "image", "-o", "image"], "-o is there twice"),
        (
            &["keys", "-o", "image", "--hash"],
            "there is no option --hash",
        ),
        (
            &["keys", "-o", "image", "--suffix-bits=8"],
            "there is no option --suffix-bits=8",
        ),
        (
            &["keys", "-o", "image", "--sort=yes"],
            "there is no option --sort=yes",
        ),
    ];
    for (arguments, why) in wrong {
        let sentence = format!("{why}: `range-filter build --help` says what it takes");
        refuses_arguments("build_arguments", arguments, &sentence);
    }
    let sentence = "-o IMAGE is missing: name the file to write";
    refuses_arguments("build_no_output", &["keys"], sentence);
}

#[test]
fn settings_out_of_range_are_refused() {
    let sentence = "--dense takes a whole number from 0 to 4, and not '5'";
    let arguments = ["keys", "-o", "image", "--dense", "5"];
    refuses_arguments("build_dense_5", &arguments, sentence);
    let sentence = "--real-bits takes a whole number from 0 to 16, and not '-1'";
    let arguments = ["keys", "-o", "image", "--real-bits", "-1"];
    refuses_arguments("build_n_minus_1", &arguments, sentence);
    let sentence = "--real-bits takes a whole number from 0 to 16, and not '17'";
    let arguments = ["keys", "-o", "image", "--real-bits=17"];
    refuses_arguments("build_n_17", &arguments, sentence);
    let sentence = "--hash-bits takes a whole number from 0 to 16, and not '17'";
    let arguments = ["keys", "-o", "image", "--hash-bits", "17"];
    refuses_arguments("build_h_17", &arguments, sentence);
    for version in ["0", "3", "258", "two", ""] {
        let sentence =
            format!("--image-version takes a whole number from 1 to 2, and not '{version}'");
        let arguments = ["keys", "-o", "image", "--image-version", version];
        refuses_arguments("build_version", &arguments, &sentence);
    }
}

#[test]
fn files_that_cannot_be_used_are_told() {
    let folder = Folder::new("build_files");
    folder.write("keys", LIST_A);
    fs::create_dir(folder.path("folder")).unwrap();
    let told = |keys: &str, image: &str| folder.run(&["build", keys, "-o", image]).failed(2);
    assert!(told("none", "image").starts_with("none can't be read ("));
    assert!(told("keys", "none/image").starts_with("none/image can't be written ("));
    assert!(told("keys", "").starts_with(" can't be written ("));
    assert_eq!(
        told("folder", "image"),
        "folder is a folder: name a file in it"
    );
    assert_eq!(
        told("keys", "folder"),
        "folder is not a plain file: name another output"
    );
    assert_eq!(
        told("keys", "./keys"),
        "the image would take the place of the keys: name another output"
    );
    assert_eq!(folder.names(), ["folder", "keys"]);
    assert_eq!(folder.read("keys"), LIST_A.as_bytes());
}

#[test]
fn an_old_image_is_replaced_also_behind_a_link() {
    let folder = Folder::new("build_replaces");
    folder.write("image", "the image from before");
    symlink("image", folder.path("link")).unwrap();
    folder.build("link", LIST_A, &[]);
    assert_eq!(folder.read("image"), IMAGE_A);
    assert!(folder.path("link").is_symlink());
    assert_eq!(folder.names(), ["image", "keys", "link"]);
}

#[test]
fn names_may_begin_with_a_hyphen() {
    let folder = Folder::new("build_hyphen");
    folder.write("-keys", LIST_A);
    folder.run(&["build", "-o", "-image", "--", "-keys"]).done();
    assert_eq!(folder.read("-image"), IMAGE_A);
}
