//! The leaf printer's program against the reference's text, on generated images, on
//! changed ones, and on inputs at and over the longest that it takes.

use range_filter_tests::examples::{list_a, list_van, IMAGE_A, IMAGE_A_2};
use range_filter_tests::generate::images::{any_image, built, small_frame, Change, CHANGES};
use range_filter_tests::generate::keys::{any_keys, many_mixed_keys, owned};
use range_filter_tests::generate::{every_setting, every_setting_of_version_1, in_both_versions};
use range_filter_tests::printer;
use range_filter_tests::random::Random;
use range_filter_tests::reference::check::check;
use range_filter_tests::reference::print::{print, MAX_INPUT};
use range_filter_tests::settings::{version_1, version_2, Settings};
use range_filter_tests::tally::Tally;

const IMAGES: usize = 400;
const CHANGES_A_KIND: usize = 15_000;
const PRINTED_A_NUMBER: usize = 160;
const SMALL_FRAMES: usize = 1_000;

/// Asserts that the program prints the reference's text, and gives the text.
fn compare(input: &[u8]) -> String {
    let text = print(input);
    assert!(printer::print(input) == text, "{input:?}");
    text
}

/// Gives the image of as many keys of a list as the printer takes, and the image of one key
/// more, which is too long.
fn images_at_the_limit(keys: &[Vec<u8>], settings: Settings) -> [Vec<u8>; 2] {
    let image = |count: usize| built(&keys[..count], settings);
    let counts: Vec<usize> = (0..=keys.len()).collect();
    let too_many = counts.partition_point(|&count| image(count).len() <= MAX_INPUT);
    assert!(
        too_many <= keys.len(),
        "the keys have an image that is too long"
    );
    [image(too_many - 1), image(too_many)]
}

/// Prints images that are changed in a way, the first ones of each number, since the program
/// takes long to start; all numbers that belong to the way have to come, and no others.
fn print_changed_images(change: &Change) {
    let mut printed = Tally::default();
    let tally = Tally::of(82, CHANGES_A_KIND, |random| {
        let image = any_image(random);
        let changed = (change.apply)(random, &image);
        let number = check(&changed);
        if printed.times(number) < PRINTED_A_NUMBER {
            compare(&changed);
            printed.note(number);
        }
        number
    });
    assert_eq!(tally.numbers(), change.numbers, "{}", change.name);
}

#[test]
fn list_a_is_printed() {
    let text = "leaves 4\n0 E 4431 -\n1 O 443132 -\n2 O 4432 -\n3 O 56 -\n";
    assert_eq!(compare(IMAGE_A), text);
    assert_eq!(compare(IMAGE_A_2), text);
}

#[test]
fn suffix_bits_are_printed_first_bit_first() {
    let lines = "0 E 4431 -\n1 O 443132 00000000\n2 O 4432 00000000\n3 O 56 01000001\n";
    let text = format!("leaves 4\n{lines}");
    assert_eq!(compare(&built(&list_van(), version_1(0, 8))), text);
}

#[test]
fn whole_slots_are_printed_hash_bits_first() {
    for (h, n, d12, d2, v) in [
        (0, 0, "-", "-", "-"),
        (1, 0, "0", "1", "0"),
        (0, 3, "000", "000", "010"),
        (4, 8, "001100000000", "110000000000", "010001000001"),
        (
            16,
            0,
            "0011101010111110",
            "1100101010100011",
            "0100001001010101",
        ),
    ] {
        let lines = format!("0 E 4431 -\n1 O 443132 {d12}\n2 O 4432 {d2}\n3 O 56 {v}\n");
        for settings in in_both_versions(version_1(1, n).with_hash(h)) {
            let text = compare(&built(&list_van(), settings));
            assert_eq!(text, format!("leaves 4\n{lines}"));
        }
    }
}

#[test]
fn widest_slots_are_printed() {
    let bits = "01000010010101010100000101001110";
    let image = built(&owned(&[b"VAN"]), version_1(0, 16).with_hash(16));
    assert_eq!(compare(&image), format!("leaves 1\n0 O 56 {bits}\n"));
}

#[test]
fn an_extra_ff_is_printed_as_an_exact_leaf() {
    let text = "leaves 1\n0 O FF -\n";
    assert_eq!(compare(&built(&owned(&[b"\xFF"]), version_1(0, 0))), text);
    let text = "leaves 2\n0 E FF -\n1 O FFFF -\n";
    assert_eq!(
        compare(&built(&owned(&[b"\xFF", b"\xFF\xFF"]), version_1(0, 0))),
        text
    );
}

#[test]
fn the_empty_input_is_refused() {
    assert_eq!(compare(b""), "refused 11\n");
}

#[test]
fn empty_images_are_printed() {
    for settings in every_setting() {
        assert_eq!(compare(&built(&[], settings)), "leaves 0\n");
    }
}

#[test]
fn list_a_is_printed_at_every_setting() {
    for settings in every_setting() {
        compare(&built(&list_a(), settings));
    }
}

#[test]
fn both_versions_are_printed_alike() {
    let mut random = Random::new(87);
    for settings in every_setting_of_version_1() {
        let keys = any_keys(&mut random);
        let images = in_both_versions(settings).map(|settings| built(&keys, settings));
        let [one, two] = images.map(|image| printer::print(&image));
        assert_eq!(one.lines().count(), 1 + keys.len());
        assert_eq!(one, two);
    }
}

#[test]
fn random_images_are_printed() {
    let tally = Tally::of(81, IMAGES, |random| {
        let image = any_image(random);
        compare(&image);
        check(&image)
    });
    assert_eq!(tally.numbers(), [0]);
}

#[test]
fn changed_images_are_printed_or_refused() {
    for change in &CHANGES {
        print_changed_images(change);
    }
}

#[test]
fn small_frames_are_printed_or_refused() {
    let tally = Tally::of(83, SMALL_FRAMES, |random| {
        let image = small_frame(random);
        compare(&image);
        check(&image)
    });
    assert!(tally.times(0) > 0 && tally.times(14) > 0, "{tally:?}");
}

#[test]
fn shortened_images_are_refused() {
    for length in 0..IMAGE_A.len() {
        assert_eq!(compare(&IMAGE_A[..length]), "refused 11\n");
    }
    for length in IMAGE_A.len()..IMAGE_A_2.len() {
        assert_eq!(compare(&IMAGE_A_2[..length]), "refused 11\n");
    }
}

#[test]
fn images_at_the_limit_are_printed_and_longer_ones_are_too_long() {
    let mut random = Random::new(85);
    for (settings, length, count) in [
        (version_1(0, 0), 3, 40_000),
        (version_2(1, 16).with_hash(16), 5, 20_000),
        (version_1(4, 7).with_hash(3), 8, 2_000),
        (version_2(0, 9), 64, 4_000),
    ] {
        let keys = many_mixed_keys(&mut random, count, length);
        let [taken, too_long] = images_at_the_limit(&keys, settings);
        assert!(compare(&taken).starts_with("leaves "));
        assert_eq!(check(&too_long), 0);
        assert_eq!(compare(&too_long), "too long\n");
    }
}

#[test]
fn inputs_over_65536_bytes_are_too_long() {
    let mut random = Random::new(84);
    for length in [MAX_INPUT + 1, MAX_INPUT + 2, 2 * MAX_INPUT, 1 << 20] {
        let mut input = IMAGE_A.to_vec();
        input.resize(length, 0);
        assert_eq!(compare(&input), "too long\n");
        assert_eq!(compare(&random.bytes(length, length)), "too long\n");
    }
    assert_eq!(compare(&[0; MAX_INPUT]), "refused 11\n");
}

#[test]
fn inputs_that_come_in_pieces_are_read_whole() {
    let mut random = Random::new(86);
    let keys = many_mixed_keys(&mut random, 20_000, 5);
    let [longest, too_long] = images_at_the_limit(&keys, version_2(0, 9));
    let inputs = [IMAGE_A.to_vec(), any_image(&mut random), longest, too_long];
    for input in &inputs {
        for piece in [input.len() / 300 + 1, input.len() / 2 + 1, input.len() - 1] {
            let text = printer::print_in_pieces(input, piece);
            assert!(text == print(input), "{piece} bytes a piece");
        }
    }
}
