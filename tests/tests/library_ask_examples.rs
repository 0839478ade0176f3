//! Examples of ask from document 01 and from orders 2 and 3 of document 02, and refusals,
//! with values written by hand; the reference and the proved library both have to give them.

use range_filter_tests::answer::Answer;
use range_filter_tests::examples::{list_a, list_van, IMAGE_A, IMAGE_A_2};
use range_filter_tests::generate::images::{built, in_other_version};
use range_filter_tests::generate::keys::owned;
use range_filter_tests::generate::settings_of_version_1;
use range_filter_tests::reference::replies::NONE;
use range_filter_tests::settings::version_1;
use range_filter_tests::{compare, library};

/// Compares the replies to a question file in a buffer of some length.
fn ask(image: &[u8], file: &[u8], room: usize) -> Answer {
    compare::ask(library::ask, image, file, room)
}

/// Asserts that a question file gets just these replies over an image, and over that of the
/// other version.
fn assert_replies(image: &[u8], file: &[u8], replies: &[u8]) {
    for image in [image, &in_other_version(image)] {
        assert_eq!(ask(image, file, 100_000), Answer::Written(replies.len()));
        let mut found = vec![0; replies.len()];
        library::ask(image, file, &mut found);
        assert_eq!(found, replies, "{file:?}");
    }
}

/// Asserts the number of a question file over list A's images that is refused.
fn assert_refused(file: &[u8], number: u32) {
    for image in [IMAGE_A, IMAGE_A_2] {
        let answer = ask(image, file, 100_000);
        assert_eq!(answer, Answer::Refused(number), "{file:?}");
    }
}

/// Gives a question of one key.
fn one_key(mark: &[u8; 2], key: &[u8]) -> Vec<u8> {
    [mark, &[key.len() as u8][..], key].concat()
}

/// Gives a question of two keys.
fn two_keys(mark: &[u8; 2], lower: &[u8], upper: &[u8]) -> Vec<u8> {
    [&one_key(mark, lower)[..], &[upper.len() as u8], upper].concat()
}

/// Gives the bytes of a reply.
fn reply(letter: u8, number: u32, key: &[u8]) -> Vec<u8> {
    let head = [b'A', b'N', letter];
    [&head, &number.to_le_bytes()[..], &[key.len() as u8], key].concat()
}

/// Asserts the reply to a point question, and the rule behind it.
fn assert_point(image: &[u8], key: &[u8], number: u32, rule: u8) {
    assert_replies(image, &one_key(b"QP", key), &reply(b'P', number, &[rule]));
}

/// Asserts the reply to a count question.
fn assert_count(image: &[u8], lower: &[u8], upper: &[u8], number: u32) {
    let question = two_keys(b"QC", lower, upper);
    assert_replies(image, &question, &reply(b'C', number, b""));
}

/// Asserts the reply to a range question.
fn assert_range(image: &[u8], lower: &[u8], upper: &[u8], number: u32) {
    let question = two_keys(b"QR", lower, upper);
    assert_replies(image, &question, &reply(b'R', number, b""));
}

/// Asserts the reply to a begins-with question.
fn assert_begins(image: &[u8], stem: &[u8], number: u32) {
    assert_replies(image, &one_key(b"QB", stem), &reply(b'B', number, b""));
}

/// Asserts the reply to a seek question.
fn assert_seek(image: &[u8], start: &[u8], number: u32, key: &[u8]) {
    assert_replies(image, &one_key(b"QS", start), &reply(b'S', number, key));
}

#[test]
fn points_of_list_a() {
    for dense_levels in 0..=4 {
        let image = built(&list_a(), version_1(dense_levels, 0));
        assert_point(&image, b"D1", 1, 3);
        assert_point(&image, b"D10", 0, 1);
        assert_point(&image, b"D", 0, 2);
        assert_point(&image, b"D2x", 1, 4);
        assert_point(&image, b"", 0, 2);
        assert_point(&image, b"D1\xFF", 0, 1);
    }
}

#[test]
fn reply_to_a_point_has_nine_bytes() {
    assert_replies(IMAGE_A, b"QP\x02D1", b"ANP\x01\x00\x00\x00\x01\x03");
    assert_replies(IMAGE_A, b"QP\x03D1\xFF", b"ANP\x00\x00\x00\x00\x01\x01");
    assert_replies(IMAGE_A, b"QP\x00", b"ANP\x00\x00\x00\x00\x01\x02");
}

#[test]
fn counts_of_list_a() {
    assert_count(IMAGE_A, b"D12Z", b"D2", 2);
    assert_count(IMAGE_A, b"D11", b"D13", 1);
    assert_count(IMAGE_A, b"D2a", b"V", 2);
}

#[test]
fn seeks_of_list_a() {
    assert_seek(IMAGE_A, b"", 0, b"D1");
    assert_seek(IMAGE_A, b"D13", 2, b"D2");
    assert_seek(IMAGE_A, b"D2a", 2, b"D2a");
    assert_seek(IMAGE_A, b"W", NONE, b"");
}

#[test]
fn ranges_of_list_a() {
    assert_range(IMAGE_A, b"D10", b"D11", 0);
    assert_range(IMAGE_A, b"D10", b"D12", 1);
    assert_range(IMAGE_A, b"", b"", 0);
    assert_range(IMAGE_A, b"D2zz", b"E", 1);
    assert_range(IMAGE_A, b"D3", b"U", 0);
}

#[test]
fn begins_with_of_list_a() {
    assert_begins(IMAGE_A, b"", 1);
    assert_begins(IMAGE_A, b"D", 1);
    assert_begins(IMAGE_A, b"D1", 1);
    assert_begins(IMAGE_A, b"D10", 0);
    assert_begins(IMAGE_A, b"D1\xFF", 0);
    assert_begins(IMAGE_A, b"D12\xFF\xFF", 1);
    assert_begins(IMAGE_A, b"Vxyz", 1);
    assert_begins(IMAGE_A, b"W", 0);
}

#[test]
fn stem_s017_covers_the_key_s017_ff_01() {
    let lists = [
        owned(&[b"S017\xFF\x01", b"S017\xFF\x02"]),
        owned(&[b"S016", b"S017\xFF\x01", b"S018"]),
    ];
    for settings in settings_of_version_1() {
        for list in &lists {
            let image = built(list, settings);
            for stem in [b"S".as_slice(), b"S017", b"S017\xFF", b"S017\xFF\x01"] {
                assert_begins(&image, stem, 1);
            }
            assert_begins(&image, b"S015", 0);
            assert_begins(&image, b"T", 0);
        }
    }
}

#[test]
fn an_empty_stem_covers_every_key() {
    let image = built(&owned(&[&[0xFF; 63], &[0xFF; 64]]), version_1(0, 0));
    assert_begins(&image, b"", 1);
    assert_begins(&built(&owned(&[b"\x00"]), version_1(0, 0)), b"", 1);
    assert_begins(&built(&[], version_1(0, 0)), b"", 0);
}

#[test]
fn begins_with_a_full_stem_asks_for_the_stem_alone() {
    let stem = |last: u8| [&[b'k'; 63][..], &[last]].concat();
    let image = built(&[stem(b'k'), stem(b'l')], version_1(0, 0));
    assert_begins(&image, &stem(b'k'), 1);
    assert_begins(&image, &stem(b'j'), 0);
}

#[test]
fn begins_with_a_stem_of_63_bytes_ends_at_64() {
    let stem = [b'k'; 63];
    let key = |last: u8| [&stem[..], &[last]].concat();
    let image = built(&[key(0xFE), key(0xFF)], version_1(0, 0));
    assert_begins(&image, &stem, 1);
    assert_begins(&image, &key(0xFF), 1);
    assert_begins(&image, &key(0xFD), 0);
}

#[test]
fn begins_with_goes_on_behind_one_ff() {
    let image = built(&owned(&[b"a\xFF\xFFb", b"a\xFF\xFFc"]), version_1(0, 0));
    assert_begins(&image, b"a", 1);
    assert_begins(&image, b"a\xFF", 1);
    assert_begins(&image, b"a\xFF\xFF", 1);
    assert_begins(&image, b"a\xFF\xFFa", 0);
    assert_begins(&image, b"a\xFF\xFF\xFF", 0);
}

#[test]
fn suffix_bits_deny_a_stem() {
    let image = built(&list_van(), version_1(0, 8));
    assert_begins(&image, b"V", 1);
    assert_begins(&image, b"VA", 1);
    assert_begins(&image, b"VA\xFF", 1);
    assert_begins(&image, b"VB", 0);
    assert_begins(&image, b"V\xFF", 0);
}

#[test]
fn suffix_of_van_decides() {
    let image = built(&list_van(), version_1(0, 8));
    assert_point(&image, b"VAX", 1, 4);
    assert_point(&image, b"VB", 0, 5);
    assert_seek(&image, b"VB", NONE, b"");
    assert_seek(&image, b"V", 3, b"VA");
}

#[test]
fn suffix_of_van_is_the_rule() {
    for dense_levels in 0..=4 {
        let image = built(&list_van(), version_1(dense_levels, 8));
        assert_point(&image, b"VAX", 1, 4);
        assert_point(&image, b"VA", 1, 4);
        assert_point(&image, b"VB", 0, 5);
        assert_point(&image, b"V", 0, 5);
        assert_point(&image, b"D1", 1, 3);
        assert_point(&image, b"D1\xFF", 0, 1);
        assert_point(&image, b"W", 0, 1);
        assert_point(&image, b"", 0, 2);
    }
}

#[test]
fn points_of_ff_and_ff_ff() {
    for dense_levels in 0..=4 {
        let image = built(&owned(&[b"\xFF", b"\xFF\xFF"]), version_1(dense_levels, 0));
        assert_point(&image, b"\xFF", 1, 3);
        assert_point(&image, b"\xFF\xFF", 1, 4);
        assert_point(&image, b"\xFF\xFE", 0, 1);
        assert_point(&image, b"\xFF\xFF\xFF", 1, 4);
        assert_point(&image, b"\xFE", 0, 1);
        assert_point(&image, b"", 0, 2);
    }
}

#[test]
fn ff_behind_an_exact_leaf_is_no_branch_unless_a_key_has_it() {
    let lists: [(&[&[u8]], _); 4] = [
        (&[b"D1", b"D12"], (0, 1)),
        (&[b"D1", b"D12", b"D1\xFF"], (1, 4)),
        (&[b"D1", b"D12", b"D1\xFFa", b"D1\xFFb"], (0, 2)),
        (&[b"D1", b"D1\xFF", b"D1\xFFa"], (1, 3)),
    ];
    for settings in settings_of_version_1() {
        for (list, (number, rule)) in lists {
            let image = built(&owned(list), settings);
            assert_point(&image, b"D1\xFF", number, rule);
            assert_point(&image, b"D1\xFE", 0, 1);
            assert_point(&image, b"D1", 1, 3);
        }
    }
}

#[test]
fn past_an_exact_leaf_a_key_takes_the_branch_or_misses_it() {
    let list = owned(&[b"D1", b"D12", b"D1\xFF", b"D1\xFFa"]);
    for dense_levels in 0..=4 {
        let image = built(&list, version_1(dense_levels, 0));
        assert_point(&image, b"D12", 1, 4);
        assert_point(&image, b"D12\xFF", 1, 4);
        assert_point(&image, b"D1\xFFab", 1, 4);
        assert_point(&image, b"D11", 0, 1);
        assert_point(&image, b"D1\xFF\xFF", 0, 1);
        assert_point(&image, b"D1\xFFb", 0, 1);
    }
}

#[test]
fn points_of_the_empty_image_are_decided_by_no_nodes() {
    for settings in settings_of_version_1() {
        let image = built(&[], settings);
        for key in [b"".as_slice(), b"\x00", b"D1", b"\xFF", &[0xFF; 64]] {
            assert_point(&image, key, 0, 6);
        }
    }
}

#[test]
fn empty_image_has_no_key() {
    let image = built(&[], version_1(0, 0));
    assert_seek(&image, b"", NONE, b"");
    assert_range(&image, b"", &[0xFF; 64], 0);
    assert_count(&image, b"", &[0xFF; 64], 0);
    assert_begins(&image, b"", 0);
}

#[test]
fn empty_key_is_a_key_like_another() {
    let image = built(&owned(&[b"b\x01", b"c"]), version_1(0, 8));
    assert_point(&image, b"", 0, 2);
    assert_range(&image, b"", b"", 0);
    assert_seek(&image, b"", 0, b"b\x01");
}

#[test]
fn several_questions_have_their_replies_in_order() {
    let file = [
        one_key(b"QP", b"D1"),
        one_key(b"QS", b"D2a"),
        two_keys(b"QC", b"", b"Z"),
    ]
    .concat();
    let replies = b"ANP\x01\x00\x00\x00\x01\x03ANS\x02\x00\x00\x00\x03D2aANC\x04\x00\x00\x00\x00";
    assert_replies(IMAGE_A, &file, replies);
}

#[test]
fn empty_file_has_no_replies() {
    for image in [IMAGE_A, IMAGE_A_2] {
        assert_eq!(ask(image, b"", 0), Answer::Written(0));
        assert_eq!(ask(image, b"", 7), Answer::Written(0));
    }
}

#[test]
fn question_behind_1024_others_is_refused_with_24() {
    let question = one_key(b"QP", b"D1");
    let file = question.repeat(1_024);
    assert_replies(IMAGE_A, &file, &reply(b'P', 1, b"\x03").repeat(1_024));
    assert_refused(&[&file[..], &question].concat(), 24);
    let mut stray = [&file[..], &[0]].concat();
    assert_refused(&stray, 24);
    stray[0] = b'X';
    assert_refused(&stray, 21);
}

#[test]
fn broken_questions_are_refused_with_21() {
    let files: [&[u8]; 9] = [
        b"Q",
        b"X",
        b"QX\x00",
        b"QP",
        b"QP\x02a",
        b"QR\x01b",
        b"QR\x01",
        b"QC\x00\x01",
        b"AP\x00",
    ];
    for file in files {
        assert_refused(file, 21);
    }
}

#[test]
fn question_lengths_over_64_are_refused_with_22() {
    for file in [
        b"QR\x41".as_slice(),
        b"QR\x01b\x41",
        b"QP\x41",
        b"QS\xFF",
        b"QR\x01b\x41a",
    ] {
        assert_refused(file, 22);
    }
    assert_point(IMAGE_A, &[b'V'; 64], 1, 4);
}

#[test]
fn bounds_out_of_order_are_refused_with_23() {
    assert_refused(&two_keys(b"QR", b"b", b"a"), 23);
    assert_refused(&two_keys(b"QC", b"aa", b"a"), 23);
    assert_refused(&[&two_keys(b"QC", b"aa", b"a")[..], b"XX"].concat(), 23);
}

#[test]
fn replies_longer_than_the_buffer_are_refused_with_25() {
    let file = one_key(b"QS", b"D2a");
    let late_fault = [&file[..], b"Q"].concat();
    for image in [IMAGE_A, IMAGE_A_2] {
        assert_eq!(ask(image, &file, 11), Answer::Written(11));
        assert_eq!(ask(image, &file, 10), Answer::Refused(25));
        assert_eq!(ask(image, &late_fault, 0), Answer::Refused(21));
    }
}
