//! Each refusal that the package can give, and the table of all.

use crate::shared::{
    body_at, image, image_a_version_2, image_with, settings, A, IMAGE_A, LEVEL_STARTS_A, NO_KEYS,
    VAN,
};
use range_filter::{
    ask, build, build_from_list, check, image_length, write_questions, Filter, Question, Refusal,
};
use std::collections::HashSet;

/// Says how a build of keys is refused.
fn built<K: AsRef<[u8]>>(keys: &[K]) -> Option<Refusal> {
    build(keys, settings(0, 0)).err()
}

/// Asserts that check and open refuse an image alike.
fn assert_refused(image: &[u8], refusal: Refusal) {
    assert_eq!(check(image), Err(refusal));
    assert_eq!(Filter::open(image).err(), Some(refusal));
    assert_eq!(ask(image, b""), Err(refusal));
}

/// Gives two keys of 64 bytes that differ in the last one, so that none is cut.
fn longest_keys() -> [[u8; 64]; 2] {
    let mut keys = [[b'k'; 64]; 2];
    keys[1][63] = b'l';
    keys
}

/// Gives an image with another byte at a place of a record's body.
fn changed(image: &[u8], mark: &[u8; 2], place: usize, byte: u8) -> Vec<u8> {
    let mut image = image.to_vec();
    let at = body_at(&image, mark) + place;
    assert_ne!(image[at], byte, "the byte is another");
    image[at] = byte;
    image
}

#[test]
fn lists_that_break_off_get_1() {
    let lists: [&[u8]; 6] = [
        b"K",
        b"KY",
        b"KX\x02D1",
        b"KY\x02D",
        b"KY\x02D1K",
        b"KY\x02D1KY\x03D1",
    ];
    for list in lists {
        assert_eq!(
            build_from_list(list, settings(0, 0)),
            Err(Refusal::ListMalformed)
        );
        assert_eq!(
            image_length(list, settings(0, 0)),
            Err(Refusal::ListMalformed)
        );
    }
}

#[test]
fn keys_without_bytes_or_with_over_64_get_2() {
    assert_eq!(built(&[""]), Some(Refusal::KeyLengthWrong));
    assert_eq!(built(&["D1", ""]), Some(Refusal::KeyLengthWrong));
    assert_eq!(built(&[[b'k'; 64]]), None);
    for length in [65, 255, 256, 300, 70_000] {
        let key = vec![b'k'; length];
        assert_eq!(built(&[key]), Some(Refusal::KeyLengthWrong), "{length}");
    }
}

#[test]
fn keys_out_of_order_get_3() {
    for keys in [["D2", "D1"], ["D1", "D1"], ["D12", "D1"], ["\u{e9}", "z"]] {
        assert_eq!(built(&keys), Some(Refusal::KeysUnordered), "{keys:?}");
    }
}

#[test]
fn keys_beyond_65_535_get_4() {
    let keys = (0..65_536u32).map(u32::to_be_bytes);
    assert_eq!(build(keys, settings(0, 0)), Err(Refusal::TooManyKeys));
    let endless = (0u64..).map(u64::to_be_bytes);
    assert_eq!(build(endless, settings(0, 0)), Err(Refusal::TooManyKeys));
}

#[test]
fn settings_out_of_range_get_5_before_all_else() {
    let wrong = [
        settings(5, 0),
        settings(0, 17),
        settings(0, 0).with_hash_bits(17),
        settings(4, 16).with_hash_bits(255),
        settings(255, 255).with_version(2),
        settings(0, 0).with_version(0),
        settings(0, 0).with_version(3),
        settings(0, 0).with_version(255),
    ];
    for settings in wrong {
        assert_eq!(build(A, settings), Err(Refusal::SettingOutOfRange));
        assert_eq!(build([""], settings), Err(Refusal::SettingOutOfRange));
        assert_eq!(build(NO_KEYS, settings), Err(Refusal::SettingOutOfRange));
        assert_eq!(
            image_length(b"K", settings),
            Err(Refusal::SettingOutOfRange)
        );
    }
}

#[test]
fn bytes_that_are_no_image_get_11() {
    assert_refused(b"", Refusal::FrameWrong);
    for length in 0..IMAGE_A.len() {
        assert_refused(&IMAGE_A[..length], Refusal::FrameWrong);
    }
    assert_refused(&[IMAGE_A, &b"\0"[..]].concat(), Refusal::FrameWrong);
    assert_refused(&[&b"\0"[..], IMAGE_A].concat(), Refusal::FrameWrong);
}

#[test]
fn records_of_another_version_get_11() {
    let second = image_a_version_2();
    for length in IMAGE_A.len()..second.len() {
        assert_refused(&second[..length], Refusal::FrameWrong);
    }
    assert_refused(&[&second[..], b"\0"].concat(), Refusal::FrameWrong);
    // Version 2 with twelve records, and all other versions with thirteen.
    let mut twelve = *IMAGE_A;
    twelve[2] = 2;
    assert_refused(&twelve, Refusal::FrameWrong);
    for version in [0, 1, 3, 255] {
        let mut thirteen = second.clone();
        thirteen[2] = version;
        assert_refused(&thirteen, Refusal::FrameWrong);
    }
    // A body of LV that runs past the end, or has bytes behind it.
    for length in [11, 13, 255] {
        let mut image = second.clone();
        image[112] = length;
        assert_refused(&image, Refusal::FrameWrong);
    }
}

#[test]
fn wrong_headers_get_12() {
    // The dense levels, the real bits, the hash bits, the leaves and the sparse entries; and a
    // real bit and a hash bit for which there are no slots.
    let wrong = [
        (3, 5),
        (4, 17),
        (5, 17),
        (5, 255),
        (8, 1),
        (14, 7),
        (4, 1),
        (5, 1),
    ];
    for (place, byte) in wrong {
        for mut image in [IMAGE_A.to_vec(), image_a_version_2()] {
            image[place] = byte;
            assert_refused(&image, Refusal::HeaderWrong);
        }
    }
    for version in [0, 3, 255] {
        let mut image = *IMAGE_A;
        image[2] = version;
        assert_refused(&image, Refusal::HeaderWrong);
    }
}

#[test]
fn a_spare_bit_gets_13() {
    assert_refused(&changed(IMAGE_A, b"SC", 0, 0x45), Refusal::SpareBitSet);
    assert_refused(&changed(IMAGE_A, b"SB", 0, 0x95), Refusal::SpareBitSet);
}

#[test]
fn another_trie_gets_14() {
    assert_refused(&changed(IMAGE_A, b"SL", 0, 0x57), Refusal::TrieWrong);
    assert_refused(&changed(IMAGE_A, b"SC", 0, 0x01), Refusal::TrieWrong);
    let mut five_leaves = *IMAGE_A;
    five_leaves[6] = 5;
    assert_refused(&five_leaves, Refusal::TrieWrong);
}

#[test]
fn a_wrong_rank_or_sample_gets_15() {
    assert_refused(&changed(IMAGE_A, b"RS", 0, 1), Refusal::TableWrong);
    assert_refused(&changed(IMAGE_A, b"TS", 0, 1), Refusal::TableWrong);
}

/// Gives list A's image in version 2 with some level starts in the place of its own.
fn with_level_starts(starts: &[u8]) -> Vec<u8> {
    let image = image_a_version_2();
    let length = (starts.len() as u32).to_le_bytes();
    [&image[..IMAGE_A.len()], b"LV", &length, starts].concat()
}

#[test]
fn wrong_level_starts_get_15() {
    let starts = &LEVEL_STARTS_A[6..];
    assert_eq!(with_level_starts(starts), image_a_version_2());
    for place in 0..starts.len() {
        let mut other = starts.to_vec();
        other[place] ^= 1;
        assert_refused(&with_level_starts(&other), Refusal::TableWrong);
    }
    // One level fewer or more, bytes that are no whole entry, no entry, and another order.
    let more = [starts, b"\x03\0\0\0"].concat();
    let turned = [&starts[4..8], &starts[..4], &starts[8..]].concat();
    for other in [
        &starts[..8],
        &more,
        &starts[..11],
        &more[..13],
        b"",
        &turned,
    ] {
        assert_refused(&with_level_starts(other), Refusal::TableWrong);
    }
}

#[test]
fn level_starts_are_judged_behind_14_and_before_16() {
    let starts_too = |mark: &[u8; 2], place, byte| {
        let image = image_with(&VAN, settings(0, 8).with_version(2));
        changed(&changed(&image, b"LV", 4, 2), mark, place, byte)
    };
    assert_refused(&starts_too(b"SC", 0, 0x45), Refusal::SpareBitSet);
    assert_refused(&starts_too(b"SL", 0, 0x57), Refusal::TrieWrong);
    assert_refused(&starts_too(b"SV", 2, 0x01), Refusal::TableWrong);
}

#[test]
fn real_bits_that_no_key_gives_get_16() {
    let exact_leaf = changed(&image(&VAN, 0, 8), b"SV", 2, 0x01);
    assert_refused(&exact_leaf, Refusal::SlotWrong);
    let behind_64_bytes = changed(&image(&longest_keys(), 0, 8), b"SV", 1, 0x80);
    assert_refused(&behind_64_bytes, Refusal::SlotWrong);
}

#[test]
fn hash_bits_of_exact_leaves_get_16_and_others_may_be_any() {
    // The slots of V, D2, D1 and D12.
    let slots = image_with(&A, settings(0, 0).with_hash_bits(8));
    assert_refused(&changed(&slots, b"SV", 2, 0x01), Refusal::SlotWrong);
    for place in [0, 1, 3] {
        assert_eq!(check(&changed(&slots, b"SV", place, 0xFF)), Ok(()));
    }
    // Past the 64th byte: a slot is four hash bits and then four real bits.
    let slots = image_with(&longest_keys(), settings(0, 4).with_hash_bits(4));
    for place in [0, 1] {
        assert_eq!(check(&changed(&slots, b"SV", place, 0x0F)), Ok(()));
        assert_refused(&changed(&slots, b"SV", place, 0x1F), Refusal::SlotWrong);
    }
}

#[test]
fn a_place_behind_the_leaves_gets_17() {
    let filter = Filter::open(IMAGE_A).expect("the image is accepted");
    assert_eq!(filter.leaf(4), Ok(None));
    for place in [5, 1 << 32, usize::MAX] {
        assert_eq!(filter.leaf(place), Err(Refusal::PlaceOutOfRange));
    }
}

#[test]
fn questions_that_break_off_get_21() {
    let filter = Filter::open(IMAGE_A).expect("the image is accepted");
    let files: [&[u8]; 6] = [
        b"Q",
        b"QP",
        b"QX\x00",
        b"QP\x02D",
        b"QR\x02D1",
        b"QP\x02D1Q",
    ];
    for file in files {
        assert_eq!(filter.ask(file), Err(Refusal::QuestionMalformed));
        assert_eq!(ask(IMAGE_A, file), Err(Refusal::QuestionMalformed));
    }
}

#[test]
fn keys_over_64_bytes_get_22() {
    let filter = Filter::open(IMAGE_A).expect("the image is accepted");
    let too_long = Refusal::KeyTooLong;
    for length in [65, 255, 256, 300] {
        let key = &vec![b'k'; length][..];
        assert_eq!(filter.may_contain(key), Err(too_long));
        assert_eq!(filter.rule(key), Err(too_long));
        assert_eq!(filter.starts_with(key), Err(too_long));
        assert_eq!(filter.seek(key), Err(too_long));
        assert_eq!(filter.may_contain_range(key, "z"), Err(too_long));
        assert_eq!(filter.may_contain_range("D1", key), Err(too_long));
        assert_eq!(filter.count(key, "z"), Err(too_long));
        assert_eq!(filter.count("D1", key), Err(too_long));
    }
}

#[test]
fn keys_over_64_bytes_in_files_get_22() {
    let (longer, longest) = (&[b'k'; 65][..], &[b'k'; 300][..]);
    let questions = [
        Question::Point(longer),
        Question::Point(longest),
        Question::Seek(longer),
        Question::BeginsWith(longest),
        Question::Range(longer, b"z"),
        Question::Count(b"D1", longest),
    ];
    for question in questions {
        let file = write_questions([question]);
        assert_eq!(ask(IMAGE_A, &file), Err(Refusal::KeyTooLong));
    }
}

#[test]
fn keys_of_64_bytes_are_asked() {
    let filter = Filter::open(IMAGE_A).expect("the image is accepted");
    let key = &[b'V'; 64];
    assert_eq!(filter.may_contain(key), Ok(true));
    assert_eq!(filter.starts_with(key), Ok(true));
    assert_eq!(filter.count(key, key), Ok(1));
    let found = filter.seek(key).expect("the start is short enough");
    assert_eq!(found.expect("V may be that key").key, key);
}

#[test]
fn reversed_bounds_get_23() {
    let filter = Filter::open(IMAGE_A).expect("the image is accepted");
    let reversed = Refusal::BoundsReversed;
    assert_eq!(filter.may_contain_range("D2", "D12"), Err(reversed));
    assert_eq!(filter.count("D12", "D1"), Err(reversed));
    assert_eq!(filter.ask(b"QR\x01b\x01a"), Err(reversed));
    assert_eq!(filter.ask(b"QC\x01b\x00"), Err(reversed));
}

#[test]
fn the_1_025th_question_gets_24() {
    let filter = Filter::open(IMAGE_A).expect("the image is accepted");
    let file = |questions| b"QP\x02D1".repeat(questions);
    let replies = filter.ask(&file(1_024)).expect("so many are taken");
    assert_eq!(replies, b"ANP\x01\0\0\0\x01\x03".repeat(1_024));
    assert_eq!(filter.ask(&file(1_025)), Err(Refusal::TooManyQuestions));
}

#[test]
fn the_table_has_every_number_once() {
    let numbers = [
        1, 2, 3, 4, 5, 7, 8, 11, 12, 13, 14, 15, 16, 17, 21, 22, 23, 24, 25,
    ];
    for number in 0..100 {
        let refusal = Refusal::from_number(number);
        assert_eq!(refusal.is_some(), numbers.contains(&number), "{number}");
        assert_eq!(refusal.map_or(number, Refusal::number), number);
    }
}

#[test]
fn each_sentence_says_what_is_wrong_and_what_to_do() {
    let sentences: HashSet<String> = Refusal::ALL.iter().map(Refusal::to_string).collect();
    assert_eq!(sentences.len(), Refusal::ALL.len());
    for sentence in sentences {
        let (wrong, to_do) = sentence.split_once(": ").expect("it has two parts");
        assert!(!wrong.is_empty() && !to_do.is_empty(), "{sentence}");
    }
}
