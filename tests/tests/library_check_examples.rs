//! Document 01's refusals of an image, in version 1, with images written by hand; the
//! reference and the proved library both have to give the number, by every call that takes an
//! image.

use range_filter_tests::examples::{list_a, list_van, IMAGE_A};
use range_filter_tests::generate::images::{body_start, built, with_byte};
use range_filter_tests::generate::keys::owned;
use range_filter_tests::reference::format::{
    assemble, Header, DP, RECORDS, RP, RS, SB, SC, SL, TS,
};
use range_filter_tests::reference::rebuild::accepts;
use range_filter_tests::refused::assert_refused;
use range_filter_tests::settings::version_1;
use range_filter_tests::{compare, library};

/// Compares a check, and gives the number.
fn check(image: &[u8]) -> u32 {
    compare::check(library::check, image)
}

/// Gives an image without dense levels and with n 0, whose tables are those of at most 64
/// nodes and 512 entries.
fn sparse_image(leaves: u32, nodes: u32, labels: &[u8], has_child: &[u8], louds: &[u8]) -> Vec<u8> {
    let header = Header {
        leaves,
        sparse_entries: labels.len() as u32,
        sparse_nodes: nodes,
        ..Header::new(version_1(0, 0))
    };
    let mut bodies: [Vec<u8>; RECORDS] = Default::default();
    bodies[SL] = labels.to_vec();
    bodies[SC] = has_child.to_vec();
    bodies[SB] = louds.to_vec();
    bodies[RS] = vec![0; 4];
    bodies[TS] = vec![0; 4];
    assemble(&header, &bodies)
}

#[test]
fn wrong_frames_are_refused_with_11() {
    for length in 0..IMAGE_A.len() {
        assert_refused(&IMAGE_A[..length], 11);
    }
    assert_refused(&[IMAGE_A, &[0]].concat(), 11);
    assert_refused(&with_byte(IMAGE_A, 0, b'h'), 11);
    assert_refused(&with_byte(IMAGE_A, 1, b'X'), 11);
    assert_refused(&with_byte(IMAGE_A, 22, b'S'), 11);
    assert_refused(&with_byte(IMAGE_A, 24, 1), 11);
    assert_refused(&with_byte(IMAGE_A, 27, 0xFF), 11);
}

#[test]
fn frame_is_judged_before_the_version() {
    let image = with_byte(&with_byte(IMAGE_A, 2, 3), 22, b'S');
    assert_refused(&image, 11);
}

#[test]
fn wrong_headers_are_refused_with_12() {
    for (at, byte) in [
        (2, 0),
        (2, 3),
        (2, 255),
        (3, 5),
        (4, 17),
        (5, 1),
        (5, 17),
        (8, 1),
        (10, 1),
        (14, 7),
        (18, 65),
    ] {
        assert_refused(&with_byte(IMAGE_A, at, byte), 12);
    }
}

#[test]
fn settings_of_an_empty_image_are_judged() {
    let empty = built(&[], version_1(0, 0));
    assert_refused(&with_byte(&empty, 3, 5), 12);
    assert_refused(&with_byte(&empty, 4, 17), 12);
    assert_refused(&with_byte(&empty, 5, 17), 12);
    assert_eq!(check(&with_byte(&empty, 3, 4)), 0);
    assert_eq!(check(&with_byte(&empty, 4, 16)), 0);
    assert_eq!(check(&with_byte(&empty, 5, 16)), 0);
}

#[test]
fn leaf_counts_over_65535_are_refused_with_12() {
    let empty = built(&[], version_1(0, 0));
    assert_refused(&with_byte(&empty, 8, 1), 12);
    let most = with_byte(&with_byte(&empty, 6, 0xFF), 7, 0xFF);
    assert_refused(&most, 14);
}

#[test]
fn body_lengths_are_exact_products() {
    let header = Header {
        dense_nodes: 1 << 28,
        ..Header::new(version_1(4, 0))
    };
    let mut bodies: [Vec<u8>; RECORDS] = Default::default();
    bodies[DP] = vec![0; 1 << 25];
    bodies[RP] = vec![0; 1 << 24];
    let image = assemble(&header, &bodies);
    assert_eq!(image.len(), 50_331_742);
    assert_eq!(check(&image), 12);
}

#[test]
fn spare_bits_are_refused_with_13() {
    let has_child = body_start(IMAGE_A, b"SC");
    let louds = body_start(IMAGE_A, b"SB");
    assert_refused(&with_byte(IMAGE_A, has_child, 0x45), 13);
    assert_refused(&with_byte(IMAGE_A, louds, 0x95), 13);
    let narrow = built(&list_a(), version_1(1, 1));
    let slots = body_start(&narrow, b"SV");
    assert_refused(&with_byte(&narrow, slots, 0x10), 13);
    let is_prefix_key = body_start(&narrow, b"DP");
    assert_refused(&with_byte(&narrow, is_prefix_key, 0x02), 13);
}

#[test]
fn sparse_image_of_list_a_is_accepted() {
    let image = sparse_image(4, 3, b"\x44\x56\x31\x32\xFF\x32", &[0x05], &[0x15]);
    assert_eq!(image, IMAGE_A);
    assert_eq!(check(&image), 0);
}

#[test]
fn counts_that_disagree_are_refused_with_14() {
    let labels = b"\x44\x56\x31\x32\xFF\x32";
    for (leaves, nodes) in [(3, 3), (5, 3), (4, 2), (4, 4)] {
        let image = sparse_image(leaves, nodes, labels, &[0x05], &[0x15]);
        assert_refused(&image, 14);
    }
}

#[test]
fn first_entry_without_its_bit_is_refused_with_14() {
    assert_refused(&sparse_image(3, 2, b"abcd", &[0x01], &[0x0C]), 14);
    assert_refused(&sparse_image(2, 1, b"abc", &[0x01], &[0x02]), 14);
}

#[test]
fn nodes_without_leaves_are_refused_with_14() {
    assert_refused(&sparse_image(0, 1, b"a", &[0x01], &[0x01]), 14);
}

#[test]
fn nodes_not_branches_plus_one_are_refused_with_14() {
    assert_refused(&sparse_image(4, 2, b"abcd", &[0x00], &[0x05]), 14);
    assert_refused(&sparse_image(1, 1, b"ab", &[0x01], &[0x01]), 14);
}

#[test]
fn node_that_is_its_own_child_is_refused_with_14() {
    let image = sparse_image(3, 2, b"abcd", &[0x04], &[0x05]);
    assert_refused(&image, 14);
}

#[test]
fn labels_that_do_not_ascend_are_refused_with_14() {
    assert_refused(&sparse_image(2, 1, b"ba", &[0x00], &[0x01]), 14);
    assert_refused(&sparse_image(2, 1, b"aa", &[0x00], &[0x01]), 14);
    assert_refused(&sparse_image(4, 2, b"a\xFFbb", &[0x01], &[0x03]), 14);
}

#[test]
fn root_that_is_an_exact_leaf_is_refused_with_14() {
    assert_refused(&sparse_image(2, 1, b"\xFFa", &[0x00], &[0x01]), 14);
}

#[test]
fn extra_ff_that_continues_is_refused_with_14() {
    assert_refused(&sparse_image(3, 3, b"a\xFFabc", &[0x03], &[0x0B]), 14);
    assert_refused(&sparse_image(1, 2, b"a\xFFb", &[0x03], &[0x03]), 14);
}

#[test]
fn sole_entry_that_ends_is_refused_with_14() {
    assert_refused(&sparse_image(1, 2, b"ab", &[0x01], &[0x03]), 14);
    assert_refused(&sparse_image(1, 2, b"a\xFF", &[0x01], &[0x03]), 14);
    assert_eq!(check(&sparse_image(1, 1, b"a", &[0x00], &[0x01])), 0);
    assert_eq!(check(&sparse_image(2, 2, b"abc", &[0x01], &[0x03])), 0);
}

#[test]
fn dense_levels_that_do_not_fit_are_refused_with_14() {
    assert_refused(&with_byte(IMAGE_A, 3, 1), 14);
    let one_level = built(&list_a(), version_1(1, 0));
    assert_refused(&with_byte(&one_level, 3, 0), 14);
    assert_refused(&with_byte(&one_level, 3, 2), 14);
    let all_dense = built(&list_a(), version_1(3, 0));
    assert_eq!(check(&with_byte(&all_dense, 3, 4)), 0);
}

#[test]
fn child_without_a_label_is_refused_with_14() {
    let image = built(&list_a(), version_1(1, 0));
    let has_child = body_start(&image, b"DC");
    assert_refused(&with_byte(&image, has_child, 0x01), 14);
}

#[test]
fn dense_root_that_is_an_exact_leaf_is_refused_with_14() {
    let image = built(&owned(&[b"a"]), version_1(1, 0));
    let marked = with_byte(&image, body_start(&image, b"DP"), 1);
    assert_refused(&with_byte(&marked, 6, 2), 14);
}

#[test]
fn dense_node_without_a_label_is_refused_with_14() {
    let image = built(&owned(&[b"a", b"aa"]), version_1(2, 0));
    let second = body_start(&image, b"DL") + 32;
    let bare = with_byte(&image, second + 12, 0);
    assert_refused(&with_byte(&bare, 6, 1), 14);
}

#[test]
fn node_on_level_64_is_refused_with_14() {
    let labels = [&[b'a'; 64][..], b"bc"].concat();
    let has_child = [&[0xFF; 8][..], &[0x00]].concat();
    let louds = [&[0xFF; 8][..], &[0x01]].concat();
    let mut image = sparse_image(2, 65, &labels, &has_child, &louds);
    let samples = body_start(&image, b"TS");
    image[samples - 4] = 8;
    image.extend_from_slice(&[64, 0, 0, 0]);
    assert_refused(&image, 14);
}

#[test]
fn node_on_level_63_is_accepted() {
    let labels = [&[b'a'; 63][..], b"bc"].concat();
    let has_child = [&[0xFF; 7][..], &[0x7F, 0x00]].concat();
    let louds = [&[0xFF; 8][..], &[0x00]].concat();
    let image = sparse_image(2, 64, &labels, &has_child, &louds);
    assert_eq!(check(&image), 0);
    assert!(accepts(&image));
}

#[test]
fn wrong_ranks_and_samples_are_refused_with_15() {
    let dense = built(&list_a(), version_1(1, 0));
    for mark in [b"RL", b"RC", b"RP", b"RS", b"TS"] {
        let table = body_start(&dense, mark);
        assert_refused(&with_byte(&dense, table, 1), 15);
        assert_refused(&with_byte(&dense, table + 3, 0x80), 15);
    }
}

#[test]
fn slot_of_an_exact_leaf_is_refused_with_16() {
    let image = built(&list_van(), version_1(0, 8));
    let exact_slot = body_start(&image, b"SV") + 2;
    assert_refused(&with_byte(&image, exact_slot, 0x01), 16);
    assert_eq!(check(&with_byte(&image, exact_slot - 1, 0x01)), 0);
}

#[test]
fn suffix_past_the_64th_byte_is_refused_with_16() {
    let keys = |shared: usize| [0x10, 0x20].map(|last| [vec![b'k'; shared], vec![last]].concat());
    let full = built(&keys(63), version_1(0, 1));
    let slots = body_start(&full, b"SV");
    assert_refused(&with_byte(&full, slots, 0x01), 16);
    let shorter = built(&keys(62), version_1(0, 9));
    let slots = body_start(&shorter, b"SV");
    assert_eq!(check(&with_byte(&shorter, slots, 0x80)), 0);
    assert_refused(&with_byte(&shorter, slots + 1, 0x01), 16);
}

#[test]
fn smaller_numbers_come_first() {
    let image = built(&list_van(), version_1(0, 8));
    let slot = body_start(&image, b"SV") + 2;
    let has_child = body_start(&image, b"SC");
    let with_16 = with_byte(&image, slot, 1);
    let with_15 = with_byte(&with_16, image.len() - 1, 1);
    let with_14 = with_byte(&with_15, has_child, 0x07);
    let with_13 = with_byte(&with_15, has_child, 0x85);
    let with_12 = with_byte(&with_13, 2, 9);
    let images = [with_16, with_15, with_14, with_13, with_12];
    assert_eq!(images.map(|image| check(&image)), [16, 15, 14, 13, 12]);
}
