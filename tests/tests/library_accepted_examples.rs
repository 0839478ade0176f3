//! Examples of the calls over an accepted image, with values of document 01 and of orders 2
//! and 3 of document 02, and refusals, written by hand. They hold in both versions.

use range_filter_tests::accepted::{AcceptedCalls, FOUND_BYTES};
use range_filter_tests::answer::Answer;
use range_filter_tests::examples::{list_van, IMAGE_A, IMAGE_A_2};
use range_filter_tests::generate::images::built;
use range_filter_tests::generate::in_both_versions;
use range_filter_tests::library::{accept, Accepted};
use range_filter_tests::reference::replies::NONE;
use range_filter_tests::reference::walk::RECORD_BYTES;
use range_filter_tests::settings::version_1;

/// Gives list A's images as the library has accepted them.
fn images_of_list_a() -> [Accepted<'static>; 2] {
    [IMAGE_A, IMAGE_A_2].map(|image| accept(image).expect("list A's images are accepted"))
}

/// Asserts the reply to a point, and the rule behind it.
fn assert_point(image: Accepted, key: &[u8], number: u32, rule: u32) {
    assert_eq!((image.point(key), image.rule(key)), (Ok(number), Ok(rule)));
}

/// Asserts what a seek gives, and that the bytes of its buffer behind the key are kept.
fn assert_seek(image: Accepted, start: &[u8], number: u32, key: &[u8]) {
    for kept in [0x00, 0x5A, 0xFF] {
        let mut expected = [kept; FOUND_BYTES];
        expected[0] = key.len() as u8;
        expected[1..=key.len()].copy_from_slice(key);
        let mut found = [kept; FOUND_BYTES];
        assert_eq!(image.seek(start, &mut found), Ok(number));
        assert_eq!(found, expected, "{start:?}");
    }
}

#[test]
fn points_of_list_a() {
    let points: [(&[u8], u32, u32); 6] = [
        (b"D1", 1, 3),
        (b"D10", 0, 1),
        (b"D", 0, 2),
        (b"D2x", 1, 4),
        (b"", 0, 2),
        (b"D1\xFF", 0, 1),
    ];
    for list_a in images_of_list_a() {
        for (key, number, rule) in points {
            assert_point(list_a, key, number, rule);
        }
    }
}

#[test]
fn counts_ranges_and_stems_of_list_a() {
    for list_a in images_of_list_a() {
        assert_eq!(list_a.count(b"D12Z", b"D2"), Ok(2));
        assert_eq!(list_a.count(b"D11", b"D13"), Ok(1));
        assert_eq!(list_a.count(b"D2a", b"V"), Ok(2));
        assert_eq!(list_a.range(b"D10", b"D11"), Ok(0));
        assert_eq!(list_a.range(b"D2zz", b"E"), Ok(1));
        assert_eq!(list_a.begins_with(b"D"), Ok(1));
        assert_eq!(list_a.begins_with(b"D10"), Ok(0));
        assert_eq!(list_a.begins_with(b"D12\xFF\xFF"), Ok(1));
    }
}

#[test]
fn seeks_of_list_a() {
    for list_a in images_of_list_a() {
        assert_seek(list_a, b"", 0, b"D1");
        assert_seek(list_a, b"D13", 2, b"D2");
        assert_seek(list_a, b"D2a", 2, b"D2a");
        assert_seek(list_a, b"W", NONE, b"");
    }
}

#[test]
fn leaves_of_list_a() {
    let leaves: [&[u8]; 4] = [b"\x01\x02D1", b"\x02\x03D12", b"\x02\x02D2", b"\x02\x01V"];
    for list_a in images_of_list_a() {
        for (place, leaf) in (0..).zip(leaves) {
            let mut record = [0xFF; RECORD_BYTES];
            assert_eq!(
                list_a.walk(place, &mut record),
                Answer::Written(RECORD_BYTES)
            );
            let mut expected = [0; RECORD_BYTES];
            expected[..leaf.len()].copy_from_slice(leaf);
            assert_eq!(record, expected);
        }
        let mut record = [0xFF; RECORD_BYTES];
        assert_eq!(list_a.walk(4, &mut record), Answer::Written(0));
        assert_eq!(list_a.walk(5, &mut record), Answer::Refused(17));
        assert_eq!(record, [0xFF; RECORD_BYTES]);
    }
}

#[test]
fn suffix_of_van_decides() {
    for settings in in_both_versions(version_1(0, 8)) {
        let image = built(&list_van(), settings);
        let van = accept(&image).expect("a built image is accepted");
        assert_point(van, b"VAX", 1, 4);
        assert_point(van, b"VB", 0, 5);
        assert_seek(van, b"V", 3, b"VA");
        assert_seek(van, b"VB", NONE, b"");
        let mut record = [0; RECORD_BYTES];
        van.walk(3, &mut record);
        assert_eq!(record[RECORD_BYTES - 4..], [0x82, 0x00, 0x00, 0x00]);
    }
}

#[test]
fn empty_image_has_no_key() {
    for settings in in_both_versions(version_1(0, 0)) {
        let image = built(&[], settings);
        let empty = accept(&image).expect("a built image is accepted");
        assert_point(empty, b"", 0, 6);
        assert_point(empty, b"D1", 0, 6);
        assert_eq!(empty.range(b"", &[0xFF; 64]), Ok(0));
        assert_eq!(empty.count(b"", &[0xFF; 64]), Ok(0));
        assert_eq!(empty.begins_with(b""), Ok(0));
        assert_seek(empty, b"", NONE, b"");
        assert_eq!(empty.walk(0, &mut []), Answer::Written(0));
        assert_eq!(empty.walk(1, &mut []), Answer::Refused(17));
    }
}

#[test]
fn keys_over_64_bytes_are_refused_with_22() {
    let [most, long] = [[b'V'; 65]; 2];
    let most = &most[..64];
    for list_a in images_of_list_a() {
        assert_point(list_a, most, 1, 4);
        assert_eq!(list_a.point(&long), Err(22));
        assert_eq!(list_a.rule(&long), Err(22));
        assert_eq!(list_a.begins_with(&long), Err(22));
        for (lower, upper) in [
            (most, &long[..]),
            (&long, most),
            (&long, b"D"),
            (b"W", &long),
        ] {
            assert_eq!(list_a.range(lower, upper), Err(22));
            assert_eq!(list_a.count(lower, upper), Err(22));
        }
        let mut found = [0x5A; FOUND_BYTES];
        assert_eq!(list_a.seek(&long, &mut found), Err(22));
        assert_eq!(found, [0x5A; FOUND_BYTES]);
    }
}

#[test]
fn bounds_out_of_order_are_refused_with_23() {
    let bounds: [(&[u8], &[u8]); 3] = [(b"b", b"a"), (b"aa", b"a"), (b"a", b"")];
    for list_a in images_of_list_a() {
        for (lower, upper) in bounds {
            assert_eq!(list_a.range(lower, upper), Err(23));
            assert_eq!(list_a.count(lower, upper), Err(23));
        }
    }
}

#[test]
fn refused_images_are_not_accepted() {
    assert_eq!(accept(b"").err(), Some(11));
    for (version, number) in [(0, 12), (2, 11), (3, 12)] {
        let mut image = IMAGE_A.to_vec();
        image[2] = version;
        assert_eq!(accept(&image).err(), Some(number));
    }
    let mut image = IMAGE_A_2.to_vec();
    image[IMAGE_A_2.len() - 4] = 3;
    assert_eq!(accept(&image).err(), Some(15));
}
