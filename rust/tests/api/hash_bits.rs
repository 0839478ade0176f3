//! Hash bits: order 4 of document 02.

use crate::shared::{
    body, body_at, image, image_with, settings, versions, Random, A, IMAGE_A, VAN,
};
use range_filter::{build, hash, Filter, Leaf, Rule, Settings};

/// Gives settings of version 1 without dense levels.
fn with_bits(hash_bits: u8, real_bits: u8) -> Settings {
    settings(0, real_bits).with_hash_bits(hash_bits)
}

/// Gives what a filter says of a key, and of the range from the key to itself.
fn both(filter: &Filter, key: &[u8]) -> (bool, bool) {
    let point = filter.may_contain(key).expect("the key is taken");
    let range = filter.may_contain_range(key, key);
    (point, range.expect("the bounds are taken"))
}

/// The vectors of the FNV reference code and of its draft, for the 64-bit FNV-1a hash.
#[test]
fn hashes_are_the_published_ones() {
    let published = [
        ("", 0xcbf2_9ce4_8422_2325),
        ("a", 0xaf63_dc4c_8601_ec8c),
        ("b", 0xaf63_df4c_8601_f1a5),
        ("foo", 0xdcb2_7518_fed9_d577),
        ("foobar", 0x8594_4171_f739_67e8),
    ];
    for (key, expected) in published {
        assert_eq!(hash(key), expected, "{key}");
    }
}

#[test]
fn keys_of_any_length_are_hashed() {
    let mut state: u64 = 0xcbf2_9ce4_8422_2325;
    let mut key = Vec::new();
    for byte in (0..=u8::MAX).cycle().take(300) {
        key.push(byte);
        state = (state ^ u64::from(byte)).wrapping_mul(0x0000_0100_0000_01b3);
        assert_eq!(hash(&key), state);
    }
}

#[test]
fn slots_of_list_a() {
    let image = image_with(&A, with_bits(8, 0));
    assert_eq!(image.len(), 114);
    assert_eq!(image[2..6], [1, 0, 0, 8]);
    // The slots of V, D2, D1, which is exact, and D12.
    assert_eq!(body(&image, b"SV"), *b"\x69\x53\x00\x5C");
}

#[test]
fn hash_bits_stand_before_real_bits() {
    let image = image_with(&VAN, with_bits(4, 8));
    assert_eq!(image.len(), 116);
    assert_eq!(image[2..6], [1, 0, 8, 4]);
    assert_eq!(body(&image, b"SV"), *b"\x22\x38\x00\x00\xC0\x00");
}

#[test]
fn images_without_hash_bits_are_as_before() {
    assert_eq!(image_with(&A, with_bits(0, 0)), IMAGE_A);
    assert_eq!(image_with(&VAN, with_bits(0, 8)), image(&VAN, 0, 8));
}

#[test]
fn points_of_list_a() {
    for settings in versions(with_bits(8, 0)) {
        let image = image_with(&A, settings);
        let filter = Filter::open(&image).expect("the image is accepted");
        let rules = [
            (&b"D1"[..], Rule::ExactLeaf),
            (b"D12", Rule::SuffixEqual),
            (b"D2", Rule::SuffixEqual),
            (b"V", Rule::SuffixEqual),
            (b"D2x", Rule::SuffixOther),
            (b"VAN", Rule::SuffixOther),
            (b"D10", Rule::BranchMissing),
            (b"D", Rule::KeyEnded),
        ];
        for (key, rule) in rules {
            assert_eq!(filter.rule(key), Ok(rule));
            assert_eq!(filter.may_contain(key), Ok(rule.says()));
        }
        assert_eq!(both(&filter, b"D2x"), (false, true));
    }
}

#[test]
fn points_ask_for_both_parts() {
    let image = image_with(&VAN, with_bits(4, 8));
    let filter = Filter::open(&image).expect("the image is accepted");
    assert_eq!(both(&filter, b"VAN"), (true, true));
    // VAX has other hash bits, VB other real bits. VAn is not stored and has both.
    assert_eq!(both(&filter, b"VAX"), (false, true));
    assert_eq!(both(&filter, b"VB"), (false, false));
    assert_eq!(both(&filter, b"VAn"), (true, true));
}

#[test]
fn lists_with_other_hashes_have_other_images() {
    let images = |settings| [&A[..], &VAN].map(|keys| image_with(keys, settings));
    let [a, van] = images(with_bits(0, 0));
    assert_eq!(a, van);
    let [a, van] = images(with_bits(1, 0));
    assert_ne!(a, van);
}

/// Gives the real bits of a key behind its cut as a number, whose lowest bit is the first.
fn real_bits(key: &[u8], cut: usize, width: u8) -> u32 {
    let bit = |at: usize| {
        let byte = key.get(cut + at / 8).copied().unwrap_or(0);
        u32::from(byte >> (7 - at % 8) & 1) << at
    };
    (0..usize::from(width)).map(bit).sum()
}

/// Asserts that a leaf has the suffix of its key.
fn assert_suffix(leaf: &Leaf, key: &[u8], settings: Settings) {
    let (hash_bits, real_width) = (settings.hash_bits(), settings.real_bits());
    let suffix = leaf.suffix();
    if leaf.is_exact() {
        assert_eq!((suffix.width(), suffix.bits()), (0, 0));
        assert_eq!(suffix.to_string(), "-");
        return;
    }
    let hashed = hash(key) & ((1 << hash_bits) - 1);
    let real = u64::from(real_bits(key, leaf.cut().len(), real_width));
    assert_eq!(u64::from(suffix.bits()), hashed | real << hash_bits);
    assert_eq!(suffix.width(), hash_bits + real_width);
    let digits: String = (0..suffix.width())
        .map(|bit| char::from(b'0' + (suffix.bits() >> bit & 1) as u8))
        .collect();
    let expected = if digits.is_empty() { "-" } else { &digits };
    assert_eq!(suffix.to_string(), expected);
}

#[test]
fn leaves_have_the_suffixes_of_their_keys() {
    let keys = Random::new(41).keys(60);
    for hash_bits in 0..=16 {
        for real_bits in 0..=16 {
            let settings = with_bits(hash_bits, real_bits);
            let image = image_with(&keys, settings);
            let filter = Filter::open(&image).expect("the image is accepted");
            for (leaf, key) in filter.leaves().zip(&keys) {
                assert_suffix(&leaf, key, settings);
            }
        }
    }
}

#[test]
fn no_stored_key_is_denied() {
    let keys = Random::new(42).keys(60);
    for hash_bits in 0..=16 {
        for real_bits in 0..=16 {
            let image = image_with(&keys, with_bits(hash_bits, real_bits));
            let filter = Filter::open(&image).expect("the image is accepted");
            for key in &keys {
                assert_eq!(both(&filter, key), (true, true));
            }
        }
    }
}

/// Asserts that filters of one list, without and with hash bits, say the same of a key and of two
/// bounds, but that a point may say 1 without and 0 with hash bits. Says whether it does.
fn assert_points_alone_differ(without: &Filter, with: &Filter, one: &[u8], other: &[u8]) -> bool {
    let (lower, upper) = (one.min(other), one.max(other));
    let ranges = |filter: &Filter| filter.may_contain_range(lower, upper);
    assert_eq!(ranges(without), ranges(with));
    assert_eq!(without.count(lower, upper), with.count(lower, upper));
    assert_eq!(without.starts_with(one), with.starts_with(one));
    assert_eq!(without.seek(one), with.seek(one));
    let points = [without, with].map(|filter| filter.may_contain(one) == Ok(true));
    assert_ne!(points, [false, true]);
    points == [true, false]
}

#[test]
fn hash_bits_change_points_alone() {
    let mut random = Random::new(43);
    let keys = random.keys(300);
    for real_bits in [0, 5, 16] {
        let images = [0, 8].map(|hash_bits| image_with(&keys, with_bits(hash_bits, real_bits)));
        let filters = [&images[0], &images[1]].map(|image| Filter::open(image));
        let [without, with] = filters.map(|filter| filter.expect("the image is accepted"));
        let asked = (0..1_000).map(|_| (random.key(0, 10), random.key(0, 10)));
        let differ = |(one, other): (Vec<u8>, Vec<u8>)| {
            assert_points_alone_differ(&without, &with, &one, &other)
        };
        let fewer = asked.map(differ).filter(|&differs| differs).count();
        assert!(fewer > 0, "hash bits change no point at {real_bits}");
    }
}

#[test]
fn other_hash_bits_are_followed_by_points_alone() {
    let mut image = image_with(&A, with_bits(8, 0));
    let slot = body_at(&image, b"SV"); // that of V
    image[slot] = (hash("VAN") & 0xFF) as u8;
    let filter = Filter::open(&image).expect("hash bits of an open leaf may be any");
    assert_eq!(both(&filter, b"V"), (false, true));
    assert_eq!(both(&filter, b"VAN"), (true, true));
    assert_eq!(Ok(image.clone()), build(VAN, with_bits(8, 0)));
}
