//! What the types are to others: traits that hold, what prints, and use by several threads.

use crate::shared::{image, A, IMAGE_A};
use range_filter::{Filter, Found, Key, Leaf, Leaves, Question, Refusal, Replies, Reply, Rule};
use range_filter::{Settings, Suffix};
use std::collections::{BTreeSet, HashSet};
use std::error::Error;
use std::fmt::Debug;
use std::hash::Hash;
use std::iter::FusedIterator;
use std::thread;

/// Compiles where a type can be sent to and shared by threads.
const fn shared<T: Send + Sync + Debug>() {}

/// Compiles where a type is a plain value.
const fn value<T: Copy + Eq + Hash + Send + Sync + Debug>() {}

/// Compiles where a type is an iterator that knows its length and stays at its end.
const fn counted<T: ExactSizeIterator + FusedIterator + Clone>() {}

/// Compiles where a type is an error that every error type takes.
const fn error<T: Error + Send + Sync + 'static>() {}

const _: () = {
    shared::<Filter<'static>>();
    shared::<Leaves<'static>>();
    shared::<Replies<'static>>();
    value::<Settings>();
    value::<Refusal>();
    value::<Rule>();
    value::<Key>();
    value::<Found>();
    value::<Leaf>();
    value::<Suffix>();
    value::<Question<'static>>();
    value::<Reply>();
    counted::<Leaves<'static>>();
    error::<Refusal>();
};

/// Gives the key that a seek finds in list A.
fn key(start: &str) -> Key {
    let filter = Filter::open(IMAGE_A).expect("the image is accepted");
    let found = filter.seek(start).expect("the start is short enough");
    found.expect("there is a key from the start on").key
}

/// Asks a filter of list A many times.
fn ask_often(filter: &Filter) {
    for _ in 0..1_000 {
        assert_eq!(filter.may_contain("D1"), Ok(true));
        assert_eq!(filter.count("D12Z", "D2"), Ok(2));
        assert_eq!(filter.leaves().last(), filter.leaf(3).expect("a leaf"));
    }
}

#[test]
fn threads_share_a_filter() {
    let filter = Filter::open(IMAGE_A).expect("the image is accepted");
    thread::scope(|scope| {
        for _ in 0..4 {
            scope.spawn(|| ask_often(&filter));
        }
    });
}

#[test]
fn leaves_outlive_the_filter_that_gave_them() {
    let image = image(&A, 0, 0);
    let leaves = {
        let filter = Filter::open(&image).expect("the image is accepted");
        filter.leaves()
    };
    assert_eq!(leaves.count(), 4);
}

#[test]
fn a_filter_is_gone_over_by_a_loop() {
    let filter = Filter::open(IMAGE_A).expect("the image is accepted");
    let mut cuts = Vec::new();
    for leaf in &filter {
        cuts.push(leaf.cut().to_vec());
    }
    assert_eq!(cuts, A.map(|key| key.as_bytes().to_vec()));
}

#[test]
fn keys_compare_and_hash_by_their_bytes() {
    assert_eq!(key("D2a"), "D2a");
    assert_eq!(key("D2a"), b"D2a");
    assert_eq!(key("D2a"), key("D2a"));
    assert_ne!(key("D2a"), "D2b");
    assert!(key("D2a") < key("D2b"));
    assert!(key("D2a") > "D2");
    assert!(key("D2") < key("D2a"));
    let starts = ["", "D2a", "D1", "D2a", "V"];
    let hashed: HashSet<Key> = starts.map(key).into();
    let sorted: BTreeSet<Key> = starts.map(key).into();
    assert_eq!(hashed.len(), 3);
    assert!(hashed.contains(&b"D2a"[..]) && !hashed.contains(&b"D2"[..]));
    let sorted: Vec<&[u8]> = sorted.iter().map(Key::as_bytes).collect();
    assert_eq!(sorted, [&b"D1"[..], b"D2a", b"V"]);
}

#[test]
fn values_print_for_people() {
    let filter = Filter::open(IMAGE_A).expect("the image is accepted");
    assert_eq!(
        format!("{filter:?}"),
        "Filter { settings: Settings { \
         version: 1, dense_levels: 0, real_bits: 0, hash_bits: 0 }, len: 4, .. }"
    );
    assert_eq!(
        format!("{:?}", filter.leaves()),
        "Leaves { place: 0, end: 4, .. }"
    );
    assert_eq!(format!("{:?}", key("V\"")), r#"b"V\"""#);
    assert_eq!(Rule::ExactLeaf.to_string(), "exact leaf");
}

#[test]
fn a_refusal_goes_into_any_error() {
    let fails = || -> Result<(), Box<dyn Error>> {
        Filter::open(b"")?;
        Ok(())
    };
    let error = fails().expect_err("no bytes are no image");
    assert_eq!(error.downcast_ref(), Some(&Refusal::FrameWrong));
}
