//! The rates of false positives: by hand over list A, and against the reference over lists
//! like those that are measured.

use range_filter_bench::keys::KEY_SETS;
use range_filter_bench::questions::{Kind, POINT, SHORT_RANGE};
use range_filter_bench::rates::{false_positives, Rate};
use range_filter_tests::examples::{list_a, IMAGE_A};
use range_filter_tests::generate::images::built;
use range_filter_tests::generate::keys::owned;
use range_filter_tests::random::Random;
use range_filter_tests::reference::leaves::leaves;
use range_filter_tests::reference::questions::Question;
use range_filter_tests::reference::replies::replies;
use range_filter_tests::settings::{version_1, Settings};

const KEYS: usize = 1_000;

/// The numbers of hash bits and of real bits, each with each.
const WIDTHS: [u64; 4] = [0, 4, 8, 16];

/// Says whether a list has a key that a question asks for, by a look at every key.
fn is_answered(list: &[Vec<u8>], question: &Question) -> bool {
    let bounds = question.keys();
    let [lower, upper] = [bounds[0], bounds[bounds.len() - 1]];
    list.iter()
        .any(|key| lower <= key.as_slice() && key.as_slice() <= upper)
}

/// Gives the rate by the replies of the reference.
fn reference_rate(list: &[Vec<u8>], settings: Settings, asked: &[Question]) -> Rate {
    let mut asked = asked.to_vec();
    asked.retain(|question| !is_answered(list, question));
    let replies = replies(&leaves(list, settings), &asked);
    Rate {
        asked: asked.len(),
        taken: replies.iter().filter(|reply| reply.number == 1).count(),
    }
}

#[test]
fn stored_keys_are_left_out() {
    let points = owned(&[b"D1", b"D10", b"D2x", b"E", b"V"]).into_iter();
    let points: Vec<Question> = points.map(Question::Point).collect();
    let rate = false_positives(IMAGE_A, &list_a(), &points);
    assert_eq!(rate, Rate { asked: 3, taken: 1 });
    assert_eq!(format!("{:.2}", rate.percent()), "33.33");
}

#[test]
fn ranges_with_a_stored_key_are_left_out() {
    let bounds: [[&[u8]; 2]; 4] = [
        [b"D10", b"D12"],
        [b"D10", b"D11"],
        [b"D2zz", b"E"],
        [b"VA", b"VB"],
    ];
    let range = |[lower, upper]: [&[u8]; 2]| Question::Range(lower.to_vec(), upper.to_vec());
    let rate = false_positives(IMAGE_A, &list_a(), &bounds.map(range));
    assert_eq!(rate, Rate { asked: 3, taken: 2 });
}

#[test]
fn rates_agree_with_the_reference_at_every_number_of_dense_levels() {
    let mut taken = [0, 0];
    for key_set in &KEY_SETS {
        let [keys, others] = [31, 32].map(|seed| (key_set.make)(&mut Random::new(seed), KEYS));
        let kinds: [Kind; 2] = [POINT, SHORT_RANGE];
        for (kind, taken) in kinds.iter().zip(&mut taken) {
            let mut asked = kind.about(&others);
            asked.extend(kind.about(&keys));
            for (h, n) in WIDTHS.into_iter().flat_map(|h| WIDTHS.map(|n| (h, n))) {
                let settings = |dense_levels| version_1(dense_levels, n).with_hash(h);
                let expected = reference_rate(&keys, settings(0), &asked);
                *taken += expected.taken;
                for dense_levels in 0..=4 {
                    let image = built(&keys, settings(dense_levels));
                    assert_eq!(false_positives(&image, &keys, &asked), expected);
                }
            }
        }
    }
    assert!(taken.iter().all(|&taken| taken > 100), "{taken:?}");
}
