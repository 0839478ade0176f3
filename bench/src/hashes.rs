//! The measurements of hash bits: the same call of the library over the images of one list with
//! hash bits and with real bits alone.

use crate::accepted::{self, Call};
use crate::measure::{Asked, List, QuestionFile};
use crate::pairs::{self, Pair};
use crate::timing::Figures;
use range_filter_tests::reference::questions::MAX_QUESTIONS;
use range_filter_tests::settings::{version_1, Settings};

/// The hash bits, and the real bits, that are measured.
const BITS: u64 = 8;

/// Gives settings with hash bits alone, by dense levels.
pub fn hash_alone(dense_levels: u64) -> Settings {
    version_1(dense_levels, 0).with_hash(BITS)
}

/// Gives settings with hash bits and real bits, by dense levels.
pub fn hash_and_real(dense_levels: u64) -> Settings {
    version_1(dense_levels, BITS).with_hash(BITS)
}

/// Gives settings with the dense levels of others and with real bits alone.
fn real_alone(settings: Settings) -> Settings {
    version_1(settings.dense_levels, BITS)
}

/// Gives settings with hash bits, and those with real bits alone.
fn against_real(settings: Settings) -> Pair {
    [settings, real_alone(settings)]
}

/// Measures build by key.
pub fn build(list: &List, settings: Settings) -> Figures {
    pairs::build(list, against_real(settings))
}

/// Measures check by key.
pub fn check(list: &List, settings: Settings) -> Figures {
    pairs::check(list, against_real(settings))
}

/// Measures a call with many points about keys of one sort by point, the check of the image
/// included. Those about stored keys have to get the same replies.
pub fn ask(list: &List, settings: Settings, asked: Asked) -> Figures {
    let file = QuestionFile::of(&list.points(asked, MAX_QUESTIONS));
    let twice = pairs::ask(list, against_real(settings), &file);
    let [hashed, real] = twice.replies;
    assert!(asked == Asked::Missing || hashed == real);
    twice.figures
}

/// Measures calls over an accepted image with a point each about keys of one sort. Those about
/// stored keys have to say the same.
pub fn over_accepted(list: &List, settings: Settings, asked: Asked) -> Figures {
    let points = list.points(asked, accepted::CALLS).into_iter();
    let calls: Vec<Call> = points.map(Call::Question).collect();
    match asked {
        Asked::Stored => accepted::by_settings(list, against_real(settings), &calls),
        Asked::Missing => accepted::by_settings_that_differ(list, against_real(settings), &calls),
    }
}
