//! The measurements of version 2 against version 1: the same call of the library over the
//! images of one list in both, other settings equal. Both have to give the same.

use crate::accepted::{self, Call};
use crate::measure::{List, QuestionFile};
use crate::pairs::{self, Pair};
use crate::timing::{compare, Figures};
use range_filter_bench::fast::check;
use range_filter_bench::questions::Kind;
use range_filter_tests::generate::in_both_versions;
use range_filter_tests::library;
use range_filter_tests::settings::{version_1, Settings};

/// Gives settings in version 2 and in version 1.
fn newest_first(settings: Settings) -> Pair {
    let [version_1, version_2] = in_both_versions(settings);
    [version_2, version_1]
}

/// Gives the bytes of the images in version 2 and in version 1.
pub fn image_bytes(list: &List, settings: Settings) -> [usize; 2] {
    pairs::images(list, newest_first(settings)).map(|image| image.len())
}

/// Gives the number of levels that have nodes, which no setting changes.
pub fn levels(list: &List) -> usize {
    let image = list.image(version_1(0, 0));
    let accepted = check::accept(&image).expect("a built image is accepted");
    accepted.levels.count
}

/// Measures build by key, with the images' lengths known before.
pub fn build(list: &List, settings: Settings) -> Figures {
    pairs::build(list, newest_first(settings))
}

/// Measures check by key.
pub fn check(list: &List, settings: Settings) -> Figures {
    pairs::check(list, newest_first(settings))
}

/// Measures a walk over all leaves in one call by leaf, the check of the image included.
pub fn walk(list: &List, settings: Settings) -> Figures {
    let [two, one] = pairs::images(list, newest_first(settings));
    let [mut records_one, mut records_two] = [list.record_room(), list.record_room()];
    let figures = compare(
        list.effort(1),
        || library::walk(&two, 0, &mut records_two).length(),
        || library::walk(&one, 0, &mut records_one).length(),
    );
    assert_eq!(records_two, records_one);
    figures
}

/// Measures a call with so many questions of a kind by question, the check of the image
/// included.
pub fn ask(list: &List, settings: Settings, kind: &Kind, count: usize) -> Figures {
    let file = QuestionFile::new(list, kind, count);
    let asked = pairs::ask(list, newest_first(settings), &file);
    let [two, one] = asked.replies;
    assert_eq!(two, one);
    asked.figures
}

/// Measures calls over an accepted image by call.
pub fn over_accepted(list: &List, settings: Settings, calls: &[Call]) -> Figures {
    accepted::by_settings(list, newest_first(settings), calls)
}
