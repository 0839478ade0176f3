//! The measurements of the library against itself: the same call on one list with two settings,
//! of which the first is timed first.

use crate::measure::{List, QuestionFile, SHORT_CALLS};
use crate::timing::{compare, Figures};
use range_filter_tests::library;
use range_filter_tests::settings::Settings;

/// Two settings that are compared.
pub type Pair = [Settings; 2];

/// What ask takes over two images, and the replies over each.
pub struct AskedTwice {
    pub figures: Figures,
    pub replies: [Vec<u8>; 2],
}

/// Gives the images of a list.
pub fn images(list: &List, settings: Pair) -> [Vec<u8>; 2] {
    settings.map(|settings| list.image(settings))
}

/// Measures build by key, with the images' lengths known before.
pub fn build(list: &List, settings: Pair) -> Figures {
    let [first, second] = settings;
    let stated = settings.map(|settings| list.stated(settings));
    let [mut first_image, mut second_image] = [list.room(), list.room()];
    let figures = compare(
        list.effort(1),
        || library::build(&list.bytes, first, stated[0], &mut first_image).number(),
        || library::build(&list.bytes, second, stated[1], &mut second_image).number(),
    );
    first_image.truncate(stated[0] as usize);
    second_image.truncate(stated[1] as usize);
    assert_eq!([first_image, second_image], images(list, settings));
    figures
}

/// Measures check by key.
pub fn check(list: &List, settings: Pair) -> Figures {
    let [first, second] = images(list, settings);
    compare(
        list.effort(SHORT_CALLS),
        || library::check(&first),
        || library::check(&second),
    )
}

/// Measures a call with a file of questions by question, the check of the image included.
pub fn ask(list: &List, settings: Pair, file: &QuestionFile) -> AskedTwice {
    let [first, second] = images(list, settings);
    let [mut first_replies, mut second_replies] = [file.reply_room(), file.reply_room()];
    let figures = compare(
        file.effort(),
        || library::ask(&first, &file.bytes, &mut first_replies).length(),
        || library::ask(&second, &file.bytes, &mut second_replies).length(),
    );
    AskedTwice {
        figures,
        replies: [first_replies, second_replies],
    }
}
