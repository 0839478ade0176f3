//! False positives: points and ranges to which an image says that there may be a key, though
//! its list has none.

use range_filter_tests::library;
use range_filter_tests::reference::questions::{write, Question, MAX_QUESTIONS};
use range_filter_tests::reference::replies::{POINT_REPLY, REPLY_HEAD};

/// The bytes of a reply before its number.
const NUMBER: usize = 3;

/// How many questions were put for which the list has no key, and of how many of them the
/// image says that there may be one.
#[derive(Clone, Copy, Debug, PartialEq, Eq)]
pub struct Rate {
    pub asked: usize,
    pub taken: usize,
}

impl Rate {
    /// Gives the share in percent.
    pub fn percent(self) -> f64 {
        100.0 * self.taken as f64 / self.asked as f64
    }
}

/// Puts points and ranges to the image of an ascending list, except those for which the list
/// has a key.
pub fn false_positives(image: &[u8], list: &[Vec<u8>], questions: &[Question]) -> Rate {
    let mut asked = questions.to_vec();
    asked.retain(|question| !has_key(list, question));
    let taken = asked.chunks(MAX_QUESTIONS).map(|part| taken(image, part));
    Rate {
        asked: asked.len(),
        taken: taken.sum(),
    }
}

/// Says whether an ascending list has the key of a point, or one in a range.
fn has_key(list: &[Vec<u8>], question: &Question) -> bool {
    let (lower, upper) = match question {
        Question::Point(key) => (key, key),
        Question::Range(lower, upper) => (lower, upper),
        _ => panic!("{question:?} is neither a point nor a range"),
    };
    let first = list.partition_point(|key| key < lower);
    list.get(first).is_some_and(|key| key <= upper)
}

/// Counts the questions of a file to which an image says that there may be a key.
fn taken(image: &[u8], questions: &[Question]) -> usize {
    let mut replies = vec![0; questions.len() * POINT_REPLY];
    let length = library::ask(image, &write(questions), &mut replies).length();
    let length_of = |question: &Question| match question {
        Question::Point(_) => POINT_REPLY,
        _ => REPLY_HEAD,
    };
    let mut rest = &replies[..length];
    let mut taken = 0;
    for question in questions {
        let (reply, behind) = rest.split_at(length_of(question));
        taken += usize::from(reply[NUMBER]);
        rest = behind;
    }
    taken
}
