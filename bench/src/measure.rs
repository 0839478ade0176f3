//! The lists that are measured, and the measurements of the library against the fast
//! implementation: two calls that are compared on one list with the same settings; and of a
//! build's first call against its second.

use crate::timing::{compare, Effort, Figures};
use range_filter_bench::fast;
use range_filter_bench::keys::KeySet;
use range_filter_bench::questions::{questions, Kind, POINT};
use range_filter_bench::rates::{false_positives, Rate};
use range_filter_tests::library;
use range_filter_tests::random::Random;
use range_filter_tests::reference::keys::{self, MAX_KEY};
use range_filter_tests::reference::questions::{write, Question};
use range_filter_tests::reference::replies::REPLY_HEAD;
use range_filter_tests::reference::walk::RECORD_BYTES;
use range_filter_tests::settings::Settings;

/// The seeds of the keys in a list, of those that are only asked for, and of questions.
const SEED: u64 = 1;
const OTHER_SEED: u64 = 2;
const QUESTION_SEED: u64 = 3;

/// The keys of a round: lists with fewer keys are taken several times.
const KEYS_A_ROUND: usize = 1 << 16;

/// How often a round makes calls that are short, and the most questions of a short ask.
pub const SHORT_CALLS: usize = 16;
const SHORT_ASK: usize = 16;

/// The bytes of a list's record before its key: mark and length.
const KEY_HEAD: usize = 3;

/// More bytes than the dense nodes of an image take.
const DENSE_ROOM: usize = 1 << 16;

/// Keys with the list of them, and as many other keys that are made like them.
pub struct List {
    pub name: &'static str,
    keys: Vec<Vec<u8>>,
    others: Vec<Vec<u8>>,
    pub bytes: Vec<u8>,
}

/// Which keys points are about: those of the list, or others that are not in it.
#[derive(Clone, Copy, Debug, PartialEq, Eq)]
pub enum Asked {
    Stored,
    Missing,
}

impl List {
    /// Makes so many keys.
    pub fn new(key_set: &KeySet, count: usize) -> Self {
        let make = |seed| (key_set.make)(&mut Random::new(seed), count);
        let keys = make(SEED);
        List {
            name: key_set.name,
            bytes: keys::write(&keys),
            keys,
            others: make(OTHER_SEED),
        }
    }

    /// Gives the keys as they stand in the list, one behind the other.
    fn listed_keys(&self) -> Vec<&[u8]> {
        let mut rest = self.bytes.as_slice();
        let key = |key: &Vec<u8>| {
            let (listed, behind) = rest[KEY_HEAD..].split_at(key.len());
            rest = behind;
            listed
        };
        self.keys.iter().map(key).collect()
    }

    /// Gives the effort of a measurement by key whose calls are made so often.
    pub fn effort(&self, times: usize) -> Effort {
        Effort {
            calls: times * (KEYS_A_ROUND / self.keys.len()),
            units: self.keys.len(),
        }
    }

    /// Gives a buffer that holds the image.
    pub fn room(&self) -> Vec<u8> {
        vec![0; 2 * self.bytes.len() + DENSE_ROOM]
    }

    /// Gives a buffer that holds the records of all leaves.
    pub fn record_room(&self) -> Vec<u8> {
        vec![0; self.keys.len() * RECORD_BYTES]
    }

    /// Gives the image.
    pub fn image(&self, settings: Settings) -> Vec<u8> {
        let mut image = self.room();
        let stated = self.stated(settings);
        let answer = fast::build::build(&self.bytes, settings, stated, &mut image);
        image.truncate(answer.length());
        image
    }

    /// Gives so many questions of a kind.
    pub fn questions(&self, kind: &Kind, count: usize) -> Vec<Question> {
        let mut random = Random::new(QUESTION_SEED);
        questions(&mut random, [&self.keys, &self.others], kind, count)
    }

    /// Gives so many points about keys of one sort.
    pub fn points(&self, asked: Asked, count: usize) -> Vec<Question> {
        let mut keys = match asked {
            Asked::Stored => self.keys.clone(),
            Asked::Missing => self.others.clone(),
        };
        keys.retain(|key| self.keys.binary_search(key).is_ok() == (asked == Asked::Stored));
        questions(
            &mut Random::new(QUESTION_SEED),
            [&keys, &keys],
            &POINT,
            count,
        )
    }

    /// Gives so many places of leaves.
    pub fn places(&self, count: usize) -> Vec<u64> {
        let mut random = Random::new(QUESTION_SEED);
        let place = |_| random.below(self.keys.len()) as u64;
        (0..count).map(place).collect()
    }

    /// Gives the length of the image, as the library tells it.
    pub fn stated(&self, settings: Settings) -> u64 {
        let length = library::image_length(&self.bytes, settings);
        length.expect("the keys make a list") as u64
    }
}

/// A file with questions of one kind.
pub struct QuestionFile {
    pub bytes: Vec<u8>,
    count: usize,
}

impl QuestionFile {
    /// Writes so many questions about keys of a list and about others.
    pub fn new(list: &List, kind: &Kind, count: usize) -> Self {
        QuestionFile::of(&list.questions(kind, count))
    }

    /// Writes questions.
    pub fn of(questions: &[Question]) -> Self {
        QuestionFile {
            bytes: write(questions),
            count: questions.len(),
        }
    }

    /// Gives a buffer that holds the replies.
    pub fn reply_room(&self) -> Vec<u8> {
        vec![0; self.count * (REPLY_HEAD + MAX_KEY)]
    }

    /// Gives the effort of a measurement by question.
    pub fn effort(&self) -> Effort {
        let is_short = self.count <= SHORT_ASK;
        Effort {
            calls: if is_short { SHORT_CALLS } else { 1 },
            units: self.count,
        }
    }
}

/// Gives how often the image is wrong about questions of a kind, points or ranges, about keys
/// that are made like those of the list.
pub fn rate(list: &List, settings: Settings, kind: &Kind) -> Rate {
    false_positives(&list.image(settings), &list.keys, &kind.about(&list.others))
}

/// Gives the bytes of the image by key.
pub fn image_bytes(list: &List, settings: Settings) -> f64 {
    list.image(settings).len() as f64 / list.keys.len() as f64
}

/// Measures the hash of all keys by key.
pub fn hash(list: &List) -> Figures {
    let keys = list.listed_keys();
    compare(
        list.effort(1),
        || sum_of_hashes(&keys, library::hash),
        || sum_of_hashes(&keys, fast::hash::hash),
    )
}

/// Takes the hash of all keys, and gives the sum of them, modulo 2^64.
fn sum_of_hashes(keys: &[&[u8]], hash: impl Fn(&[u8]) -> u64) -> u64 {
    let hashes = keys.iter().map(|key| hash(key));
    hashes.fold(0, u64::wrapping_add)
}

/// Measures build by key, with the image's length known before.
pub fn build(list: &List, settings: Settings) -> Figures {
    let [mut image, mut library_image] = [list.room(), list.room()];
    let (bytes, stated) = (list.bytes.as_slice(), list.stated(settings));
    let figures = compare(
        list.effort(1),
        || library::build(bytes, settings, stated, &mut library_image).length(),
        || fast::build::build(bytes, settings, stated, &mut image).length(),
    );
    assert_eq!(library_image, image);
    figures
}

/// Measures the call that gives the image's length against the one that builds, by key.
pub fn length(list: &List, settings: Settings) -> Figures {
    let mut image = list.room();
    let (bytes, stated) = (list.bytes.as_slice(), list.stated(settings));
    compare(
        list.effort(1),
        || library::image_length(bytes, settings).expect("the keys make a list"),
        || library::build(bytes, settings, stated, &mut image).length(),
    )
}

/// Measures check by key.
pub fn check(list: &List, settings: Settings) -> Figures {
    let image = list.image(settings);
    compare(
        list.effort(SHORT_CALLS),
        || library::check(&image),
        || fast::check::check(&image),
    )
}

/// Measures a walk over all leaves in one call by leaf, the check of the image included.
pub fn walk(list: &List, settings: Settings) -> Figures {
    let image = list.image(settings);
    let [mut records, mut library_records] = [list.record_room(), list.record_room()];
    let figures = compare(
        list.effort(1),
        || library::walk(&image, 0, &mut library_records).length(),
        || fast::walk::walk(&image, 0, &mut records).length(),
    );
    assert_eq!(library_records, records);
    figures
}

/// Measures a call with so many questions of a kind by question, the check of the image
/// included.
pub fn ask(list: &List, settings: Settings, kind: &Kind, count: usize) -> Figures {
    let image = list.image(settings);
    let file = QuestionFile::new(list, kind, count);
    let [mut replies, mut library_replies] = [file.reply_room(), file.reply_room()];
    let figures = compare(
        file.effort(),
        || library::ask(&image, &file.bytes, &mut library_replies).length(),
        || fast::ask::ask(&image, &file.bytes, &mut replies).length(),
    );
    assert_eq!(library_replies, replies);
    figures
}
