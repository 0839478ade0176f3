//! The proved library in both versions: one list's images, other settings equal, have the same
//! bytes but for the version and the level starts, and get the same replies, walks and numbers
//! from every call. Each is compared with the other by the library alone.

use range_filter_tests::accepted::{AcceptedCalls, Found, Number, FOUND_BYTES};
use range_filter_tests::answer::Answer;
use range_filter_tests::generate::keys::{
    any_keys, ff_keys, growing_keys, keys_by_node_size, many_mixed_keys, no_keys,
};
use range_filter_tests::generate::places::{far_places, ROOMS};
use range_filter_tests::generate::questions::{any_question, question_near};
use range_filter_tests::generate::universe::Universe;
use range_filter_tests::generate::{damaged, every_setting_of_version_1, in_both_versions};
use range_filter_tests::library::{self, accept, Accepted};
use range_filter_tests::random::Random;
use range_filter_tests::reference::keys::{self, MAX_KEY};
use range_filter_tests::reference::leaves::{leaves, Leaf};
use range_filter_tests::reference::questions::{write, Question, MAX_QUESTIONS};
use range_filter_tests::reference::replies::REPLY_HEAD;
use range_filter_tests::reference::walk::RECORD_BYTES;
use range_filter_tests::settings::{version_1, Settings};
use range_filter_tests::tally::Tally;

const LISTS_A_SETTING: usize = 4;
const QUESTIONS_A_LIST: usize = 60;
const DAMAGED_FILES_A_LIST: usize = 8;
const LARGE_QUESTIONS: usize = 600;

/// The byte that buffers hold before a call.
const UNTOUCHED: u8 = 0x5A;

/// One list's images in both versions, as the library builds them, and the list's leaves.
struct Pair {
    images: [Vec<u8>; 2],
    leaves: Vec<Leaf>,
}

impl Pair {
    /// Builds the images of keys that make a list.
    fn new(keys: &[Vec<u8>], settings: Settings) -> Self {
        let list = keys::write(keys);
        Pair {
            images: in_both_versions(settings).map(|settings| built(&list, settings)),
            leaves: leaves(keys, settings),
        }
    }

    /// Makes a call over each image that writes to a buffer of some length, asserts that both
    /// give the same answer and leave the same bytes, and gives the answer.
    fn same(&self, room: usize, call: impl Fn(&[u8], &mut [u8]) -> Answer) -> Answer {
        let [one, two] = self.images.each_ref().map(|image| {
            let mut buffer = vec![UNTOUCHED; room];
            (call(image, &mut buffer), buffer)
        });
        assert!(one == two, "{:?} {:?} {:?}", one.0, two.0, self.images);
        one.0
    }

    /// Asserts that a question file gets the same replies or the same number in buffers that
    /// hold the replies and in one that does not, and gives the number.
    fn ask(&self, file: &[u8], questions: usize) -> u32 {
        let ask = |image: &[u8], replies: &mut [u8]| library::ask(image, file, replies);
        self.same(questions * REPLY_HEAD, ask);
        self.same(questions * (REPLY_HEAD + MAX_KEY), ask).number()
    }

    /// Asserts that questions get the same replies, in files and one at a time.
    fn ask_all(&self, questions: &[Question]) {
        for asked in questions.chunks(MAX_QUESTIONS) {
            assert_eq!(self.ask(&write(asked), asked.len()), 0);
        }
        let [one, two] = self.accepted();
        for question in questions {
            assert!(said(one, question) == said(two, question), "{question:?}");
        }
    }

    /// Asserts that the walks from a place are the same in buffers of many lengths.
    fn walk(&self, place: u64) {
        let [one, two] = self.accepted();
        for room in ROOMS.into_iter().chain([self.leaves.len() * RECORD_BYTES]) {
            self.same(room, |image, records| library::walk(image, place, records));
            let [one, two] = [one, two].map(|image| {
                let mut records = vec![UNTOUCHED; room];
                (image.walk(place, &mut records), records)
            });
            assert!(one == two, "{place} {:?}", self.images);
        }
    }

    /// Gives the images as the library has accepted them.
    fn accepted(&self) -> [Accepted<'_>; 2] {
        let images = self.images.each_ref();
        images.map(|image| accept(image).expect("a built image is accepted"))
    }

    /// Counts the levels that have nodes: a leaf's cut key has a node for each of its proper
    /// prefixes, and an exact leaf is a node too.
    fn levels(&self) -> usize {
        let levels = |leaf: &Leaf| leaf.cut_key.len() + usize::from(leaf.exact);
        self.leaves.iter().map(levels).max().unwrap_or(0)
    }
}

/// Builds the image of a list.
fn built(list: &[u8], settings: Settings) -> Vec<u8> {
    let length = library::image_length(list, settings).expect("the keys make a list");
    let mut image = vec![0; length];
    let answer = library::build(list, settings, length as u64, &mut image);
    assert_eq!(answer, Answer::Written(length));
    image
}

/// Gives what the calls of a question say over an accepted image, the rule of a point among
/// it, and the bytes of a seek's buffer.
fn said(image: Accepted, question: &Question) -> (Number, Option<Number>, Found) {
    let mut found = [UNTOUCHED; FOUND_BYTES];
    let number = image.ask(question, &mut found);
    let rule = match question {
        Question::Point(key) => Some(image.rule(key)),
        _ => None,
    };
    (number, rule, found)
}

/// Tries something on the images of random lists at every setting.
fn try_pairs(seed: u64, mut trial: impl FnMut(&mut Random, &Pair)) {
    let mut random = Random::new(seed);
    for settings in every_setting_of_version_1() {
        for _ in 0..LISTS_A_SETTING {
            let kinds = [any_keys, any_keys, ff_keys, growing_keys, no_keys];
            let keys = random.pick(&kinds)(&mut random);
            trial(&mut random, &Pair::new(&keys, settings));
        }
    }
}

#[test]
fn images_differ_in_the_version_and_the_level_starts_alone() {
    let mut levels = Tally::default();
    try_pairs(141, |_, pair| {
        let [one, two] = &pair.images;
        let length = 4 * pair.levels();
        assert_eq!(two.len(), one.len() + 6 + length);
        assert_eq!((one[2], two[2]), (1, 2));
        assert_eq!((&one[..2], &one[3..]), (&two[..2], &two[3..one.len()]));
        let head = [&b"LV"[..], &(length as u32).to_le_bytes()].concat();
        assert_eq!(two[one.len()..][..6], head);
        levels.note(pair.levels() as u32);
    });
    let numbers = levels.numbers();
    assert_eq!((numbers[0], numbers.last()), (0, Some(&(MAX_KEY as u32))));
    assert!(numbers.len() > MAX_KEY / 2, "{levels:?}");
}

#[test]
fn questions_get_the_same_replies() {
    try_pairs(142, |random, pair| {
        let near = |_| question_near(random, &pair.leaves);
        let asked: Vec<Question> = (0..QUESTIONS_A_LIST).map(near).collect();
        pair.ask_all(&asked);
    });
}

#[test]
fn questions_that_need_not_be_taken_get_the_same_numbers() {
    let mut tally = Tally::default();
    try_pairs(143, |random, pair| {
        let [one, two] = pair.accepted();
        for _ in 0..DAMAGED_FILES_A_LIST {
            let question = any_question(random, &pair.leaves);
            assert_eq!(said(one, &question), said(two, &question));
            let near = |_| question_near(random, &pair.leaves);
            let file = write(&(0..4).map(near).collect::<Vec<Question>>());
            tally.note(pair.ask(&damaged(random, &file), 8));
        }
    });
    assert_eq!(tally.numbers(), [0, 21, 22, 23]);
}

#[test]
fn walks_are_the_same() {
    try_pairs(144, |random, pair| {
        let done = pair.leaves.len() as u64;
        pair.walk(0);
        pair.walk(random.below(pair.leaves.len() + 1) as u64);
        pair.walk(done);
        pair.walk(done + 1);
    });
    let pair = Pair::new(&any_keys(&mut Random::new(145)), version_1(1, 5));
    far_places().for_each(|place| pair.walk(place));
}

#[test]
fn all_lists_of_two_byte_keys_get_the_same_replies() {
    let universe = Universe::of_two_byte_keys();
    for (number, list) in universe.lists.iter().enumerate() {
        let (h, n) = [(0, 0), (0, 1), (0, 9), (3, 0), (4, 9)][number % 5];
        let settings = version_1((number % 4) as u64, n).with_hash(h);
        Pair::new(list, settings).ask_all(&universe.questions);
    }
}

#[test]
fn large_images_get_the_same_replies_and_walks() {
    let mut random = Random::new(146);
    let mut pairs = Vec::new();
    for (settings, length, count) in [
        (version_1(0, 0), 8, 4_000),
        (version_1(2, 8).with_hash(3), 13, 4_000),
        (version_1(0, 9), 63, 3_000),
        (version_1(4, 16).with_hash(16), 64, 3_000),
        (version_1(1, 5), 6, 20_000),
    ] {
        let keys = many_mixed_keys(&mut random, count, length);
        pairs.push(Pair::new(&keys, settings));
    }
    for most in [2, 6, 24, 256] {
        let keys = keys_by_node_size(&mut random, most);
        pairs.push(Pair::new(&keys, version_1(1, 4)));
    }
    for pair in pairs {
        let near = |_| question_near(&mut random, &pair.leaves);
        let asked: Vec<Question> = (0..LARGE_QUESTIONS).map(near).collect();
        pair.ask_all(&asked);
        pair.walk(0);
        pair.walk(random.below(pair.leaves.len()) as u64);
    }
}
