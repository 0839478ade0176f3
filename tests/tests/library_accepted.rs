//! The proved library's calls over an accepted image, one question each, against the
//! reference, and against the library's replies to a file with that one question.

use range_filter_tests::answer::Answer;
use range_filter_tests::compare::AcceptedCase;
use range_filter_tests::examples::IMAGE_A;
use range_filter_tests::generate::every_setting;
use range_filter_tests::generate::images::{any_image, built, large_images, CHANGES};
use range_filter_tests::generate::keys::{
    any_keys, ff_keys, growing_keys, keys_by_node_size, many_keys, no_keys,
};
use range_filter_tests::generate::neighbours::{keys_around, questions_about, stems_about};
use range_filter_tests::generate::places::{far_places, ROOMS};
use range_filter_tests::generate::questions::{
    any_question, decided_at_dense, key_near, keys_about, questions_near, LONG_LENGTHS,
};
use range_filter_tests::generate::universe::Universe;
use range_filter_tests::library::{self, accept, Accepted};
use range_filter_tests::random::Random;
use range_filter_tests::reference::check::accepted_leaves;
use range_filter_tests::reference::keys::{MAX_KEY, MAX_KEYS};
use range_filter_tests::reference::leaves::{highest, lowest, Leaf};
use range_filter_tests::reference::questions::{write, Question};
use range_filter_tests::reference::replies::{self, Reply, NONE, REPLY_HEAD};
use range_filter_tests::reference::walk::RECORD_BYTES;
use range_filter_tests::settings::{version_1, version_2};
use range_filter_tests::tally::Tally;
use std::collections::BTreeMap;
use std::slice;

const LISTS_A_SETTING: usize = 6;
const QUESTIONS_AN_IMAGE: usize = 80;
const CHANGES_A_KIND: usize = 7_500;
const LARGE_KEYS: usize = 5_000;
const LARGE_QUESTIONS: usize = 600;
const LISTS_BY_NODE_SIZE: usize = 12;
const WALKED_LISTS_A_SETTING: usize = 2;
const PLACES_A_LARGE_IMAGE: usize = 200;
const ADDRESSES: usize = 80;
const OFTEN: usize = 500;

/// The hash bits h and the real bits n that lists of small universes are built with.
const SLOTS: [(u64, u64); 9] = [
    (0, 0),
    (0, 1),
    (0, 8),
    (0, 9),
    (0, 16),
    (1, 0),
    (3, 1),
    (5, 8),
    (16, 16),
];

/// What the calls have been asked and have said: the lengths of keys, with 65 for all that
/// are longer; refusals by their numbers, 0 for none; replies by the letters of their
/// questions; and how many files with one question were compared.
#[derive(Debug, Default)]
struct Coverage {
    lengths: Tally,
    refusals: Tally,
    replies: BTreeMap<u8, Tally>,
    files: usize,
}

impl Coverage {
    /// Compares the calls of questions over an accepted image, and notes what they say.
    fn compare(&mut self, image: &[u8], asked: &[Question]) {
        let leaves = leaves(image);
        let case = case(image, &leaves);
        for question in asked {
            let reply = case.question(question);
            self.compare_file(image, question, &reply);
            self.note(question, &reply);
        }
    }

    /// Asserts that a file with one question gets the same reply or refusal; no file has a
    /// key whose length is no byte.
    fn compare_file(&mut self, image: &[u8], question: &Question, reply: &Result<Reply, u32>) {
        if question.keys().iter().any(|key| key.len() > 0xFF) {
            return;
        }
        let mut bytes = [0; REPLY_HEAD + MAX_KEY];
        let answer = library::ask(image, &write(slice::from_ref(question)), &mut bytes);
        let expected = match reply {
            Ok(reply) => Ok(replies::write(slice::from_ref(reply))),
            Err(number) => Err(*number),
        };
        let found = match answer {
            Answer::Written(length) => Ok(bytes[..length].to_vec()),
            Answer::Refused(number) => Err(number),
        };
        assert_eq!(found, expected, "{question:?} over {image:?}");
        self.files += 1;
    }

    /// Notes the lengths of a question's keys, and its refusal or what its reply says: of a
    /// point the rule, of a count whether it is 0, 1, 2 or more, of a seek whether it gives
    /// its start, a key above it or none.
    fn note(&mut self, question: &Question, reply: &Result<Reply, u32>) {
        for key in question.keys() {
            self.lengths.note(key.len().min(MAX_KEY + 1) as u32);
        }
        self.refusals
            .note(reply.as_ref().err().copied().unwrap_or(0));
        let Ok(reply) = reply else {
            return;
        };
        let said = match question {
            Question::Point(_) => reply.key[0].into(),
            Question::Seek(_) if reply.number == NONE => 2,
            Question::Seek(start) => u32::from(reply.key != *start),
            _ => reply.number.min(3),
        };
        self.replies.entry(reply.letter).or_default().note(said);
    }

    /// Asserts that each refusal came often and no other, and that all calls said all that
    /// they can say.
    fn assert_full(&self, refusals: &[u32]) {
        assert_eq!(self.refusals.numbers(), refusals);
        let often = |&number: &u32| self.refusals.times(number) >= OFTEN;
        assert!(refusals.iter().all(often), "{self:?}");
        let said: Vec<(u8, Vec<u32>)> = self
            .replies
            .iter()
            .map(|(&letter, tally)| (letter, tally.numbers()))
            .collect();
        let all = [
            (b'B', vec![0, 1]),
            (b'C', vec![0, 1, 2, 3]),
            (b'P', vec![1, 2, 3, 4, 5, 6]),
            (b'R', vec![0, 1]),
            (b'S', vec![0, 1, 2]),
        ];
        assert_eq!(said, all, "{self:?}");
        assert!(self.files >= OFTEN, "{self:?}");
    }
}

/// Gives the leaves of an image that is accepted.
fn leaves(image: &[u8]) -> Vec<Leaf> {
    accepted_leaves(image).expect("the image is accepted")
}

/// Takes an image, of which all leaves are given, as the library has accepted it.
fn case<'a>(image: &'a [u8], leaves: &'a [Leaf]) -> AcceptedCase<'a, Accepted<'a>> {
    let accepted = accept(image).expect("the library accepts what the reference does");
    AcceptedCase::new(image, leaves, accepted)
}

/// Gives every kind of question with keys that may be too long or out of order.
fn any_questions(random: &mut Random, image: &[u8], count: usize) -> Vec<Question> {
    let leaves = leaves(image);
    (0..count).map(|_| any_question(random, &leaves)).collect()
}

/// Gives the questions that have a key alone or as a bound, in either order.
fn questions_with(key: &[u8]) -> Vec<Question> {
    let [key, least, most] = [key, &[], &[0xFF; MAX_KEY]].map(<[u8]>::to_vec);
    let mut asked = vec![
        Question::Point(key.clone()),
        Question::Seek(key.clone()),
        Question::BeginsWith(key.clone()),
    ];
    for (lower, upper) in [
        (&key, &most),
        (&least, &key),
        (&most, &key),
        (&key, &least),
        (&key, &key),
    ] {
        asked.push(Question::Range(lower.clone(), upper.clone()));
        asked.push(Question::Count(lower.clone(), upper.clone()));
    }
    asked
}

/// Walks an accepted image from every place with buffers of many lengths, and from behind
/// done, where it is refused; notes the refusals and gives the number of leaves.
fn walk_from_everywhere(image: &[u8], tally: &mut Tally) -> usize {
    let leaves = leaves(image);
    let case = case(image, &leaves);
    let done = leaves.len() as u64;
    let whole = leaves.len() * RECORD_BYTES;
    for place in (0..=done).chain([done + 1, done + 2]).chain(far_places()) {
        for room in ROOMS.into_iter().chain([whole, whole + 1]) {
            tally.note(case.walk(place, room).number());
        }
    }
    leaves.len()
}

#[test]
fn all_lists_of_small_universes_are_asked_alike() {
    let mut coverage = Coverage::default();
    let universes = [
        Universe::of_two_byte_keys(),
        Universe::of_three_byte_keys(),
        Universe::of_short_lists(),
    ];
    for (dense_levels, universe) in (0..).zip(&universes) {
        for (number, list) in universe.lists.iter().enumerate() {
            let (h, n) = SLOTS[number % SLOTS.len()];
            let version = [version_1, version_2][number % 2];
            let settings = version(dense_levels, n).with_hash(h);
            coverage.compare(&built(list, settings), &universe.questions);
        }
    }
    coverage.assert_full(&[0]);
}

#[test]
fn images_of_every_setting_are_asked_alike() {
    let mut random = Random::new(111);
    let mut coverage = Coverage::default();
    for settings in every_setting() {
        for _ in 0..LISTS_A_SETTING {
            let keys = random.pick(&[any_keys, ff_keys, growing_keys, no_keys])(&mut random);
            let image = built(&keys, settings);
            let asked = any_questions(&mut random, &image, QUESTIONS_AN_IMAGE);
            coverage.compare(&image, &asked);
        }
    }
    coverage.assert_full(&[0, 22, 23]);
    let lengths = coverage.lengths.numbers();
    assert!(lengths.into_iter().eq(0..=MAX_KEY as u32 + 1));
}

#[test]
fn images_at_any_address_are_asked_alike() {
    let mut random = Random::new(121);
    let mut coverage = Coverage::default();
    for number in 0..ADDRESSES {
        let mut bytes = vec![0; number % 8];
        bytes.extend(any_image(&mut random));
        let image = &bytes[number % 8..];
        coverage.compare(
            image,
            &any_questions(&mut random, image, QUESTIONS_AN_IMAGE),
        );
        walk_from_everywhere(image, &mut coverage.refusals);
    }
    assert_eq!(coverage.refusals.numbers(), [0, 17, 22, 23]);
}

#[test]
fn keys_around_every_end_are_asked_for_alike() {
    let mut random = Random::new(112);
    let mut coverage = Coverage::default();
    for settings in every_setting() {
        let stored = random.pick(&[any_keys, any_keys, any_keys, no_keys])(&mut random);
        let image = built(&stored, settings);
        let keys = keys_around(&stored, &leaves(&image));
        coverage.compare(&image, &questions_about(&keys));
    }
    coverage.assert_full(&[0]);
    assert!(coverage.files > 50_000, "{coverage:?}");
}

#[test]
fn stems_before_runs_of_ff_are_asked_for_alike() {
    let mut random = Random::new(113);
    let mut coverage = Coverage::default();
    for settings in every_setting() {
        let stored = ff_keys(&mut random);
        let image = built(&stored, settings);
        let leaves = leaves(&image);
        let ends = leaves.iter().flat_map(|leaf| [lowest(leaf), highest(leaf)]);
        for key in stored.iter().cloned().chain(ends) {
            coverage.compare(&image, &stems_about(&key));
        }
    }
    let stems = &coverage.replies[&b'B'];
    assert!(stems.times(0).min(stems.times(1)) >= OFTEN, "{coverage:?}");
}

#[test]
fn each_rule_comes_at_dense_and_at_sparse_nodes() {
    let mut random = Random::new(114);
    let mut coverages: [Coverage; 2] = Default::default();
    for settings in every_setting() {
        for _ in 0..LISTS_A_SETTING {
            let stored = random.pick(&[any_keys, ff_keys, growing_keys, no_keys])(&mut random);
            let image = built(&stored, settings);
            let mut keys = [stored, keys_about(&mut random, &leaves(&image))].concat();
            keys.retain(|key| decided_at_dense(key, settings.dense_levels).is_some());
            let asked: Vec<Question> = keys.into_iter().map(Question::Point).collect();
            coverages[usize::from(settings.dense_levels > 0)].compare(&image, &asked);
        }
    }
    for coverage in &coverages {
        let often = |rule| coverage.replies[&b'P'].times(rule) >= OFTEN;
        assert!((1..=6).all(often), "{coverage:?}");
    }
}

#[test]
fn large_images_are_asked_alike() {
    let mut random = Random::new(115);
    let mut coverage = Coverage::default();
    let mut images: Vec<Vec<u8>> = large_images(&mut random, LARGE_KEYS).collect();
    images.push(built(
        &many_keys(&mut random, MAX_KEYS, 6),
        version_2(2, 5).with_hash(4),
    ));
    for number in 0..LISTS_BY_NODE_SIZE {
        let keys = keys_by_node_size(&mut random, [2, 6, 24, 256][number % 4]);
        let version = [version_1, version_2][number % 2];
        images.push(built(&keys, version((number % 3) as u64, 4)));
    }
    for image in images {
        let asked = questions_near(&mut random, &image, LARGE_QUESTIONS);
        coverage.compare(&image, &asked);
    }
    assert_eq!(coverage.refusals.numbers(), [0]);
    let kinds: Vec<u8> = coverage.replies.keys().copied().collect();
    assert_eq!(kinds, b"BCPRS", "{coverage:?}");
}

#[test]
fn accepted_images_that_were_changed_are_asked_alike() {
    let mut random = Random::new(116);
    let mut coverage = Coverage::default();
    for _ in 0..CHANGES_A_KIND {
        let image = any_image(&mut random);
        for change in &CHANGES {
            let changed = (change.apply)(&mut random, &image);
            if accept(&changed).is_ok() {
                coverage.compare(&changed, &any_questions(&mut random, &changed, 10));
            }
        }
    }
    coverage.assert_full(&[0, 22, 23]);
}

#[test]
fn keys_over_64_bytes_are_refused_with_22() {
    let mut random = Random::new(117);
    let mut coverage = Coverage::default();
    for image in [
        IMAGE_A,
        &built(&[], version_2(2, 8)),
        &any_image(&mut random),
    ] {
        let leaves = leaves(image);
        for length in LONG_LENGTHS {
            let mut long = key_near(&mut random, &leaves);
            long.resize(length, random.byte());
            coverage.compare(image, &questions_with(&long));
        }
    }
    assert_eq!(coverage.refusals.numbers(), [22]);
}

#[test]
fn bounds_out_of_order_are_refused_with_23() {
    let mut random = Random::new(118);
    let mut coverage = Coverage::default();
    for _ in 0..OFTEN {
        let keys = random.pick(&[any_keys, any_keys, no_keys])(&mut random);
        let image = built(&keys, version_2(1, 3));
        let mut bounds = [(); 2].map(|()| key_near(&mut random, &leaves(&image)));
        bounds.sort();
        let [lower, upper] = bounds;
        if lower < upper {
            let range = Question::Range(upper.clone(), lower.clone());
            coverage.compare(&image, &[range, Question::Count(upper, lower)]);
        }
    }
    assert_eq!(coverage.refusals.numbers(), [23]);
    assert!(coverage.files >= OFTEN, "{coverage:?}");
}

#[test]
fn images_of_every_setting_are_walked_from_every_place() {
    let mut random = Random::new(119);
    let mut tally = Tally::default();
    let mut leaves = 0;
    for settings in every_setting() {
        for _ in 0..WALKED_LISTS_A_SETTING {
            let image = built(&any_keys(&mut random), settings);
            leaves += walk_from_everywhere(&image, &mut tally);
        }
        let empty = built(&[], settings);
        assert_eq!(walk_from_everywhere(&empty, &mut tally), 0);
    }
    assert_eq!(tally.numbers(), [0, 17]);
    assert!(leaves >= OFTEN, "{leaves} leaves");
}

#[test]
fn large_images_are_walked_from_some_places() {
    let mut random = Random::new(120);
    let images: Vec<Vec<u8>> = large_images(&mut random, LARGE_KEYS).collect();
    for image in images {
        let leaves = leaves(&image);
        let case = case(&image, &leaves);
        let whole = leaves.len() * RECORD_BYTES;
        assert_eq!(case.walk(0, whole), Answer::Written(whole));
        for _ in 0..PLACES_A_LARGE_IMAGE {
            let place = random.below(leaves.len()) as u64;
            assert_eq!(case.walk(place, RECORD_BYTES).length(), RECORD_BYTES);
            case.walk(place, random.below(40 * RECORD_BYTES));
        }
    }
}
