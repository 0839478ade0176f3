//! Question files, their replies, and that both agree with the questions put one at a time.

use crate::shared::{image, image_with, settings, versions, Random, IMAGE_A, VAN};
use range_filter::{
    ask, build, write_key_list, write_questions, Filter, Leaf, Question, Replies, Reply, Rule,
    Settings,
};

/// Dense levels, real bits and hash bits to try.
const SETTINGS: [(u8, u8, u8); 6] = [
    (0, 0, 0),
    (1, 3, 0),
    (2, 8, 5),
    (4, 16, 16),
    (0, 0, 9),
    (4, 16, 0),
];

/// Gives the settings of version 1 to try.
fn first_settings() -> impl Iterator<Item = Settings> {
    let settings = |(levels, real, hash)| settings(levels, real).with_hash_bits(hash);
    SETTINGS.into_iter().map(settings)
}

/// Gives the settings to try, each in both versions.
fn all_settings() -> impl Iterator<Item = Settings> {
    first_settings().flat_map(versions)
}

/// Reads replies that have to be whole.
fn read(replies: &[u8]) -> Vec<Reply> {
    let mut read = Replies::new(replies);
    let replies = read.by_ref().collect();
    assert_eq!(read.remainder(), b"");
    replies
}

/// Gives the reply to a question by the filter's method for it.
fn reply(filter: &Filter, question: Question) -> Reply {
    let reply = match question {
        Question::Point(key) => filter.rule(key).map(Reply::Point),
        Question::Seek(start) => filter.seek(start).map(Reply::Seek),
        Question::BeginsWith(stem) => filter.starts_with(stem).map(Reply::BeginsWith),
        Question::Range(lower, upper) => filter.may_contain_range(lower, upper).map(Reply::Range),
        Question::Count(lower, upper) => filter.count(lower, upper).map(Reply::Count),
        _ => panic!("there are five kinds of questions"),
    };
    reply.expect("the question is taken")
}

/// Gives a question of each kind about two keys.
fn about<'a>(one: &'a [u8], other: &'a [u8]) -> [Question<'a>; 5] {
    let (lower, upper) = (one.min(other), one.max(other));
    [
        Question::Point(one),
        Question::Seek(one),
        Question::BeginsWith(one),
        Question::Range(lower, upper),
        Question::Count(lower, upper),
    ]
}

/// Gives keys to ask about that begin with a stem.
fn keys_behind(stem: &[u8], random: &mut Random) -> Vec<Vec<u8>> {
    let keys = (0..200).map(|_| [stem, &random.key(0, 10)].concat());
    keys.collect()
}

/// Gives questions of each kind about each two keys that stand side by side.
fn about_pairs(keys: &[Vec<u8>]) -> Vec<Question<'_>> {
    let pairs = keys.iter().zip(&keys[1..]);
    pairs.flat_map(|(one, other)| about(one, other)).collect()
}

/// Asserts what a filter promises about the keys that it was built from, for two keys.
fn assert_promises(filter: &Filter, stored: &[Vec<u8>], one: &[u8], other: &[u8]) {
    let (lower, upper) = (one.min(other), one.max(other));
    let before = stored.partition_point(|key| &key[..] < lower);
    let within = stored.partition_point(|key| &key[..] <= upper) - before;
    let count = filter.count(lower, upper).expect("the bounds are taken");
    assert!((within..=within + 2).contains(&count));
    assert_eq!(filter.may_contain_range(lower, upper), Ok(count > 0));
    let found = filter.seek(lower).expect("the start is taken");
    let next = stored.get(before);
    assert!(next.is_none() || found.is_some(), "a stored key is denied");
    if let (Some(found), Some(next)) = (found, next) {
        assert!(found.key >= lower && found.key <= next);
        assert!(found.place <= before);
    }
}

#[test]
fn files_agree_with_single_questions() {
    let mut random = Random::new(20);
    for settings in all_settings() {
        let image = image_with(&random.keys(300), settings);
        let filter = Filter::open(&image).expect("the image is accepted");
        let asked = keys_behind(b"", &mut random);
        let questions = about_pairs(&asked);
        let file = write_questions(questions.iter().copied());
        let replies = ask(&image, &file).expect("the file is taken");
        assert_eq!(filter.ask(&file).as_ref(), Ok(&replies));
        let single = questions.iter().map(|&question| reply(&filter, question));
        assert_eq!(read(&replies), single.collect::<Vec<Reply>>());
    }
}

/// Gives the replies to a question file and the leaves of an image.
fn replies_and_leaves(image: &[u8], file: &[u8]) -> (Vec<u8>, Vec<Leaf>) {
    let filter = Filter::open(image).expect("the image is accepted");
    let replies = filter.ask(file).expect("the file is taken");
    (replies, filter.leaves().collect())
}

/// Asserts that a list's images in both versions get the same replies and have the same leaves,
/// for a list and questions whose keys begin with a stem.
fn assert_versions_agree(stem: &[u8], settings: Settings, random: &mut Random) {
    let keys = random.keys(300).into_iter();
    let keys: Vec<Vec<u8>> = keys.map(|key| [stem, &key].concat()).collect();
    let asked = keys_behind(stem, random);
    let file = write_questions(about_pairs(&asked));
    let images = versions(settings).map(|settings| image_with(&keys, settings));
    let [first, second] = images.map(|image| replies_and_leaves(&image, &file));
    assert_eq!(first, second);
}

#[test]
fn versions_get_the_same_replies() {
    let mut random = Random::new(23);
    for settings in first_settings() {
        for stem in [&b""[..], &[b'k'; 54]] {
            assert_versions_agree(stem, settings, &mut random);
        }
    }
}

/// Asserts what a filter promises about each of the keys that it was built from.
fn assert_none_denied(filter: &Filter, stored: &[Vec<u8>]) {
    for key in stored {
        assert_eq!(filter.may_contain(key), Ok(true));
        assert_eq!(filter.rule(key).map(Rule::says), Ok(true));
        assert_eq!(filter.starts_with(&key[..1]), Ok(true));
        assert_promises(filter, stored, key, key);
    }
}

#[test]
fn filters_keep_their_promises() {
    let mut random = Random::new(21);
    for settings in all_settings() {
        let stored = random.keys(300);
        let image = image_with(&stored, settings);
        let filter = Filter::open(&image).expect("the image is accepted");
        assert_eq!(filter.len(), stored.len());
        assert_none_denied(&filter, &stored);
        let pairs = (0..1_000).map(|_| (random.key(0, 10), random.key(0, 10)));
        pairs.for_each(|(one, other)| assert_promises(&filter, &stored, &one, &other));
    }
}

#[test]
fn points_agree_with_their_rules() {
    let mut random = Random::new(22);
    for hash_bits in [0, 2] {
        let image = image_with(&random.keys(300), settings(1, 5).with_hash_bits(hash_bits));
        let filter = Filter::open(&image).expect("the image is accepted");
        for _ in 0..1_000 {
            let key = random.key(0, 10);
            let rule = filter.rule(&key).expect("the key is taken");
            assert_eq!(filter.may_contain(&key), Ok(rule.says()));
        }
    }
}

#[test]
fn replies_byte_by_byte() {
    let questions = [
        Question::Point(b"D1"),
        Question::Range(b"E", b"U"),
        Question::Count(b"D12Z", b"D2"),
        Question::BeginsWith(b"D"),
        Question::Seek(b"D2a"),
        Question::Seek(b"W"),
    ];
    let file = write_questions(questions);
    assert_eq!(
        file,
        b"QP\x02D1QR\x01E\x01UQC\x04D12Z\x02D2QB\x01DQS\x03D2aQS\x01W"
    );
    let replies = ask(IMAGE_A, &file).expect("the file is taken");
    let expected = b"ANP\x01\0\0\0\x01\x03ANR\0\0\0\0\0ANC\x02\0\0\0\0ANB\x01\0\0\0\0\
        ANS\x02\0\0\0\x03D2aANS\xFF\xFF\xFF\xFF\0";
    assert_eq!(replies, expected);
    let replies = read(&replies);
    assert_eq!(
        replies[..4],
        [
            Reply::Point(Rule::ExactLeaf),
            Reply::Range(false),
            Reply::Count(2),
            Reply::BeginsWith(true)
        ]
    );
    let Reply::Seek(Some(found)) = replies[4] else {
        panic!("the seek finds a key");
    };
    assert_eq!((found.place, &found.key[..]), (2, &b"D2a"[..]));
    assert_eq!(replies[5], Reply::Seek(None));
}

#[test]
fn no_questions_have_no_replies() {
    assert_eq!(ask(IMAGE_A, b""), Ok(Vec::new()));
}

#[test]
fn the_longest_replies_fit() {
    let mut keys = [[b'k'; 64]; 2];
    keys[1][63] = b'l';
    let image = image(&keys, 0, 0);
    let replies = ask(&image, &b"QS\0".repeat(1_024)).expect("the file is taken");
    let reply = [&b"ANS\0\0\0\0\x40"[..], &keys[0]].concat();
    assert_eq!(replies, reply.repeat(1_024));
}

#[test]
fn bytes_that_are_no_reply_are_left() {
    let whole = b"ANC\x02\0\0\0\0";
    let wrong: [&[u8]; 10] = [
        b"A",
        b"ANC\x02\0\0\0",            // no length byte
        b"ANX\0\0\0\0\0",            // another letter
        b"BNC\0\0\0\0\0",            // another mark
        b"ANP\x01\0\0\0\0",          // a point without a rule
        b"ANP\x01\0\0\0\x01\x01",    // rule 1 says 0
        b"ANP\0\0\0\0\x01\x07",      // no such rule
        b"ANR\x02\0\0\0\0",          // neither 0 nor 1
        b"ANS\0\0\0\0\x02D",         // a byte of the key is missing
        b"ANS\xFF\xFF\xFF\xFF\x01D", // none, with a key
    ];
    for wrong in wrong {
        let replies = [&whole[..], wrong].concat();
        let mut replies = Replies::new(&replies);
        assert_eq!(replies.next(), Some(Reply::Count(2)));
        assert_eq!(replies.next(), None);
        assert_eq!(replies.next(), None);
        assert_eq!(replies.remainder(), wrong);
    }
}

#[test]
fn lists_byte_by_byte() {
    assert_eq!(write_key_list(VAN), b"KY\x02D1KY\x03D12KY\x02D2KY\x03VAN");
    assert_eq!(write_key_list([""]), b"KY\0");
    let long = write_key_list([[b'k'; 300]]);
    assert_eq!(long, [&b"KY\xFF"[..], &[b'k'; 255]].concat());
}

#[test]
fn keys_of_any_type_build() {
    let expected = Ok(IMAGE_A.to_vec());
    let owned = ["D1", "D12", "D2", "V"].map(String::from);
    let bytes: Vec<Vec<u8>> = owned.iter().map(|key| key.clone().into_bytes()).collect();
    assert_eq!(build(&owned, settings(0, 0)), expected);
    assert_eq!(build(owned, settings(0, 0)), expected);
    assert_eq!(build(&bytes, settings(0, 0)), expected);
    assert_eq!(
        build(bytes.iter().map(|key| &key[..]), settings(0, 0)),
        expected
    );
    assert_eq!(build(bytes, settings(0, 0)), expected);
}
