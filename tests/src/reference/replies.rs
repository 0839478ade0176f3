//! Replies over an image, by looking at every one of its leaves; the rule behind a point's
//! reply is found in their trie.

use super::check::accepted_leaves;
use super::keys::{write_key, MAX_KEY};
use super::leaves::{highest, is_held, lowest, Leaf};
use super::questions::{parse, Question};
use super::rules::rule;
use super::trie::{trie, Trie};
use crate::answer::{put, Answer};

/// The number of a seek that finds no leaf.
pub const NONE: u32 = 0xFFFF_FFFF;

/// The bytes of a reply before its key.
pub const REPLY_HEAD: usize = 8;

/// The bytes of a point's reply, whose key has one byte.
pub const POINT_REPLY: usize = REPLY_HEAD + 1;

/// A reply: the question's second letter, a number and a key. A point's key is the number of
/// the rule behind the reply; of the others only a seek that finds a leaf has a key.
#[derive(Clone, Debug, PartialEq, Eq)]
pub struct Reply {
    pub letter: u8,
    pub number: u32,
    pub key: Vec<u8>,
}

/// What replies are worked out from: the leaves in key order, the interval of each one's
/// possible keys, and their trie.
pub struct Filter<'a> {
    pub leaves: &'a [Leaf],
    intervals: Vec<Interval>,
    trie: Trie<'a>,
}

/// The lowest and the highest of a leaf's possible keys.
struct Interval {
    lowest: Vec<u8>,
    highest: Vec<u8>,
}

/// Replies to a question file over an image at the start of the reply buffer; a refusal
/// leaves the buffer as it was.
pub fn ask(image: &[u8], questions: &[u8], replies: &mut [u8]) -> Answer {
    put(reply_bytes(image, questions), 25, replies)
}

/// Gives the bytes of the replies, or the number of the first fault in the order of
/// document 01.
fn reply_bytes(image: &[u8], questions: &[u8]) -> Result<Vec<u8>, u32> {
    let leaves = accepted_leaves(image)?;
    let questions = parse(questions)?;
    Ok(write(&replies(&leaves, &questions)))
}

/// Gives the replies to questions over leaves in key order.
pub fn replies(leaves: &[Leaf], questions: &[Question]) -> Vec<Reply> {
    let filter = Filter::new(leaves);
    let asked = questions.iter();
    asked.map(|question| reply(&filter, question)).collect()
}

impl<'a> Filter<'a> {
    /// Takes the leaves of an accepted image in key order.
    pub fn new(leaves: &'a [Leaf]) -> Self {
        let interval = |leaf| Interval {
            lowest: lowest(leaf),
            highest: highest(leaf),
        };
        Filter {
            leaves,
            intervals: leaves.iter().map(interval).collect(),
            trie: trie(leaves),
        }
    }
}

/// Gives the reply to one question.
pub fn reply(filter: &Filter, question: &Question) -> Reply {
    let count = |lower: &[u8], upper: &[u8]| count(&filter.intervals, lower, upper);
    let (number, key) = match question {
        Question::Point(key) => point(filter, key),
        Question::Range(lower, upper) => (count(lower, upper).min(1), Vec::new()),
        Question::BeginsWith(stem) => (count(stem, &stem_end(stem)).min(1), Vec::new()),
        Question::Count(lower, upper) => (count(lower, upper), Vec::new()),
        Question::Seek(start) => seek(&filter.intervals, start),
    };
    Reply {
        letter: question.letter(),
        number,
        key,
    }
}

/// Gives 1 if some leaf has the key by hash bits and real bits, else 0, and the number of the
/// rule as a key of one byte. Neither is worked out from the other.
fn point(filter: &Filter, key: &[u8]) -> (u32, Vec<u8>) {
    let is_held = filter.leaves.iter().any(|leaf| is_held(leaf, key));
    let rule = rule(filter.leaves, &filter.trie, key);
    (u32::from(is_held), vec![rule.number()])
}

/// Counts the leaves with a possible key in a range. The possible keys are an interval
/// too, so that the two meet if neither ends before the other starts.
fn count(intervals: &[Interval], lower: &[u8], upper: &[u8]) -> u32 {
    let meets = |i: &&Interval| i.lowest.as_slice() <= upper && i.highest.as_slice() >= lower;
    intervals.iter().filter(meets).count() as u32
}

/// Gives the upper bound of a begins-with question: the stem filled with FF to 64 bytes.
fn stem_end(stem: &[u8]) -> Vec<u8> {
    let mut end = stem.to_vec();
    end.resize(MAX_KEY, 0xFF);
    end
}

/// Gives the number of the first leaf whose highest key is not below the start, and the
/// greater of the start and the leaf's lowest key.
fn seek(intervals: &[Interval], start: &[u8]) -> (u32, Vec<u8>) {
    let reaches = |i: &Interval| i.highest.as_slice() >= start;
    match intervals.iter().position(reaches) {
        Some(number) => {
            let lowest = intervals[number].lowest.as_slice();
            (number as u32, lowest.max(start).to_vec())
        }
        None => (NONE, Vec::new()),
    }
}

/// Writes replies one behind the other.
pub fn write(replies: &[Reply]) -> Vec<u8> {
    let mut bytes = Vec::new();
    for reply in replies {
        bytes.extend_from_slice(&[b'A', b'N', reply.letter]);
        bytes.extend_from_slice(&reply.number.to_le_bytes());
        write_key(&mut bytes, &reply.key);
    }
    bytes
}
