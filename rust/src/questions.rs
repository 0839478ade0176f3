//! Files of questions and their replies.

use crate::filter::{is_one, NOT_FOUND};
use crate::images::write_key;
use crate::{calls, Found, Refusal, Rule};
use std::iter::FusedIterator;

/// The most questions of a file.
///
/// ```
/// assert_eq!(range_filter::MAX_QUESTIONS, 1_024);
/// ```
pub const MAX_QUESTIONS: usize = 1_024;

/// The bytes of the shortest question: its mark and a length byte.
const SHORTEST_QUESTION: usize = 3;
/// The bytes of the longest reply, which is a seek's with a key of 64 bytes.
const LONGEST_REPLY: usize = 72;
/// The bytes of a reply before its length byte: mark, letter and number.
const REPLY_HEAD: usize = 7;

/// Replies to a file of questions over an image, and checks both. [`Question`] writes such a
/// file, and [`Replies`] reads what comes back.
///
/// # Errors
///
/// Those of [`check`](crate::check) for the image; then
/// [`QuestionMalformed`](Refusal::QuestionMalformed) to
/// [`TooManyQuestions`](Refusal::TooManyQuestions), numbers 21 to 24, for the first question that
/// cannot be taken.
///
/// ```
/// use range_filter::{ask, build, Settings};
///
/// let image = build(["D1", "D12", "D2", "V"], Settings::default())?;
/// let replies = ask(&image, b"QP\x02D1QS\x03D13")?;
/// assert_eq!(replies, b"ANP\x01\x00\x00\x00\x01\x03ANS\x02\x00\x00\x00\x02D2");
/// # Ok::<(), range_filter::Refusal>(())
/// ```
pub fn ask(image: &[u8], questions: &[u8]) -> Result<Vec<u8>, Refusal> {
    // So many bytes are enough: a file with more questions is refused.
    let most = (questions.len() / SHORTEST_QUESTION).min(MAX_QUESTIONS);
    let mut replies = vec![0; most * LONGEST_REPLY];
    let written = calls::ask(image, questions, &mut replies)?;
    replies.truncate(written as usize);
    Ok(replies)
}

/// A question of a file.
///
/// ```
/// use range_filter::{ask, build, write_questions, Question, Replies, Reply, Rule, Settings};
///
/// let image = build(["D1", "D12", "D2", "V"], Settings::default())?;
/// let questions = [
///     Question::Point(b"D10"),
///     Question::Count(b"D12Z", b"D2"),
///     Question::Seek(b"W"),
/// ];
/// let replies = ask(&image, &write_questions(questions))?;
/// let replies: Vec<Reply> = Replies::new(&replies).collect();
/// assert_eq!(
///     replies,
///     [Reply::Point(Rule::BranchMissing), Reply::Count(2), Reply::Seek(None)]
/// );
/// # Ok::<(), range_filter::Refusal>(())
/// ```
#[derive(Clone, Copy, Debug, PartialEq, Eq, Hash)]
#[non_exhaustive]
pub enum Question<'a> {
    /// "QP": may this key be stored?
    Point(&'a [u8]),
    /// "QS": which is the smallest key from this start on that may be stored?
    Seek(&'a [u8]),
    /// "QB": may a key that begins with this stem be stored?
    BeginsWith(&'a [u8]),
    /// "QR": may a key from the lower to the upper bound, both included, be stored?
    Range(&'a [u8], &'a [u8]),
    /// "QC": how many keys from the lower to the upper bound, both included, may be stored?
    Count(&'a [u8], &'a [u8]),
}

impl Question<'_> {
    /// Writes the question behind the others of a file.
    ///
    /// Nothing is judged here. Of a key that has over 255 bytes the first 255 are written, for a
    /// length byte says no more; [`ask`] refuses such a key by its length.
    ///
    /// ```
    /// use range_filter::Question;
    ///
    /// let mut file = Vec::new();
    /// Question::Point(b"D1").write(&mut file);
    /// Question::Range(b"D11", b"D13").write(&mut file);
    /// assert_eq!(file, b"QP\x02D1QR\x03D11\x03D13");
    /// ```
    pub fn write(self, file: &mut Vec<u8>) {
        let (mark, first, second) = match self {
            Question::Point(key) => (b"QP", key, None),
            Question::Seek(start) => (b"QS", start, None),
            Question::BeginsWith(stem) => (b"QB", stem, None),
            Question::Range(lower, upper) => (b"QR", lower, Some(upper)),
            Question::Count(lower, upper) => (b"QC", lower, Some(upper)),
        };
        file.extend_from_slice(mark);
        write_key(first, file);
        if let Some(second) = second {
            write_key(second, file);
        }
    }
}

/// Writes a file of questions.
///
/// ```
/// use range_filter::{write_questions, Question};
///
/// let file = write_questions([Question::BeginsWith(b"D"), Question::Seek(b"")]);
/// assert_eq!(file, b"QB\x01DQS\x00");
/// ```
pub fn write_questions<'a>(questions: impl IntoIterator<Item = Question<'a>>) -> Vec<u8> {
    let mut file = Vec::new();
    for question in questions {
        question.write(&mut file);
    }
    file
}

/// The reply to a question.
///
/// ```
/// use range_filter::{ask, build, Replies, Reply, Rule, Settings};
///
/// let image = build(["D1", "D12", "D2", "V"], Settings::default())?;
/// let replies = ask(&image, b"QP\x02D1QB\x02D3")?;
/// let replies: Vec<Reply> = Replies::new(&replies).collect();
/// assert_eq!(replies, [Reply::Point(Rule::ExactLeaf), Reply::BeginsWith(false)]);
/// # Ok::<(), range_filter::Refusal>(())
/// ```
#[derive(Clone, Copy, Debug, PartialEq, Eq, Hash)]
#[non_exhaustive]
pub enum Reply {
    /// The rule that decided a point; [`Rule::says`] gives its number.
    Point(Rule),
    /// What a seek found.
    Seek(Option<Found>),
    /// Whether a key that begins with the stem may be stored.
    BeginsWith(bool),
    /// Whether a key in the range may be stored.
    Range(bool),
    /// The most keys in the range that a list with the image's cut keys and real bits has.
    Count(usize),
}

impl Reply {
    /// Reads the reply at the start of some bytes, and gives it with the bytes behind it. Gives
    /// none where no reply stands there.
    fn read(bytes: &[u8]) -> Option<(Self, &[u8])> {
        let (head, tail) = bytes.split_at_checked(REPLY_HEAD)?;
        let (key, rest) = tail.split_at_checked(1 + usize::from(*tail.first()?))?;
        let number = u32::from_le_bytes(head[3..].try_into().ok()?);
        let reply = match (&head[..3], key) {
            (b"ANP", &[1, rule]) => Reply::Point(point(number, rule)?),
            (b"ANS", &[0]) if number == NOT_FOUND => Reply::Seek(None),
            (b"ANS", _) => Reply::Seek(Some(Found::read(number, key)?)),
            (b"ANB", &[0]) => Reply::BeginsWith(truth(number)?),
            (b"ANR", &[0]) => Reply::Range(truth(number)?),
            (b"ANC", &[0]) => Reply::Count(number as usize),
            _ => return None,
        };
        Some((reply, rest))
    }
}

/// Gives the rule of a point's reply, if its number is the one that the rule says.
fn point(number: u32, rule: u8) -> Option<Rule> {
    let rule = Rule::from_number(rule.into())?;
    (number == rule.says().into()).then_some(rule)
}

/// Reads a number that is 0 or 1.
fn truth(number: u32) -> Option<bool> {
    (number <= 1).then(|| is_one(number))
}

/// The replies in some bytes, one by one, in the order of their questions.
///
/// It ends where the bytes end, or before bytes that are no reply; [`Replies::remainder`] tells
/// which. What [`ask`] gives is read to its end.
///
/// ```
/// use range_filter::{ask, build, Replies, Reply, Settings};
///
/// let image = build(["D1", "D12", "D2", "V"], Settings::default())?;
/// let bytes = ask(&image, b"QC\x03D11\x03D13QR\x01E\x01U")?;
/// let mut replies = Replies::new(&bytes);
/// assert_eq!(replies.next(), Some(Reply::Count(1)));
/// assert_eq!(replies.next(), Some(Reply::Range(false)));
/// assert_eq!(replies.next(), None);
/// # Ok::<(), range_filter::Refusal>(())
/// ```
#[derive(Clone, Debug)]
pub struct Replies<'a> {
    rest: &'a [u8],
}

impl<'a> Replies<'a> {
    /// Starts at the first reply.
    ///
    /// ```
    /// use range_filter::{Replies, Reply};
    ///
    /// let mut replies = Replies::new(b"ANC\x02\x00\x00\x00\x00");
    /// assert_eq!(replies.next(), Some(Reply::Count(2)));
    /// ```
    #[must_use]
    pub fn new(replies: &'a [u8]) -> Self {
        Replies { rest: replies }
    }

    /// Gives the bytes that are not read.
    ///
    /// ```
    /// use range_filter::Replies;
    ///
    /// let mut replies = Replies::new(b"ANC\x02\x00\x00\x00\x00AN");
    /// assert_eq!(replies.by_ref().count(), 1);
    /// assert_eq!(replies.remainder(), b"AN"); // no reply
    /// ```
    #[must_use]
    pub fn remainder(&self) -> &'a [u8] {
        self.rest
    }
}

impl Iterator for Replies<'_> {
    type Item = Reply;

    fn next(&mut self) -> Option<Reply> {
        let (reply, rest) = Reply::read(self.rest)?;
        self.rest = rest;
        Some(reply)
    }
}

impl FusedIterator for Replies<'_> {}
