//! Calls of an implementation compared with the reference's: the same answer, and the
//! same bytes of the buffer that is lent.

use crate::accepted::{AcceptedCalls, Found, FOUND_BYTES};
use crate::answer::Answer;
use crate::reference;
use crate::reference::build;
use crate::reference::leaves::Leaf;
use crate::reference::questions::Question;
use crate::reference::replies::{Filter, Reply};
use crate::settings::Settings;
use std::fmt::Debug;

/// The bytes before and behind a buffer that no call may touch.
const GUARD: usize = 32;

/// The byte that buffers hold before a call.
const UNTOUCHED: u8 = 0xA5;

/// A key list with settings, and the image that the reference gives for them, or the
/// number of their fault.
pub struct Case<'a> {
    list: &'a [u8],
    settings: Settings,
    image: Result<Vec<u8>, u32>,
}

impl<'a> Case<'a> {
    /// Takes a list and settings to the reference.
    pub fn new(list: &'a [u8], settings: Settings) -> Self {
        Case {
            list,
            settings,
            image: build::image(list, settings),
        }
    }

    /// Compares the length of the image, and gives it.
    pub fn length(
        &self,
        other: impl Fn(&[u8], Settings) -> Result<usize, u32>,
    ) -> Result<usize, u32> {
        let length = build::length(&self.image);
        let found = other(self.list, self.settings);
        assert_eq!(found, length, "{:?}", (self.settings, self.list));
        length
    }

    /// Compares a build with a stated length into an output of some length, and gives the
    /// answer.
    pub fn build(
        &self,
        other: impl Fn(&[u8], Settings, u64, &mut [u8]) -> Answer,
        stated: u64,
        room: usize,
    ) -> Answer {
        let expected = |out: &mut [u8]| build::write(self.image.clone(), stated, out);
        let found = |out: &mut [u8]| other(self.list, self.settings, stated, out);
        same(room, expected, found, &(self.settings, stated, self.list))
    }
}

/// An accepted image, by the calls of the reference and by those of another implementation.
pub struct AcceptedCase<'a, C> {
    image: &'a [u8],
    reference: Filter<'a>,
    other: C,
}

impl<'a, C: AcceptedCalls> AcceptedCase<'a, C> {
    /// Takes an accepted image with its leaves, and with the calls that are compared.
    pub fn new(image: &'a [u8], leaves: &'a [Leaf], other: C) -> Self {
        AcceptedCase {
            image,
            reference: Filter::new(leaves),
            other,
        }
    }

    /// Compares the calls of a question, and gives the reply that they make together.
    pub fn question(&self, question: &Question) -> Result<Reply, u32> {
        same_outcome(
            FOUND_BYTES,
            |buffer| reply_by(&self.reference, question, buffer),
            |buffer| reply_by(&self.other, question, buffer),
            found_bytes,
            &(question, self.image),
        )
    }

    /// Compares the records of a walk from a place in a buffer of some length, and gives the
    /// answer.
    pub fn walk(&self, place: u64, room: usize) -> Answer {
        same(
            room,
            |records| self.reference.walk(place, records),
            |records| self.other.walk(place, records),
            &(place, self.image),
        )
    }
}

/// Puts a question by the call of its kind, a point by that of its rule too, and gives what
/// the calls say as one reply.
fn reply_by(
    calls: &impl AcceptedCalls,
    question: &Question,
    buffer: &mut [u8],
) -> Result<Reply, u32> {
    let found: &mut Found = buffer.try_into().expect("the buffer is a seek's");
    let number = calls.ask(question, found);
    let key = match question {
        Question::Point(key) => {
            let rule = calls.rule(key);
            assert_eq!(rule.err(), number.err(), "{question:?}");
            rule.map(|rule| vec![u8::try_from(rule).expect("a rule is a byte")])?
        }
        Question::Seek(_) if number.is_ok() => found[1..][..usize::from(found[0])].to_vec(),
        _ => Vec::new(),
    };
    Ok(Reply {
        letter: question.letter(),
        number: number?,
        key,
    })
}

/// Counts the bytes that the calls of a question write: those of a seek.
fn found_bytes(reply: &Result<Reply, u32>) -> usize {
    match reply {
        Ok(reply) if reply.letter == b'S' => 1 + reply.key.len(),
        _ => 0,
    }
}

/// Compares a build with the length of its image, 0 where there is none, into an output of
/// some length, and gives the answer.
pub fn build(
    other: impl Fn(&[u8], Settings, u64, &mut [u8]) -> Answer,
    list: &[u8],
    settings: Settings,
    room: usize,
) -> Answer {
    let case = Case::new(list, settings);
    let stated = build::length(&case.image).unwrap_or(0);
    case.build(other, stated as u64, room)
}

/// Compares a check, and gives the number.
pub fn check(other: impl Fn(&[u8]) -> u32, image: &[u8]) -> u32 {
    let number = reference::check::check(image);
    assert_eq!(other(image), number, "{image:?}");
    number
}

/// Compares the replies to a question file in a buffer of some length, and gives the
/// answer.
pub fn ask(
    other: impl Fn(&[u8], &[u8], &mut [u8]) -> Answer,
    image: &[u8],
    file: &[u8],
    room: usize,
) -> Answer {
    let expected = |replies: &mut [u8]| reference::replies::ask(image, file, replies);
    let found = |replies: &mut [u8]| other(image, file, replies);
    same(room, expected, found, &(file, image))
}

/// Compares the records of a walk from a place in a buffer of some length, and gives the
/// answer.
pub fn walk(
    other: impl Fn(&[u8], u64, &mut [u8]) -> Answer,
    image: &[u8],
    place: u64,
    room: usize,
) -> Answer {
    let expected = |records: &mut [u8]| reference::walk::write_records(image, place, records);
    let found = |records: &mut [u8]| other(image, place, records);
    same(room, expected, found, &(place, image))
}

/// Makes two calls, each with a buffer of its own, and gives their answer: it has to be the
/// same, and so have the bytes written. All other bytes of the buffer, and those around it,
/// have to keep their values.
pub fn same(
    room: usize,
    expected: impl Fn(&mut [u8]) -> Answer,
    found: impl Fn(&mut [u8]) -> Answer,
    input: &dyn Debug,
) -> Answer {
    same_outcome(room, expected, found, |answer| answer.written(), input)
}

/// Makes two calls likewise whose outcome tells the bytes that are written.
fn same_outcome<R: PartialEq + Debug>(
    room: usize,
    expected: impl Fn(&mut [u8]) -> R,
    found: impl Fn(&mut [u8]) -> R,
    written: impl Fn(&R) -> usize,
    input: &dyn Debug,
) -> R {
    let (outcome, expected_bytes) = guarded(room, expected);
    let (found_outcome, found_bytes) = guarded(room, found);
    assert_eq!(found_outcome, outcome, "answer: {input:?}");
    assert!(found_bytes == expected_bytes, "bytes: {input:?}");
    let written = GUARD..GUARD + written(&outcome);
    let (before, behind) = (&found_bytes[..written.start], &found_bytes[written.end..]);
    let mut kept = before.iter().chain(behind);
    assert!(kept.all(|&byte| byte == UNTOUCHED), "kept: {input:?}");
    outcome
}

/// Makes a call with a buffer inside guards, and gives its outcome with buffer and guards.
fn guarded<R>(room: usize, call: impl Fn(&mut [u8]) -> R) -> (R, Vec<u8>) {
    let mut bytes = vec![UNTOUCHED; GUARD + room + GUARD];
    let outcome = call(&mut bytes[GUARD..GUARD + room]);
    (outcome, bytes)
}
