//! Question files and their replies.

use super::check::accept;
use super::range::is_held;
use super::seek::Key;
use super::trie::Trie;
use range_filter_tests::answer::Answer;
use range_filter_tests::reference::keys::MAX_KEY;
use range_filter_tests::reference::questions::MAX_QUESTIONS;
use range_filter_tests::reference::replies::{NONE, POINT_REPLY, REPLY_HEAD};
use range_filter_tests::reference::rules::Rule;

/// A question by the second letter of its mark, with its key or bounds; the upper
/// bound is empty where there is none.
struct Question<'a> {
    letter: u8,
    lower: &'a [u8],
    upper: &'a [u8],
}

/// Replies to a question file over an image at the start of the reply buffer; a
/// refusal leaves the buffer as it was.
pub fn ask(image: &[u8], questions: &[u8], replies: &mut [u8]) -> Answer {
    match reply_bytes(image, questions) {
        Ok(bytes) if bytes.len() <= replies.len() => {
            replies[..bytes.len()].copy_from_slice(&bytes);
            Answer::Written(bytes.len())
        }
        Ok(_) => Answer::Refused(25),
        Err(number) => Answer::Refused(number),
    }
}

/// Gives the replies, or the number of the first fault; every question is judged
/// before the first is replied to.
fn reply_bytes(image: &[u8], file: &[u8]) -> Result<Vec<u8>, u32> {
    let image = accept(image)?;
    let questions = parse(file)?;
    let trie = Trie::new(&image);
    let mut replies = Vec::with_capacity(questions.len() * (REPLY_HEAD + MAX_KEY));
    for question in &questions {
        reply(&trie, question, &mut replies);
    }
    Ok(replies)
}

/// Reads a question file.
fn parse(file: &[u8]) -> Result<Vec<Question<'_>>, u32> {
    let mut questions = Vec::with_capacity(MAX_QUESTIONS.min(file.len() / 3));
    let mut rest = file;
    while !rest.is_empty() {
        if questions.len() == MAX_QUESTIONS {
            return Err(24);
        }
        questions.push(parse_question(&mut rest)?);
    }
    Ok(questions)
}

/// Takes the first question off the bytes left.
fn parse_question<'a>(rest: &mut &'a [u8]) -> Result<Question<'a>, u32> {
    let [b'Q', letter @ (b'P' | b'S' | b'B' | b'R' | b'C'), behind @ ..] = *rest else {
        return Err(21);
    };
    *rest = behind;
    let lower = parse_key(rest)?;
    let mut upper: &[u8] = &[];
    if matches!(letter, b'R' | b'C') {
        upper = parse_key(rest)?;
        if lower > upper {
            return Err(23);
        }
    }
    Ok(Question {
        letter: *letter,
        lower,
        upper,
    })
}

/// Takes a length byte and its key.
fn parse_key<'a>(rest: &mut &'a [u8]) -> Result<&'a [u8], u32> {
    let (&length, behind) = rest.split_first().ok_or(21_u32)?;
    if usize::from(length) > MAX_KEY {
        return Err(22);
    }
    let (key, behind) = behind.split_at_checked(length.into()).ok_or(21_u32)?;
    *rest = behind;
    Ok(key)
}

/// Writes the reply to a question.
fn reply(trie: &Trie, question: &Question, replies: &mut Vec<u8>) {
    let Question {
        letter,
        lower,
        upper,
    } = *question;
    let number = match letter {
        b'P' => return replies.extend_from_slice(&point_reply(trie.rule(lower))),
        b'R' => u32::from(trie.meets(lower, upper)),
        b'B' => u32::from(trie.begins(lower)),
        b'C' => trie.count(lower, upper),
        _ => return reply_to_seek(trie, lower, replies),
    };
    replies.extend_from_slice(&reply_head(letter, number, 0));
}

/// Gives the reply to a point that a rule decides: the rule's number is its key.
fn point_reply(rule: Rule) -> [u8; POINT_REPLY] {
    let mut reply = [rule.number(); POINT_REPLY];
    reply[..REPLY_HEAD].copy_from_slice(&reply_head(b'P', is_held(rule).into(), 1));
    reply
}

/// Writes the reply to a seek.
fn reply_to_seek(trie: &Trie, start: &[u8], replies: &mut Vec<u8>) {
    let mut key = Key::new();
    let number = trie
        .seek(start, &mut key)
        .map_or(NONE, |place| place as u32);
    replies.extend_from_slice(&reply_head(b'S', number, key.bytes().len()));
    replies.extend_from_slice(key.bytes());
}

/// Gives a reply up to its key, of which the length is given.
fn reply_head(letter: u8, number: u32, length: usize) -> [u8; REPLY_HEAD] {
    let [a, b, c, d] = number.to_le_bytes();
    [b'A', b'N', letter, a, b, c, d, length as u8]
}
