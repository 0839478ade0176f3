//! Question files.

use super::keys::{write_key, MAX_KEY};

/// The most questions of a file.
pub const MAX_QUESTIONS: usize = 1_024;

/// A question with its key, stem or bounds.
#[derive(Clone, Debug, PartialEq, Eq)]
pub enum Question {
    Point(Vec<u8>),
    Seek(Vec<u8>),
    BeginsWith(Vec<u8>),
    Range(Vec<u8>, Vec<u8>),
    Count(Vec<u8>, Vec<u8>),
}

impl Question {
    /// Gives the second letter of the question's mark.
    pub fn letter(&self) -> u8 {
        match self {
            Question::Point(_) => b'P',
            Question::Seek(_) => b'S',
            Question::BeginsWith(_) => b'B',
            Question::Range(..) => b'R',
            Question::Count(..) => b'C',
        }
    }

    /// Gives the question's one or two keys, a lower bound before an upper one.
    pub fn keys(&self) -> Vec<&[u8]> {
        match self {
            Question::Point(key) | Question::Seek(key) | Question::BeginsWith(key) => vec![key],
            Question::Range(lower, upper) | Question::Count(lower, upper) => vec![lower, upper],
        }
    }
}

/// Judges a question that is put by value: 22, a key over 64 bytes; then 23, a lower bound
/// above the upper.
pub fn judge(question: &Question) -> Result<(), u32> {
    let keys = question.keys();
    if keys.iter().any(|key| key.len() > MAX_KEY) {
        return Err(22);
    }
    match keys.is_sorted() {
        true => Ok(()),
        false => Err(23),
    }
}

/// Reads a question file, or gives the number of the first faulty question: 24, else 21,
/// 22 or 23 as the question is read from its start to its end.
pub fn parse(file: &[u8]) -> Result<Vec<Question>, u32> {
    let mut questions = Vec::new();
    let mut rest = file;
    while !rest.is_empty() {
        if questions.len() == MAX_QUESTIONS {
            return Err(24);
        }
        questions.push(parse_question(&mut rest)?);
    }
    Ok(questions)
}

/// Takes the first question off the bytes left.
fn parse_question(rest: &mut &[u8]) -> Result<Question, u32> {
    match take(rest, 2)? {
        b"QP" => parse_key(rest).map(Question::Point),
        b"QS" => parse_key(rest).map(Question::Seek),
        b"QB" => parse_key(rest).map(Question::BeginsWith),
        b"QR" => parse_bounds(rest).map(|(lower, upper)| Question::Range(lower, upper)),
        b"QC" => parse_bounds(rest).map(|(lower, upper)| Question::Count(lower, upper)),
        _ => Err(21),
    }
}

/// Takes a length byte and its key; the length is judged before the key's bytes.
fn parse_key(rest: &mut &[u8]) -> Result<Vec<u8>, u32> {
    let length = usize::from(take(rest, 1)?[0]);
    if length > MAX_KEY {
        return Err(22);
    }
    take(rest, length).map(<[u8]>::to_vec)
}

/// Takes the lower and the upper bound and judges their order.
fn parse_bounds(rest: &mut &[u8]) -> Result<(Vec<u8>, Vec<u8>), u32> {
    let lower = parse_key(rest)?;
    let upper = parse_key(rest)?;
    if lower > upper {
        return Err(23);
    }
    Ok((lower, upper))
}

/// Takes some bytes off the bytes left, or gives 21 where they are missing.
fn take<'a>(rest: &mut &'a [u8], count: usize) -> Result<&'a [u8], u32> {
    let (taken, behind) = rest.split_at_checked(count).ok_or(21_u32)?;
    *rest = behind;
    Ok(taken)
}

/// Writes questions as a file.
pub fn write(questions: &[Question]) -> Vec<u8> {
    let mut file = Vec::new();
    for question in questions {
        file.extend_from_slice(&[b'Q', question.letter()]);
        for key in question.keys() {
            write_key(&mut file, key);
        }
    }
    file
}
