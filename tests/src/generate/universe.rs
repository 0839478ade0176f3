//! Every key list over a small universe of keys, and every question over it.

use crate::reference::questions::Question;

/// A key list as its keys.
pub type List = Vec<Vec<u8>>;

/// Some key lists over a universe, and questions whose keys are in it or empty.
pub struct Universe {
    pub lists: Vec<List>,
    pub questions: Vec<Question>,
}

impl Universe {
    /// Takes the keys of one byte to some length over an alphabet, all lists of at most so
    /// many of them, and all questions with bounds fewer than so many keys apart.
    pub fn new(alphabet: &[u8], length: usize, most_keys: usize, span: usize) -> Self {
        let keys = keys(alphabet, length);
        Universe {
            lists: lists(&keys, most_keys),
            questions: questions(&keys, span),
        }
    }

    /// Takes all lists and all questions over the keys 00, 80 and FF of one and two bytes.
    pub fn of_two_byte_keys() -> Self {
        Universe::new(&[0x00, 0x80, 0xFF], 2, usize::MAX, usize::MAX)
    }

    /// Takes lists of at most four keys, and all questions, over the keys 00 and 80 of one
    /// to three bytes.
    pub fn of_three_byte_keys() -> Self {
        Universe::new(&[0x00, 0x80], 3, 4, usize::MAX)
    }

    /// Takes lists of at most two keys over the keys 00, 80 and FF of one to three bytes.
    pub fn of_short_lists() -> Self {
        Universe::new(&[0x00, 0x80, 0xFF], 3, 2, 9)
    }
}

/// Gives all keys of one byte to some length over an alphabet, in order.
fn keys(alphabet: &[u8], length: usize) -> List {
    let mut all: List = vec![Vec::new()];
    let mut longest = all.clone();
    for _ in 0..length {
        let longer = |stem: &Vec<u8>| -> List {
            let bytes = alphabet.iter();
            bytes
                .map(|&byte| [stem, [byte].as_slice()].concat())
                .collect()
        };
        longest = longest.iter().flat_map(longer).collect();
        all.extend_from_slice(&longest);
    }
    all.sort();
    all.split_off(1)
}

/// Gives all lists of at most so many of some keys.
fn lists(keys: &[Vec<u8>], most_keys: usize) -> Vec<List> {
    let mut lists: Vec<List> = vec![Vec::new()];
    for key in keys {
        let longer: Vec<List> = lists
            .iter()
            .filter(|list| list.len() < most_keys)
            .map(|list| [list.as_slice(), std::slice::from_ref(key)].concat())
            .collect();
        lists.extend(longer);
    }
    lists
}

/// Gives every question over some keys and the empty string, with bounds fewer than so
/// many keys apart.
fn questions(keys: &[Vec<u8>], span: usize) -> Vec<Question> {
    let bounds = [&[Vec::new()], keys].concat();
    let mut questions = Vec::new();
    for (number, lower) in bounds.iter().enumerate() {
        questions.push(Question::Point(lower.clone()));
        questions.push(Question::Seek(lower.clone()));
        questions.push(Question::BeginsWith(lower.clone()));
        for upper in bounds[number..].iter().take(span) {
            questions.push(Question::Range(lower.clone(), upper.clone()));
            questions.push(Question::Count(lower.clone(), upper.clone()));
        }
    }
    questions
}
