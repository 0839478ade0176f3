//! Questions as text: a kind and one or two keys.

use std::fmt;

use range_filter::{Filter, Refusal};

use crate::text::{read_key, show_key};

/// The kinds of questions.
#[derive(Clone, Copy, Debug, PartialEq, Eq)]
pub enum Kind {
    /// May the key be stored?
    Point,
    /// May a key from bound to bound be stored?
    Range,
    /// May a key that begins so be stored?
    Stem,
    /// How many keys from bound to bound may be stored?
    Count,
    /// Which is the smallest key from a start on that may be stored?
    Seek,
}

impl Kind {
    const ALL: [Kind; 5] = [
        Kind::Point,
        Kind::Range,
        Kind::Stem,
        Kind::Count,
        Kind::Seek,
    ];

    /// Gives the kind that a word names, or says which words there are.
    pub fn read(word: &[u8]) -> Result<Kind, String> {
        let mut kinds = Kind::ALL.into_iter();
        let kind = kinds.find(|kind| kind.name().as_bytes() == word);
        kind.ok_or_else(|| {
            let word = word.escape_ascii();
            format!("'{word}' is no kind of question: take point, range, stem, count or seek")
        })
    }

    /// Says that a question of this kind has another number of keys.
    pub fn wrong_keys(self, number: usize) -> String {
        let name = self.name();
        let takes = match self.keys() {
            1 => "one key",
            _ => "two keys, a lower and an upper bound",
        };
        format!("{name} takes {takes}, and here are {number}")
    }

    /// Gives the number of keys that a question of this kind has.
    pub fn keys(self) -> usize {
        match self {
            Kind::Point | Kind::Stem | Kind::Seek => 1,
            Kind::Range | Kind::Count => 2,
        }
    }

    /// Gives the word that names the kind.
    fn name(self) -> &'static str {
        match self {
            Kind::Point => "point",
            Kind::Range => "range",
            Kind::Stem => "stem",
            Kind::Count => "count",
            Kind::Seek => "seek",
        }
    }
}

/// A question: its kind and its key, or its lower and its upper bound.
#[derive(Clone, Debug, PartialEq, Eq)]
pub struct Question {
    kind: Kind,
    first: Vec<u8>,
    second: Vec<u8>,
}

impl Question {
    /// Reads a question from a line of words that blanks or tabs part.
    pub fn read_line(line: &[u8]) -> Result<Question, String> {
        let words = line.split(|byte| matches!(byte, b' ' | b'\t'));
        let words: Vec<&[u8]> = words.filter(|word| !word.is_empty()).collect();
        let (kind, keys) = words
            .split_first()
            .ok_or("the line has no question: write a kind and its keys, or remove it")?;
        Question::read(Kind::read(kind)?, keys)
    }

    /// Reads the keys of a question of some kind.
    pub fn read(kind: Kind, keys: &[&[u8]]) -> Result<Question, String> {
        let (first, second) = match (kind.keys(), keys) {
            (1, [key]) => (read_word(key)?, Vec::new()),
            (2, [lower, upper]) => (read_word(lower)?, read_word(upper)?),
            _ => return Err(kind.wrong_keys(keys.len())),
        };
        Ok(Question {
            kind,
            first,
            second,
        })
    }

    /// Gives the question's kind.
    pub fn kind(&self) -> Kind {
        self.kind
    }

    /// Puts the question to a filter and gives the reply in words.
    pub fn reply(&self, filter: &Filter) -> Result<String, Refusal> {
        let (first, second) = (&self.first, &self.second);
        let yes = |may: bool| u8::from(may).to_string();
        Ok(match self.kind {
            Kind::Point => {
                let rule = filter.rule(first)?;
                format!("{} rule {} ({rule})", u8::from(rule.says()), rule.number())
            }
            Kind::Range => yes(filter.may_contain_range(first, second)?),
            Kind::Stem => yes(filter.starts_with(first)?),
            Kind::Count => filter.count(first, second)?.to_string(),
            Kind::Seek => match filter.seek(first)? {
                Some(found) => format!("{} {}", found.place, show_key(&found.key)),
                None => "none".to_string(),
            },
        })
    }

    /// Gives the number of stored keys that the filter allows for: the count, or 1 for yes and
    /// 0 for no.
    pub fn allowed(&self, filter: &Filter) -> Result<usize, Refusal> {
        let (first, second) = (&self.first, &self.second);
        match self.kind {
            Kind::Point => filter.may_contain(first).map(usize::from),
            Kind::Range => filter.may_contain_range(first, second).map(usize::from),
            Kind::Stem => filter.starts_with(first).map(usize::from),
            Kind::Count => filter.count(first, second),
            Kind::Seek => Ok(usize::from(filter.seek(first)?.is_some())),
        }
    }

    /// Says whether a key is one of those that the question is about.
    pub fn covers(&self, key: &[u8]) -> bool {
        match self.kind {
            Kind::Point => key == self.first,
            Kind::Range | Kind::Count => *self.first <= *key && *key <= *self.second,
            Kind::Stem => key.starts_with(&self.first),
            Kind::Seek => *self.first <= *key,
        }
    }
}

impl fmt::Display for Question {
    fn fmt(&self, formatter: &mut fmt::Formatter<'_>) -> fmt::Result {
        let name = self.kind.name();
        write!(formatter, "{name} {}", show_key(&self.first))?;
        if self.kind.keys() == 2 {
            write!(formatter, " {}", show_key(&self.second))?;
        }
        Ok(())
    }
}

/// Gives the key that a word stands for; two quotes stand for the empty key.
fn read_word(word: &[u8]) -> Result<Vec<u8>, String> {
    if word == b"\"\"" {
        return Ok(Vec::new());
    }
    read_key(word).map_err(|fault| fault.to_string())
}
