//! The questions that are measured.

use range_filter_tests::random::Random;
use range_filter_tests::reference::questions::Question;

/// How many keys a middle range goes on, and of how many keys a wide one goes on one.
const MIDDLE: usize = 2;
const WIDE_SHARE: usize = 100;

/// A named way to make a question about a key of an ascending list, by its number.
pub struct Kind {
    pub name: &'static str,
    make: fn(&[Vec<u8>], usize) -> Question,
}

/// The kinds of questions about one key; a stem is the first half of a key.
pub const KEY_KINDS: [Kind; 3] = [
    POINT,
    Kind {
        name: "begins-with",
        make: |keys, number| Question::BeginsWith(stem(&keys[number])),
    },
    SEEK,
];

/// The question whether there is a key.
pub const POINT: Kind = Kind {
    name: "point",
    make: |keys, number| Question::Point(keys[number].clone()),
};

/// The question for the first key that is not below another.
const SEEK: Kind = Kind {
    name: "seek",
    make: |keys, number| Question::Seek(keys[number].clone()),
};

/// The kinds of questions about what is between two bounds.
pub const RANGE_KINDS: [Kind; 6] = [
    SHORT_RANGE,
    Kind {
        name: "range, middle",
        make: |keys, number| range(further(keys, number, MIDDLE)),
    },
    Kind {
        name: "range, wide",
        make: |keys, number| range(further(keys, number, keys.len() / WIDE_SHARE)),
    },
    SHORT_COUNT,
    MIDDLE_COUNT,
    WIDE_COUNT,
];

/// The questions how many keys there are in a short, a middle and a wide range.
const SHORT_COUNT: Kind = Kind {
    name: "count, short",
    make: |keys, number| count(short(keys, number)),
};
const MIDDLE_COUNT: Kind = Kind {
    name: "count, middle",
    make: |keys, number| count(further(keys, number, MIDDLE)),
};
const WIDE_COUNT: Kind = Kind {
    name: "count, wide",
    make: |keys, number| count(further(keys, number, keys.len() / WIDE_SHARE)),
};

/// The kinds of questions by which versions are compared: those that take leaves together
/// level by level, and a point, which does not.
pub const VERSION_KINDS: [Kind; 5] = [POINT, SEEK, SHORT_COUNT, MIDDLE_COUNT, WIDE_COUNT];

/// The question whether there is a key from one to the same with its last byte FF.
pub const SHORT_RANGE: Kind = Kind {
    name: "range, short",
    make: |keys, number| range(short(keys, number)),
};

impl Kind {
    /// Gives a question about each key of an ascending list.
    pub fn about(&self, keys: &[Vec<u8>]) -> Vec<Question> {
        let numbers = 0..keys.len();
        numbers.map(|number| (self.make)(keys, number)).collect()
    }
}

/// Gives the first half of a key.
fn stem(key: &[u8]) -> Vec<u8> {
    key[..key.len() / 2].to_vec()
}

/// Gives a key and the same with its last byte FF.
fn short(keys: &[Vec<u8>], number: usize) -> [Vec<u8>; 2] {
    let lower = keys[number].clone();
    let mut upper = lower.clone();
    upper.pop();
    upper.push(0xFF);
    [lower, upper]
}

/// Gives a key and the one so many keys further on, or the last.
fn further(keys: &[Vec<u8>], number: usize, distance: usize) -> [Vec<u8>; 2] {
    let last = keys.len() - 1;
    [number, last.min(number + distance)].map(|number| keys[number].clone())
}

/// Asks whether there is a key from bound to bound.
fn range([lower, upper]: [Vec<u8>; 2]) -> Question {
    Question::Range(lower, upper)
}

/// Asks how many keys there are from bound to bound.
fn count([lower, upper]: [Vec<u8>; 2]) -> Question {
    Question::Count(lower, upper)
}

/// Gives questions of one kind, half of them about keys of the list and half of them about
/// keys of another list that is made like it; both bounds are of the same list.
pub fn questions(
    random: &mut Random,
    [keys, others]: [&[Vec<u8>]; 2],
    kind: &Kind,
    count: usize,
) -> Vec<Question> {
    let question = |_| {
        let from = if random.once_in(2) { keys } else { others };
        (kind.make)(from, random.below(from.len()))
    };
    (0..count).map(question).collect()
}
