//! The rule behind the reply to a point question.

use std::fmt;

/// What decides whether a key may be stored: where its way from the root of the trie ends.
///
/// The way goes by the branch that has the key's next byte. Exactly one rule applies to a key.
///
/// ```
/// use range_filter::{build, Filter, Rule, Settings};
///
/// let image = build(["D1", "D12", "D2", "VAN"], Settings::default().with_real_bits(8))?;
/// let filter = Filter::open(&image)?;
/// assert_eq!(filter.rule("D10")?, Rule::BranchMissing);
/// assert_eq!(filter.rule("D")?, Rule::KeyEnded);
/// assert_eq!(filter.rule("D1")?, Rule::ExactLeaf);
/// assert_eq!(filter.rule("VAX")?, Rule::SuffixEqual);
/// assert_eq!(filter.rule("VB")?, Rule::SuffixOther);
///
/// let none: [&str; 0] = [];
/// let empty = build(none, Settings::default())?;
/// assert_eq!(Filter::open(&empty)?.rule("D1")?, Rule::NoNodes);
/// # Ok::<(), range_filter::Refusal>(())
/// ```
#[derive(Clone, Copy, Debug, PartialEq, Eq, Hash)]
pub enum Rule {
    /// 1: a node on the way has no branch with the key's next byte. The key is not stored.
    BranchMissing = 1,
    /// 2: the key ends at a node that is no exact leaf. It is not stored.
    KeyEnded = 2,
    /// 3: the key ends at a node that is an exact leaf. It is stored.
    ExactLeaf = 3,
    /// 4: the way ends at an open leaf, and the key has its suffix: its hash bits and its real
    /// bits. The key may be stored.
    SuffixEqual = 4,
    /// 5: the way ends at an open leaf, and the key has other hash bits or other real bits. It is
    /// not stored.
    SuffixOther = 5,
    /// 6: the image is empty and has no nodes. Nothing is stored.
    NoNodes = 6,
}

impl Rule {
    /// All rules, in the order of their numbers.
    ///
    /// ```
    /// use range_filter::Rule;
    ///
    /// let numbers: Vec<u32> = Rule::ALL.iter().map(|rule| rule.number()).collect();
    /// assert_eq!(numbers, [1, 2, 3, 4, 5, 6]);
    /// ```
    pub const ALL: &'static [Rule] = &[
        Rule::BranchMissing,
        Rule::KeyEnded,
        Rule::ExactLeaf,
        Rule::SuffixEqual,
        Rule::SuffixOther,
        Rule::NoNodes,
    ];

    /// Gives the rule's number, which is the key of a point's reply.
    ///
    /// ```
    /// assert_eq!(range_filter::Rule::ExactLeaf.number(), 3);
    /// ```
    #[must_use]
    pub const fn number(self) -> u32 {
        self as u32
    }

    /// Gives the rule with a number, if there is one.
    ///
    /// ```
    /// use range_filter::Rule;
    ///
    /// assert_eq!(Rule::from_number(3), Some(Rule::ExactLeaf));
    /// assert_eq!(Rule::from_number(7), None);
    /// ```
    #[must_use]
    pub fn from_number(number: u32) -> Option<Self> {
        let mut rules = Self::ALL.iter().copied();
        rules.find(|rule| rule.number() == number)
    }

    /// Says whether a key with this rule may be stored.
    ///
    /// ```
    /// use range_filter::Rule;
    ///
    /// assert!(Rule::ExactLeaf.says() && Rule::SuffixEqual.says());
    /// assert!(!Rule::BranchMissing.says());
    /// ```
    #[must_use]
    pub const fn says(self) -> bool {
        matches!(self, Rule::ExactLeaf | Rule::SuffixEqual)
    }

    /// Gives the words that the rule prints as.
    fn words(self) -> &'static str {
        match self {
            Rule::BranchMissing => "the branch is missing",
            Rule::KeyEnded => "the key ended at a node that is no exact leaf",
            Rule::ExactLeaf => "exact leaf",
            Rule::SuffixEqual => "open leaf with equal suffix",
            Rule::SuffixOther => "open leaf with another suffix",
            Rule::NoNodes => "no nodes",
        }
    }
}

impl fmt::Display for Rule {
    fn fmt(&self, formatter: &mut fmt::Formatter<'_>) -> fmt::Result {
        formatter.pad(self.words())
    }
}
