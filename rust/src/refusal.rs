//! Why a call was refused.

use std::error::Error;
use std::fmt;

/// Declares the refusals from a table: what each is, its variant, its number, its name, and the
/// sentence that it prints as.
macro_rules! refusals {
    ($(
        $(#[$doc:meta])+
        $variant:ident = $number:literal, $name:literal => $sentence:literal,
    )+) => {
        /// Why a call was refused: one variant for each number of the library's table.
        ///
        /// It prints as a sentence that says what is wrong and what to do.
        ///
        /// ```
        /// use range_filter::{build, Refusal, Settings};
        ///
        /// let refusal = build(["D2", "D1"], Settings::default()).unwrap_err();
        /// assert_eq!(refusal, Refusal::KeysUnordered);
        /// assert_eq!(refusal.number(), 3);
        /// assert_eq!(refusal.name(), "KEYS_UNORDERED");
        /// assert_eq!(
        ///     refusal.to_string(),
        ///     "a key is not above the one before it: sort the keys and drop doubles"
        /// );
        /// ```
        #[derive(Clone, Copy, Debug, PartialEq, Eq, Hash)]
        #[non_exhaustive]
        pub enum Refusal {
            $($(#[$doc])+ $variant = $number,)+
        }

        impl Refusal {
            /// All refusals, in the order of their numbers. Number 6 is retired.
            ///
            /// ```
            /// use range_filter::Refusal;
            ///
            /// assert_eq!(Refusal::ALL.len(), 19);
            /// let first: Vec<u32> = Refusal::ALL[..7].iter().map(|r| r.number()).collect();
            /// assert_eq!(first, [1, 2, 3, 4, 5, 7, 8]);
            /// ```
            pub const ALL: &'static [Refusal] = &[$(Refusal::$variant),+];

            /// Gives the refusal's name, which C has behind the prefix `RANGE_FILTER_`.
            ///
            /// ```
            /// assert_eq!(range_filter::Refusal::TooManyKeys.name(), "TOO_MANY_KEYS");
            /// ```
            #[must_use]
            pub const fn name(self) -> &'static str {
                match self {
                    $(Refusal::$variant => $name,)+
                }
            }

            /// Gives the sentence that the refusal prints as.
            fn sentence(self) -> &'static str {
                match self {
                    $(Refusal::$variant => $sentence,)+
                }
            }
        }
    };
}

refusals! {
    /// 1: a record of a key list has a wrong mark, or bytes of it are missing.
    ListMalformed = 1, "LIST_MALFORMED" =>
        "a record of the key list has a wrong mark or breaks off: \
         write each key as KY, a length byte and its bytes",
    /// 2: a key is empty or has over 64 bytes.
    KeyLengthWrong = 2, "KEY_LENGTH_WRONG" =>
        "a key is empty or has over 64 bytes: leave it out or shorten it",
    /// 3: a key is not above the one before it.
    KeysUnordered = 3, "KEYS_UNORDERED" =>
        "a key is not above the one before it: sort the keys and drop doubles",
    /// 4: there are over 65,535 keys.
    TooManyKeys = 4, "TOO_MANY_KEYS" =>
        "there are over 65,535 keys: share them out among several images",
    /// 5: a setting is out of range.
    SettingOutOfRange = 5, "SETTING_OUT_OF_RANGE" =>
        "a setting is out of range: \
         take version 1 or 2, 0 to 4 dense levels, 0 to 16 real bits and 0 to 16 hash bits",
    /// 7: the image is longer than the output. No function of this crate gives it.
    OutputTooShort = 7, "OUTPUT_TOO_SHORT" =>
        "the image is longer than the output: give it as many bytes as the image has",
    /// 8: the stated length is not the image's. No function of this crate gives it.
    StatedLengthWrong = 8, "STATED_LENGTH_WRONG" =>
        "the stated length is not the image's: \
         state the length that was given for this list and these settings",
    /// 11: the bytes are not the header of an image and the records of its version.
    FrameWrong = 11, "FRAME_WRONG" =>
        "these are not the bytes of one whole image: \
         take the file that a build wrote, from its first byte to its last",
    /// 12: the header of an image has a wrong value, or a record has a length that the header's
    /// counts do not give.
    HeaderWrong = 12, "HEADER_WRONG" =>
        "the image's header has a wrong value, or a record another length than it says: \
         copy the image again, or build it anew",
    /// 13: a bit behind the last bit of a record is set.
    SpareBitSet = 13, "SPARE_BIT_SET" =>
        "a bit behind the end of a record of the image is set: \
         copy the image again, or build it anew",
    /// 14: the trie of an image is not one that a key list builds.
    TrieWrong = 14, "TRIE_WRONG" =>
        "the image's trie is not one that keys give: \
         copy the image again, or build it anew",
    /// 15: a rank, a select sample or a level start of an image is wrong, or there are more or
    /// fewer level starts than levels.
    TableWrong = 15, "TABLE_WRONG" =>
        "a rank, a select sample or a level start of the image is wrong: \
         copy the image again, or build it anew",
    /// 16: a slot of an image has a bit that no key gives it.
    SlotWrong = 16, "SLOT_WRONG" =>
        "a slot of the image has a bit that no key gives it: \
         copy the image again, or build it anew",
    /// 17: a place is above the number of leaves.
    PlaceOutOfRange = 17, "PLACE_OUT_OF_RANGE" =>
        "the place is behind the end of the leaves: \
         take a place from 0 to the number of leaves",
    /// 21: a question has a wrong mark, or bytes of it are missing.
    QuestionMalformed = 21, "QUESTION_MALFORMED" =>
        "a question has a wrong mark or breaks off: \
         write QP, QS, QB, QR or QC, then each key as a length byte and its bytes",
    /// 22: a key, a bound or a stem in a question has over 64 bytes.
    KeyTooLong = 22, "KEY_TOO_LONG" =>
        "a key, bound or stem has over 64 bytes, which no stored key has: \
         ask with at most 64",
    /// 23: a lower bound is above its upper bound.
    BoundsReversed = 23, "BOUNDS_REVERSED" =>
        "the lower bound is above the upper one: exchange them",
    /// 24: there are over 1,024 questions in a file.
    TooManyQuestions = 24, "TOO_MANY_QUESTIONS" =>
        "there are over 1,024 questions in the file: put the rest into another one",
    /// 25: the replies are longer than their buffer. No function of this crate gives it.
    ReplyBufferTooShort = 25, "REPLY_BUFFER_TOO_SHORT" =>
        "the replies are longer than their buffer: \
         72 bytes for each question are always enough",
}

impl Refusal {
    /// Gives the refusal's number, which is the same in C.
    ///
    /// ```
    /// assert_eq!(range_filter::Refusal::TooManyKeys.number(), 4);
    /// ```
    #[must_use]
    pub const fn number(self) -> u32 {
        self as u32
    }

    /// Gives the refusal with a number, if there is one.
    ///
    /// ```
    /// use range_filter::Refusal;
    ///
    /// assert_eq!(Refusal::from_number(4), Some(Refusal::TooManyKeys));
    /// assert_eq!(Refusal::from_number(6), None);
    /// ```
    #[must_use]
    pub fn from_number(number: u32) -> Option<Self> {
        let mut refusals = Self::ALL.iter().copied();
        refusals.find(|refusal| refusal.number() == number)
    }
}

impl fmt::Display for Refusal {
    fn fmt(&self, formatter: &mut fmt::Formatter<'_>) -> fmt::Result {
        formatter.pad(self.sentence())
    }
}

impl Error for Refusal {}
