//! The calls over an image that the check has accepted, one question each. Every
//! implementation has them, so that any two can be compared.

use crate::answer::Answer;
use crate::reference::keys::MAX_KEY;
use crate::reference::questions::Question;

/// The bytes of a seek's buffer: a length byte and the longest key.
pub const FOUND_BYTES: usize = 1 + MAX_KEY;

/// The buffer of a seek.
pub type Found = [u8; FOUND_BYTES];

/// The number in a reply, or the number of a refusal: 22, a key over 64 bytes; then 23, a
/// lower bound above the upper.
pub type Number = Result<u32, u32>;

/// An accepted image by the calls over it.
pub trait AcceptedCalls {
    /// Gives 1 if a leaf has a key by its real bits and its hash bits, else 0.
    fn point(&self, key: &[u8]) -> Number;

    /// Gives the rule, 1 to 6, behind a point's reply.
    fn rule(&self, key: &[u8]) -> Number;

    /// Gives 1 if a leaf has a possible key from bound to bound, else 0.
    fn range(&self, lower: &[u8], upper: &[u8]) -> Number;

    /// Gives 1 if a leaf has a possible key that begins with a stem, else 0.
    fn begins_with(&self, stem: &[u8]) -> Number;

    /// Counts the leaves that have a possible key from bound to bound.
    fn count(&self, lower: &[u8], upper: &[u8]) -> Number;

    /// Gives the place of the leaf with the smallest possible key from a start on, and writes
    /// the length of this key and the key to the front of the buffer; the number of none has
    /// the length 0. Other bytes of the buffer keep their values, after a refusal all do.
    fn seek(&self, start: &[u8], found: &mut Found) -> Number;

    /// Writes the records of the leaves from a place on at the start of a buffer, of as
    /// many as it holds whole, or refuses with 17.
    fn walk(&self, place: u64, records: &mut [u8]) -> Answer;

    /// Puts a question by the call of its kind.
    fn ask(&self, question: &Question, found: &mut Found) -> Number {
        match question {
            Question::Point(key) => self.point(key),
            Question::Seek(start) => self.seek(start, found),
            Question::BeginsWith(stem) => self.begins_with(stem),
            Question::Range(lower, upper) => self.range(lower, upper),
            Question::Count(lower, upper) => self.count(lower, upper),
        }
    }
}
