//! The calls of the proved library as safe functions: the one module with unsafe code.
//!
//! A slice is passed as a pointer and a length. The library reads and writes nothing outside
//! the slices that it is lent, keeps no pointer behind a call, and has no state, so that calls
//! may run on several threads at once. An empty slice has a pointer that is not null, and the
//! library reads nothing through it.
//!
//! Which numbers the library gives is proved, so that a number without a name here never comes.

use crate::leaf::Record;
use crate::{Refusal, Rule, Settings};

/// The bytes of a seek's answer: a length byte and at most 64 bytes of a key.
pub(crate) const FOUND_BYTES: usize = 65;

extern "C" {
    fn range_filter_image_length(list: *const u8, list_len: usize, settings: u64) -> u64;

    fn range_filter_build(
        list: *const u8,
        list_len: usize,
        settings: u64,
        stated: u64,
        out: *mut u8,
        out_len: usize,
    ) -> u64;

    fn range_filter_check(image: *const u8, image_len: usize) -> u32;

    fn range_filter_ask(
        image: *const u8,
        image_len: usize,
        questions: *const u8,
        questions_len: usize,
        replies: *mut u8,
        replies_len: usize,
    ) -> u64;

    fn range_filter_hash(key: *const u8, key_len: usize) -> u64;

    fn range_filter_accepted_point(
        image: *const u8,
        image_len: usize,
        key: *const u8,
        key_len: usize,
    ) -> u64;

    fn range_filter_accepted_rule(
        image: *const u8,
        image_len: usize,
        key: *const u8,
        key_len: usize,
    ) -> u64;

    fn range_filter_accepted_range(
        image: *const u8,
        image_len: usize,
        lower: *const u8,
        lower_len: usize,
        upper: *const u8,
        upper_len: usize,
    ) -> u64;

    fn range_filter_accepted_begins_with(
        image: *const u8,
        image_len: usize,
        stem: *const u8,
        stem_len: usize,
    ) -> u64;

    fn range_filter_accepted_count(
        image: *const u8,
        image_len: usize,
        lower: *const u8,
        lower_len: usize,
        upper: *const u8,
        upper_len: usize,
    ) -> u64;

    fn range_filter_accepted_seek(
        image: *const u8,
        image_len: usize,
        start: *const u8,
        start_len: usize,
        found: *mut u8,
    ) -> u64;

    fn range_filter_accepted_walk(
        image: *const u8,
        image_len: usize,
        place: u64,
        records: *mut u8,
        records_len: usize,
    ) -> u64;
}

/// Gives the exact length of the image of a key list.
pub(crate) fn image_length(list: &[u8], settings: Settings) -> Result<u32, Refusal> {
    // SAFETY: pointer and length are those of a slice that lives through the call.
    decode(unsafe { range_filter_image_length(list.as_ptr(), list.len(), settings.number()) })
}

/// Builds the image of a key list at the start of an output, whose length is also the length
/// that is stated for the image, and gives the bytes written.
pub(crate) fn build(list: &[u8], settings: Settings, out: &mut [u8]) -> Result<u32, Refusal> {
    // SAFETY: pointers and lengths are those of slices that live through the call, and the
    // output is lent to it alone.
    decode(unsafe {
        range_filter_build(
            list.as_ptr(),
            list.len(),
            settings.number(),
            out.len() as u64,
            out.as_mut_ptr(),
            out.len(),
        )
    })
}

/// Checks an image.
pub(crate) fn check(image: &[u8]) -> Result<(), Refusal> {
    // SAFETY: pointer and length are those of a slice that lives through the call.
    judge(unsafe { range_filter_check(image.as_ptr(), image.len()) })
}

/// Checks an image and replies to a question file at the start of a buffer, and gives the
/// bytes written.
pub(crate) fn ask(image: &[u8], questions: &[u8], replies: &mut [u8]) -> Result<u32, Refusal> {
    // SAFETY: pointers and lengths are those of slices that live through the call, and the
    // buffer is lent to it alone.
    decode(unsafe {
        range_filter_ask(
            image.as_ptr(),
            image.len(),
            questions.as_ptr(),
            questions.len(),
            replies.as_mut_ptr(),
            replies.len(),
        )
    })
}

/// Gives the 64-bit FNV-1a hash of a key.
pub(crate) fn hash(key: &[u8]) -> u64 {
    // SAFETY: pointer and length are those of a slice that lives through the call.
    unsafe { range_filter_hash(key.as_ptr(), key.len()) }
}

/// The bytes of an image that the check has accepted.
///
/// Only [`Accepted::accept`] makes one. It borrows the bytes, so that none of them changes as
/// long as a copy of it is in use: a shared borrow of plain bytes lets nobody write them. That
/// is what the calls over an accepted image require, so its methods are safe.
#[derive(Clone, Copy)]
pub(crate) struct Accepted<'a>(&'a [u8]);

impl<'a> Accepted<'a> {
    /// Checks an image, and keeps its bytes borrowed where they are accepted.
    pub(crate) fn accept(image: &'a [u8]) -> Result<Self, Refusal> {
        check(image).map(|()| Accepted(image))
    }

    /// Gives the bytes of the image.
    #[inline]
    pub(crate) fn image(self) -> &'a [u8] {
        self.0
    }

    /// Gives the number in the reply to a point question.
    #[inline]
    pub(crate) fn point(self, key: &[u8]) -> Result<u32, Refusal> {
        let image = self.0;
        // SAFETY: the check accepted these bytes, which are borrowed unchanged since; pointers
        // and lengths are those of slices that live through the call.
        decode(unsafe {
            range_filter_accepted_point(image.as_ptr(), image.len(), key.as_ptr(), key.len())
        })
    }

    /// Gives the rule behind the reply to a point question.
    pub(crate) fn rule(self, key: &[u8]) -> Result<Rule, Refusal> {
        let image = self.0;
        // SAFETY: the check accepted these bytes, which are borrowed unchanged since; pointers
        // and lengths are those of slices that live through the call.
        let number = decode(unsafe {
            range_filter_accepted_rule(image.as_ptr(), image.len(), key.as_ptr(), key.len())
        })?;
        Ok(Rule::from_number(number).expect("the library gives only the rules 1 to 6"))
    }

    /// Gives the number in the reply to a range question.
    #[inline]
    pub(crate) fn range(self, lower: &[u8], upper: &[u8]) -> Result<u32, Refusal> {
        let image = self.0;
        // SAFETY: the check accepted these bytes, which are borrowed unchanged since; pointers
        // and lengths are those of slices that live through the call.
        decode(unsafe {
            range_filter_accepted_range(
                image.as_ptr(),
                image.len(),
                lower.as_ptr(),
                lower.len(),
                upper.as_ptr(),
                upper.len(),
            )
        })
    }

    /// Gives the number in the reply to a begins-with question.
    #[inline]
    pub(crate) fn begins_with(self, stem: &[u8]) -> Result<u32, Refusal> {
        let image = self.0;
        // SAFETY: the check accepted these bytes, which are borrowed unchanged since; pointers
        // and lengths are those of slices that live through the call.
        decode(unsafe {
            range_filter_accepted_begins_with(
                image.as_ptr(),
                image.len(),
                stem.as_ptr(),
                stem.len(),
            )
        })
    }

    /// Gives the number in the reply to a count question.
    #[inline]
    pub(crate) fn count(self, lower: &[u8], upper: &[u8]) -> Result<u32, Refusal> {
        let image = self.0;
        // SAFETY: the check accepted these bytes, which are borrowed unchanged since; pointers
        // and lengths are those of slices that live through the call.
        decode(unsafe {
            range_filter_accepted_count(
                image.as_ptr(),
                image.len(),
                lower.as_ptr(),
                lower.len(),
                upper.as_ptr(),
                upper.len(),
            )
        })
    }

    /// Gives the number in the reply to a seek question, and writes the length byte and the key
    /// of the reply to a buffer.
    #[inline]
    pub(crate) fn seek(self, start: &[u8], found: &mut [u8; FOUND_BYTES]) -> Result<u32, Refusal> {
        let image = self.0;
        // SAFETY: the check accepted these bytes, which are borrowed unchanged since; pointers
        // and lengths are those of slices that live through the call; the buffer is lent to it
        // alone and has the 65 bytes that the call may write.
        decode(unsafe {
            range_filter_accepted_seek(
                image.as_ptr(),
                image.len(),
                start.as_ptr(),
                start.len(),
                found.as_mut_ptr(),
            )
        })
    }

    /// Writes the records of the leaves from a place on, as many as there is room for, and gives
    /// the bytes written. 0 bytes mean that the walk is done or that there is no room for a record;
    /// since room is lent in whole records, the second is so for an empty slice alone.
    #[inline]
    pub(crate) fn walk(self, place: usize, records: &mut [Record]) -> Result<u32, Refusal> {
        let image = self.0;
        let records = records.as_flattened_mut();
        // SAFETY: the check accepted these bytes, which are borrowed unchanged since; pointers
        // and lengths are those of slices that live through the call, and the buffer is lent to
        // it alone.
        decode(unsafe {
            range_filter_accepted_walk(
                image.as_ptr(),
                image.len(),
                place as u64,
                records.as_mut_ptr(),
                records.len(),
            )
        })
    }
}

/// Reads a 64-bit answer: a refusal's number in its high half, or else a number in its low half.
#[inline]
fn decode(answer: u64) -> Result<u32, Refusal> {
    judge((answer >> 32) as u32).map(|()| answer as u32)
}

/// Reads the number of a refusal; 0 is none.
#[inline]
fn judge(number: u32) -> Result<(), Refusal> {
    match number {
        0 => Ok(()),
        number => Err(refusal(number)),
    }
}

/// Gives the refusal with a number of the library's table.
#[cold]
fn refusal(number: u32) -> Refusal {
    Refusal::from_number(number).expect("the library gives only numbers of its table")
}
