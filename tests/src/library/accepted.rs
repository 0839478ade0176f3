//! The library's calls over an image that its check has accepted.

use super::{answer, check, decode};
use crate::accepted::{AcceptedCalls, Found, Number};
use crate::answer::Answer;

// The exports: each asks that the check has accepted the image, and that no byte of it has
// changed since.
extern "C" {
    fn range_filter_accepted_point(
        image: *const u8,
        image_len: usize,
        key: *const u8,
        key_len: usize,
    ) -> u64;

    fn range_filter_accepted_rule(
        image: *const u8,
        image_len: usize,
        key: *const u8,
        key_len: usize,
    ) -> u64;

    fn range_filter_accepted_range(
        image: *const u8,
        image_len: usize,
        lower: *const u8,
        lower_len: usize,
        upper: *const u8,
        upper_len: usize,
    ) -> u64;

    fn range_filter_accepted_begins_with(
        image: *const u8,
        image_len: usize,
        stem: *const u8,
        stem_len: usize,
    ) -> u64;

    fn range_filter_accepted_count(
        image: *const u8,
        image_len: usize,
        lower: *const u8,
        lower_len: usize,
        upper: *const u8,
        upper_len: usize,
    ) -> u64;

    fn range_filter_accepted_seek(
        image: *const u8,
        image_len: usize,
        start: *const u8,
        start_len: usize,
        found: *mut u8,
    ) -> u64;

    fn range_filter_accepted_walk(
        image: *const u8,
        image_len: usize,
        place: u64,
        records: *mut u8,
        records_len: usize,
    ) -> u64;
}

/// An image that the check has accepted. It is made by `accept` alone, and the bytes stay
/// borrowed, so that what the calls ask of the image holds.
#[derive(Clone, Copy)]
pub struct Accepted<'a> {
    image: &'a [u8],
}

/// Checks an image, and gives it as accepted or the number of its fault.
pub fn accept(image: &[u8]) -> Result<Accepted<'_>, u32> {
    match check(image) {
        0 => Ok(Accepted { image }),
        number => Err(number),
    }
}

/// A call over an accepted image with one key.
type OneKey = unsafe extern "C" fn(*const u8, usize, *const u8, usize) -> u64;

/// A call over an accepted image with two bounds.
type TwoKeys = unsafe extern "C" fn(*const u8, usize, *const u8, usize, *const u8, usize) -> u64;

impl<'a> Accepted<'a> {
    /// Gives the bytes of the image.
    pub fn image(self) -> &'a [u8] {
        self.image
    }

    /// Makes a call with one key.
    #[inline(always)]
    fn one_key(self, call: OneKey, key: &[u8]) -> Number {
        let image = self.image;
        // SAFETY: pointers and lengths are those of slices that live through the call, and
        // the image is accepted.
        decode(unsafe { call(image.as_ptr(), image.len(), key.as_ptr(), key.len()) })
    }

    /// Makes a call with two bounds.
    #[inline(always)]
    fn two_keys(self, call: TwoKeys, lower: &[u8], upper: &[u8]) -> Number {
        let image = self.image;
        // SAFETY: pointers and lengths are those of slices that live through the call, and
        // the image is accepted.
        decode(unsafe {
            call(
                image.as_ptr(),
                image.len(),
                lower.as_ptr(),
                lower.len(),
                upper.as_ptr(),
                upper.len(),
            )
        })
    }
}

impl AcceptedCalls for Accepted<'_> {
    #[inline]
    fn point(&self, key: &[u8]) -> Number {
        self.one_key(range_filter_accepted_point, key)
    }

    #[inline]
    fn rule(&self, key: &[u8]) -> Number {
        self.one_key(range_filter_accepted_rule, key)
    }

    #[inline]
    fn range(&self, lower: &[u8], upper: &[u8]) -> Number {
        self.two_keys(range_filter_accepted_range, lower, upper)
    }

    #[inline]
    fn begins_with(&self, stem: &[u8]) -> Number {
        self.one_key(range_filter_accepted_begins_with, stem)
    }

    #[inline]
    fn count(&self, lower: &[u8], upper: &[u8]) -> Number {
        self.two_keys(range_filter_accepted_count, lower, upper)
    }

    #[inline]
    fn seek(&self, start: &[u8], found: &mut Found) -> Number {
        let image = self.image;
        // SAFETY: pointers and lengths are those of slices that live through the call, the
        // buffer has the bytes that the call writes to and is lent to it alone, and the
        // image is accepted.
        decode(unsafe {
            range_filter_accepted_seek(
                image.as_ptr(),
                image.len(),
                start.as_ptr(),
                start.len(),
                found.as_mut_ptr(),
            )
        })
    }

    #[inline]
    fn walk(&self, place: u64, records: &mut [u8]) -> Answer {
        let image = self.image;
        // SAFETY: pointers and lengths are those of slices that live through the call, the
        // buffer is lent to it alone, and the image is accepted.
        answer(unsafe {
            range_filter_accepted_walk(
                image.as_ptr(),
                image.len(),
                place,
                records.as_mut_ptr(),
                records.len(),
            )
        })
    }
}
