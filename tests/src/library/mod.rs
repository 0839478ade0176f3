//! The calls of the proved library, whose archives `./archives` makes, as safe functions.
//! Those over an accepted image stand apart, since they ask for one.

mod accepted;

pub use accepted::{accept, Accepted};

use crate::accepted::Number;
use crate::answer::Answer;
use crate::settings::Settings;

// The exports: a slice is a pointer and a length.
extern "C" {
    fn range_filter_image_length(list: *const u8, list_len: usize, settings: u64) -> u64;

    fn range_filter_build(
        list: *const u8,
        list_len: usize,
        settings: u64,
        stated: u64,
        out: *mut u8,
        out_len: usize,
    ) -> u64;

    fn range_filter_check(image: *const u8, image_len: usize) -> u32;

    fn range_filter_ask(
        image: *const u8,
        image_len: usize,
        questions: *const u8,
        questions_len: usize,
        replies: *mut u8,
        replies_len: usize,
    ) -> u64;

    fn range_filter_walk(
        image: *const u8,
        image_len: usize,
        place: u64,
        records: *mut u8,
        records_len: usize,
    ) -> u64;

    fn range_filter_hash(key: *const u8, key_len: usize) -> u64;
}

/// Gives the exact length of the image of a key list, or the number of a refusal.
pub fn image_length(list: &[u8], settings: Settings) -> Result<usize, u32> {
    image_length_by_number(list, settings.number())
}

/// Gives the length of an image likewise, with the settings that a number stands for.
pub fn image_length_by_number(list: &[u8], settings: u64) -> Result<usize, u32> {
    // SAFETY: pointer and length are those of a slice that lives through the call.
    let returned = unsafe { range_filter_image_length(list.as_ptr(), list.len(), settings) };
    decode(returned).map(|length| length as usize)
}

/// Builds the image of a key list, whose length is stated, at the start of the output.
pub fn build(list: &[u8], settings: Settings, stated: u64, out: &mut [u8]) -> Answer {
    build_by_number(list, settings.number(), stated, out)
}

/// Builds an image likewise, with the settings that a number stands for.
pub fn build_by_number(list: &[u8], settings: u64, stated: u64, out: &mut [u8]) -> Answer {
    // SAFETY: pointers and lengths are those of slices that live through the call,
    // and the output is lent to it alone.
    answer(unsafe {
        range_filter_build(
            list.as_ptr(),
            list.len(),
            settings,
            stated,
            out.as_mut_ptr(),
            out.len(),
        )
    })
}

/// Gives 0 for an accepted image, else the number of its fault.
pub fn check(image: &[u8]) -> u32 {
    // SAFETY: pointer and length are those of a slice that lives through the call.
    unsafe { range_filter_check(image.as_ptr(), image.len()) }
}

/// Replies to a question file over an image at the start of the reply buffer.
pub fn ask(image: &[u8], questions: &[u8], replies: &mut [u8]) -> Answer {
    // SAFETY: pointers and lengths are those of slices that live through the call,
    // and the reply buffer is lent to it alone.
    answer(unsafe {
        range_filter_ask(
            image.as_ptr(),
            image.len(),
            questions.as_ptr(),
            questions.len(),
            replies.as_mut_ptr(),
            replies.len(),
        )
    })
}

/// Writes the records of the leaves from a place of an image on at the start of the
/// buffer, of as many leaves as it holds whole.
pub fn walk(image: &[u8], place: u64, records: &mut [u8]) -> Answer {
    // SAFETY: pointers and lengths are those of slices that live through the call,
    // and the buffer is lent to it alone.
    answer(unsafe {
        range_filter_walk(
            image.as_ptr(),
            image.len(),
            place,
            records.as_mut_ptr(),
            records.len(),
        )
    })
}

/// Gives the 64-bit hash of a key of any length.
pub fn hash(key: &[u8]) -> u64 {
    // SAFETY: pointer and length are those of a slice that lives through the call.
    unsafe { range_filter_hash(key.as_ptr(), key.len()) }
}

/// Reads what a call that writes returns.
fn answer(returned: u64) -> Answer {
    let written = |bytes| Answer::Written(bytes as usize);
    decode(returned).map_or_else(Answer::Refused, written)
}

/// Reads what a call returns: the refusal number times 2^32, plus a number of bytes or the
/// number of a reply, which is 0 for a refusal.
fn decode(returned: u64) -> Number {
    match ((returned >> 32) as u32, returned as u32) {
        (0, given) => Ok(given),
        (number, 0) => Err(number),
        (number, given) => panic!("refusal {number} with {given}"),
    }
}
