//! One question a call over an accepted image, whose trie is opened once.

use super::check::Accepted;
use super::range::is_held;
use super::seek::Key;
use super::trie::Trie;
use super::walk::write_records;
use range_filter_tests::accepted::{AcceptedCalls, Found, Number};
use range_filter_tests::answer::Answer;
use range_filter_tests::reference::keys::MAX_KEY;
use range_filter_tests::reference::replies::NONE;

/// An accepted image with its trie.
pub struct Opened<'a> {
    trie: Trie<'a>,
}

impl<'a> Opened<'a> {
    /// Opens the trie of an accepted image.
    pub fn new(image: &'a Accepted<'a>) -> Self {
        Opened {
            trie: Trie::new(image),
        }
    }
}

/// Judges the length of a key.
#[inline]
fn judge_key(key: &[u8]) -> Result<(), u32> {
    match key.len() {
        0..=MAX_KEY => Ok(()),
        _ => Err(22),
    }
}

/// Judges the lengths of two bounds and their order.
#[inline]
fn judge_bounds(lower: &[u8], upper: &[u8]) -> Result<(), u32> {
    judge_key(lower)?;
    judge_key(upper)?;
    match lower <= upper {
        true => Ok(()),
        false => Err(23),
    }
}

impl AcceptedCalls for Opened<'_> {
    fn point(&self, key: &[u8]) -> Number {
        judge_key(key)?;
        Ok(is_held(self.trie.rule(key)).into())
    }

    fn rule(&self, key: &[u8]) -> Number {
        judge_key(key)?;
        Ok(self.trie.rule(key).number().into())
    }

    fn range(&self, lower: &[u8], upper: &[u8]) -> Number {
        judge_bounds(lower, upper)?;
        Ok(self.trie.meets(lower, upper).into())
    }

    fn begins_with(&self, stem: &[u8]) -> Number {
        judge_key(stem)?;
        Ok(self.trie.begins(stem).into())
    }

    fn count(&self, lower: &[u8], upper: &[u8]) -> Number {
        judge_bounds(lower, upper)?;
        Ok(self.trie.count(lower, upper))
    }

    fn seek(&self, start: &[u8], found: &mut Found) -> Number {
        judge_key(start)?;
        let mut key = Key::new();
        let place = self.trie.seek(start, &mut key);
        let (length, room) = found.split_at_mut(1);
        length[0] = key.bytes().len() as u8;
        room[..key.bytes().len()].copy_from_slice(key.bytes());
        Ok(place.map_or(NONE, |place| place as u32))
    }

    fn walk(&self, place: u64, records: &mut [u8]) -> Answer {
        write_records(&self.trie, place, records)
    }
}
