//! Walking the leaves of an image in key order.

use super::check::accepted_leaves;
use super::keys::MAX_KEY;
use super::leaves::Leaf;
use crate::answer::Answer;

/// The bytes of a leaf's record: kind, length, cut key with zeros behind it, suffix.
pub const RECORD_BYTES: usize = 1 + 1 + MAX_KEY + 4;

/// Where a walk stands.
#[derive(Clone, Debug, PartialEq, Eq)]
pub enum Stand {
    Refused(u32),
    Leaf(Leaf),
    Done,
}

/// Says what a walk over an image gives at a place: a leaf's number in key order, or the
/// leaf count for done.
pub fn at(image: &[u8], place: u64) -> Stand {
    match leaves_from(image, place).map(|rest| rest.into_iter().next()) {
        Err(number) => Stand::Refused(number),
        Ok(Some(leaf)) => Stand::Leaf(leaf),
        Ok(None) => Stand::Done,
    }
}

/// Gives the place behind a place; a walk that is done stays where it is.
pub fn next(image: &[u8], place: u64) -> Result<u64, u32> {
    let rest = leaves_from(image, place)?;
    Ok(if rest.is_empty() { place } else { place + 1 })
}

/// Writes the records of the leaves from a place on at the start of a buffer, one behind
/// the other, of as many leaves as it holds whole; a refusal leaves the buffer as it was.
pub fn write_records(image: &[u8], place: u64, buffer: &mut [u8]) -> Answer {
    match accepted_leaves(image) {
        Ok(leaves) => write_from(&leaves, place, buffer),
        Err(number) => Answer::Refused(number),
    }
}

/// Writes the records of the leaves from a place of an accepted image on, of which all
/// leaves are given.
pub fn write_from(leaves: &[Leaf], place: u64, buffer: &mut [u8]) -> Answer {
    let rest = match from(leaves, place) {
        Ok(rest) => rest,
        Err(number) => return Answer::Refused(number),
    };
    let room = buffer.chunks_exact_mut(RECORD_BYTES);
    let mut written = 0;
    for (bytes, leaf) in room.zip(rest) {
        bytes.copy_from_slice(&record(leaf));
        written += RECORD_BYTES;
    }
    Answer::Written(written)
}

/// Gives the leaves of an image from a place on.
fn leaves_from(image: &[u8], place: u64) -> Result<Vec<Leaf>, u32> {
    let leaves = accepted_leaves(image)?;
    from(&leaves, place).map(<[Leaf]>::to_vec)
}

/// Gives the leaves from a place on, which has to be a leaf's or done.
fn from(leaves: &[Leaf], place: u64) -> Result<&[Leaf], u32> {
    match place <= leaves.len() as u64 {
        true => Ok(&leaves[place as usize..]),
        false => Err(17),
    }
}

/// Gives a leaf's record: its kind (1 exact, 2 open), its cut key's length, the cut key
/// and zeros behind it, and its suffix as a 32-bit number with the low byte first.
pub fn record(leaf: &Leaf) -> [u8; RECORD_BYTES] {
    let mut record = [0; RECORD_BYTES];
    record[0] = if leaf.exact { 1 } else { 2 };
    record[1] = leaf.cut_key.len() as u8;
    record[2..2 + leaf.cut_key.len()].copy_from_slice(&leaf.cut_key);
    record[2 + MAX_KEY..].copy_from_slice(&suffix_number(leaf).to_le_bytes());
    record
}

/// Gives a leaf's suffix as a number, the first bit lowest.
fn suffix_number(leaf: &Leaf) -> u32 {
    let bits = leaf.suffix().into_iter().enumerate();
    bits.map(|(i, bit)| u32::from(bit) << i).sum()
}
