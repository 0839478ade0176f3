//! The leaves of an image one by one.

use crate::leaf::{Record, RECORD_BYTES};
use crate::{Filter, Leaf};
use std::fmt;
use std::iter::FusedIterator;

/// The leaves that one call of the library fetches. A call finds its way down from the root,
/// which costs little beside so many leaves.
const BATCH: usize = 64;

/// The leaves of an image in key order, which [`Filter::leaves`] gives.
///
/// Leaves are fetched in batches, so that a walk over all of them is linear in the image.
/// [`Iterator::nth`] and [`Iterator::skip`] go straight to their place.
///
/// A batch is memory of the iterator's own, with room for a whole leaf or more. So `None` means
/// that all leaves have been given. The other cause for which the walk of the C header writes
/// nothing, a buffer shorter than a record, does not come about here: no buffer is taken from the
/// caller.
///
/// ```
/// use range_filter::{build, Filter, Leaves, Settings};
///
/// let image = build(["D1", "D12", "D2", "V"], Settings::default())?;
/// let filter = Filter::open(&image)?;
/// let mut leaves: Leaves = filter.leaves();
/// assert_eq!(leaves.len(), 4);
/// assert_eq!(leaves.next().map(|leaf| leaf.is_exact()), Some(true));
/// assert_eq!(leaves.len(), 3);
/// assert_eq!(leaves.nth(1).map(|leaf| leaf.cut().to_vec()), Some(b"D2".to_vec()));
/// # Ok::<(), range_filter::Refusal>(())
/// ```
#[derive(Clone)]
pub struct Leaves<'a> {
    filter: Filter<'a>,
    /// The place of the next leaf.
    place: usize,
    /// The number of leaves.
    end: usize,
    /// The place of the first leaf that is fetched.
    first: usize,
    /// The records of the leaves that are fetched.
    records: Vec<Record>,
}

impl<'a> Leaves<'a> {
    /// Starts at the first leaf.
    pub(crate) fn new(filter: Filter<'a>) -> Self {
        Leaves {
            filter,
            place: 0,
            end: filter.len(),
            first: 0,
            records: Vec::new(),
        }
    }

    /// Gives the record of the next leaf, if it is fetched.
    fn fetched(&self) -> Option<&Record> {
        self.records.get(self.place - self.first)
    }

    /// Fetches a batch that starts at the next leaf, which there is, so that there is room for at
    /// least one record. No place of a leaf is refused.
    fn fetch(&mut self) {
        let leaves = BATCH.min(self.end - self.place);
        self.first = self.place;
        self.records.resize(leaves, [0; RECORD_BYTES]);
        let written = self.filter.records(self.place, &mut self.records);
        self.records.truncate(written.unwrap_or(0));
    }
}

impl Iterator for Leaves<'_> {
    type Item = Leaf;

    fn next(&mut self) -> Option<Leaf> {
        if self.place == self.end {
            return None;
        }
        if self.fetched().is_none() {
            self.fetch();
        }
        let leaf = Leaf::read(self.fetched()?, self.place, self.filter.settings())?;
        self.place += 1;
        Some(leaf)
    }

    fn nth(&mut self, n: usize) -> Option<Leaf> {
        self.place = self.place.saturating_add(n).min(self.end);
        self.next()
    }

    fn size_hint(&self) -> (usize, Option<usize>) {
        let left = self.end - self.place;
        (left, Some(left))
    }

    fn count(self) -> usize {
        self.len()
    }

    fn last(mut self) -> Option<Leaf> {
        self.nth(self.len().checked_sub(1)?)
    }
}

impl ExactSizeIterator for Leaves<'_> {}

impl FusedIterator for Leaves<'_> {}

impl fmt::Debug for Leaves<'_> {
    fn fmt(&self, formatter: &mut fmt::Formatter<'_>) -> fmt::Result {
        let mut leaves = formatter.debug_struct("Leaves");
        leaves.field("place", &self.place).field("end", &self.end);
        leaves.finish_non_exhaustive()
    }
}
