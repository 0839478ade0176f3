//! An accepted image, and the questions that are put to it one at a time.

use crate::calls::{Accepted, FOUND_BYTES};
use crate::leaf::{Record, RECORD_BYTES};
use crate::{questions, Key, Leaf, Leaves, Refusal, Rule, Settings};
use std::fmt;

/// The first of the header's four bytes with the settings.
const SETTINGS_AT: usize = 2;
/// The first of the header's four bytes with the number of leaves.
const LEAVES_AT: usize = 6;
/// The number in a seek's reply where there is no key from the start on.
pub(crate) const NOT_FOUND: u32 = u32::MAX;

/// An image that the check has accepted, ready to be asked.
///
/// It borrows the image's bytes, so that they cannot change while it is in use, and is a pointer
/// and a length itself: copy it freely, and share it among threads.
///
/// Keys, bounds and stems are any bytes, the empty string too. One that has over 64 bytes is
/// refused with [`Refusal::KeyTooLong`].
///
/// ```
/// use range_filter::{build, Filter, Settings};
///
/// let image = build(["D1", "D12", "D2", "V"], Settings::default())?;
/// let filter = Filter::open(&image)?;
/// assert_eq!(filter.len(), 4);
/// assert!(filter.may_contain("D1")?);
/// assert!(!filter.may_contain("D10")?);
/// # Ok::<(), range_filter::Refusal>(())
/// ```
#[derive(Clone, Copy)]
pub struct Filter<'a> {
    accepted: Accepted<'a>,
}

impl<'a> Filter<'a> {
    /// Checks an image and opens it. The check is linear in the image; questions are not.
    ///
    /// # Errors
    ///
    /// [`FrameWrong`](Refusal::FrameWrong) to [`SlotWrong`](Refusal::SlotWrong), numbers 11
    /// to 16, as [`check`](crate::check) gives them.
    ///
    /// ```
    /// use range_filter::{build, Filter, Refusal, Settings};
    ///
    /// let image = build(["D1", "D12", "D2", "V"], Settings::default())?;
    /// assert!(Filter::open(&image).is_ok());
    /// assert_eq!(Filter::open(&image[1..]).err(), Some(Refusal::FrameWrong));
    /// # Ok::<(), Refusal>(())
    /// ```
    pub fn open(image: &'a [u8]) -> Result<Self, Refusal> {
        Accepted::accept(image).map(|accepted| Filter { accepted })
    }

    /// Gives the bytes of the image.
    ///
    /// ```
    /// use range_filter::{build, Filter, Settings};
    ///
    /// let image = build(["D1", "D12", "D2", "V"], Settings::default())?;
    /// assert_eq!(Filter::open(&image)?.image(), image);
    /// # Ok::<(), range_filter::Refusal>(())
    /// ```
    #[must_use]
    pub fn image(&self) -> &'a [u8] {
        self.accepted.image()
    }

    /// Gives the settings that the image was built with.
    ///
    /// ```
    /// use range_filter::{build, Filter, Settings};
    ///
    /// let settings = Settings::default().with_version(2).with_dense_levels(1);
    /// let image = build(["D1", "D12", "D2", "V"], settings)?;
    /// assert_eq!(Filter::open(&image)?.settings(), settings);
    /// # Ok::<(), range_filter::Refusal>(())
    /// ```
    #[must_use]
    pub fn settings(&self) -> Settings {
        Settings::read(self.header_bytes(SETTINGS_AT))
    }

    /// Gives the number of leaves, which is the number of stored keys.
    ///
    /// ```
    /// use range_filter::{build, Filter, Settings};
    ///
    /// let image = build(["D1", "D12", "D2", "V"], Settings::default())?;
    /// assert_eq!(Filter::open(&image)?.len(), 4);
    /// # Ok::<(), range_filter::Refusal>(())
    /// ```
    #[must_use]
    pub fn len(&self) -> usize {
        u32::from_le_bytes(self.header_bytes(LEAVES_AT)) as usize
    }

    /// Says whether no key is stored.
    ///
    /// ```
    /// use range_filter::{build, Filter, Settings};
    ///
    /// let none: [&str; 0] = [];
    /// let image = build(none, Settings::default())?;
    /// assert!(Filter::open(&image)?.is_empty());
    /// # Ok::<(), range_filter::Refusal>(())
    /// ```
    #[must_use]
    pub fn is_empty(&self) -> bool {
        self.len() == 0
    }

    /// Says whether a key may be stored. A stored key always gets `true`, and `false` says that no
    /// key list which builds this image holds the key.
    ///
    /// Real bits and hash bits both have to be the key's, so that this may say `false` where
    /// [`may_contain_range`](Filter::may_contain_range) from the key to itself says `true`: a range
    /// has only the real bits to go by. Without hash bits `true` says that some key list which
    /// builds this image holds the key.
    ///
    /// # Errors
    ///
    /// [`KeyTooLong`](Refusal::KeyTooLong) where the key has over 64 bytes.
    ///
    /// ```
    /// use range_filter::{build, Filter, Settings};
    ///
    /// let image = build(["D1", "D12", "D2", "V"], Settings::default())?;
    /// let filter = Filter::open(&image)?;
    /// assert!(filter.may_contain("D1")?);
    /// assert!(!filter.may_contain("D10")?);
    /// assert!(!filter.may_contain("D")?);
    /// assert!(filter.may_contain("D2x")?); // D2 is cut there: any byte may follow
    /// assert!(!filter.may_contain("")?);
    /// # Ok::<(), range_filter::Refusal>(())
    /// ```
    pub fn may_contain(&self, key: impl AsRef<[u8]>) -> Result<bool, Refusal> {
        self.accepted.point(key.as_ref()).map(is_one)
    }

    /// Gives the rule that decides whether a key may be stored.
    ///
    /// # Errors
    ///
    /// [`KeyTooLong`](Refusal::KeyTooLong) where the key has over 64 bytes.
    ///
    /// ```
    /// use range_filter::{build, Filter, Rule, Settings};
    ///
    /// let image = build(["D1", "D12", "D2", "V"], Settings::default())?;
    /// let filter = Filter::open(&image)?;
    /// assert_eq!(filter.rule("D1")?, Rule::ExactLeaf);
    /// assert_eq!(filter.rule("D10")?, Rule::BranchMissing);
    /// assert_eq!(filter.rule("D")?, Rule::KeyEnded);
    /// # Ok::<(), range_filter::Refusal>(())
    /// ```
    pub fn rule(&self, key: impl AsRef<[u8]>) -> Result<Rule, Refusal> {
        self.accepted.rule(key.as_ref())
    }

    /// Says whether a key from bound to bound, both included, may be stored: whether some list with
    /// the image's cut keys and real bits has one there.
    ///
    /// # Errors
    ///
    /// [`KeyTooLong`](Refusal::KeyTooLong) where a bound has over 64 bytes,
    /// [`BoundsReversed`](Refusal::BoundsReversed) where the lower one is above the upper one.
    ///
    /// ```
    /// use range_filter::{build, Filter, Refusal, Settings};
    ///
    /// let image = build(["D1", "D12", "D2", "V"], Settings::default())?;
    /// let filter = Filter::open(&image)?;
    /// assert!(filter.may_contain_range("D11", "D13")?); // D12
    /// assert!(!filter.may_contain_range("E", "U")?);
    /// assert_eq!(filter.may_contain_range("U", "E"), Err(Refusal::BoundsReversed));
    /// # Ok::<(), Refusal>(())
    /// ```
    pub fn may_contain_range(
        &self,
        lower: impl AsRef<[u8]>,
        upper: impl AsRef<[u8]>,
    ) -> Result<bool, Refusal> {
        let number = self.accepted.range(lower.as_ref(), upper.as_ref());
        number.map(is_one)
    }

    /// Says whether a key that begins with a stem may be stored. Any bytes may follow the stem;
    /// the empty stem covers every key.
    ///
    /// # Errors
    ///
    /// [`KeyTooLong`](Refusal::KeyTooLong) where the stem has over 64 bytes.
    ///
    /// ```
    /// use range_filter::{build, Filter, Settings};
    ///
    /// let image = build(["D1", "D12", "D2", "V"], Settings::default())?;
    /// let filter = Filter::open(&image)?;
    /// assert!(filter.starts_with("D")?);
    /// assert!(filter.starts_with("")?);
    /// assert!(!filter.starts_with("D3")?);
    /// # Ok::<(), range_filter::Refusal>(())
    /// ```
    pub fn starts_with(&self, stem: impl AsRef<[u8]>) -> Result<bool, Refusal> {
        self.accepted.begins_with(stem.as_ref()).map(is_one)
    }

    /// Gives the most keys from bound to bound, both included, that a list with the image's cut
    /// keys and real bits has. No such list has over two fewer there.
    ///
    /// # Errors
    ///
    /// [`KeyTooLong`](Refusal::KeyTooLong) where a bound has over 64 bytes,
    /// [`BoundsReversed`](Refusal::BoundsReversed) where the lower one is above the upper one.
    ///
    /// ```
    /// use range_filter::{build, Filter, Settings};
    ///
    /// let image = build(["D1", "D12", "D2", "V"], Settings::default())?;
    /// let filter = Filter::open(&image)?;
    /// assert_eq!(filter.count("D12Z", "D2")?, 2); // D12 is cut there and may be D12Z or higher
    /// assert_eq!(filter.count("D11", "D13")?, 1);
    /// # Ok::<(), range_filter::Refusal>(())
    /// ```
    pub fn count(
        &self,
        lower: impl AsRef<[u8]>,
        upper: impl AsRef<[u8]>,
    ) -> Result<usize, Refusal> {
        let number = self.accepted.count(lower.as_ref(), upper.as_ref());
        number.map(|count| count as usize)
    }

    /// Gives the smallest key from a start on that may be stored, which is one that some list with
    /// the image's cut keys and real bits holds, and its leaf's place; none if there is no such key.
    ///
    /// # Errors
    ///
    /// [`KeyTooLong`](Refusal::KeyTooLong) where the start has over 64 bytes.
    ///
    /// ```
    /// use range_filter::{build, Filter, Settings};
    ///
    /// let image = build(["D1", "D12", "D2", "V"], Settings::default())?;
    /// let filter = Filter::open(&image)?;
    /// let found = filter.seek("D13")?.expect("D2 lies behind D13");
    /// assert_eq!(found.place, 2);
    /// assert_eq!(found.key, "D2");
    /// assert_eq!(filter.seek("W")?, None);
    /// # Ok::<(), range_filter::Refusal>(())
    /// ```
    pub fn seek(&self, start: impl AsRef<[u8]>) -> Result<Option<Found>, Refusal> {
        let mut key = [0; FOUND_BYTES];
        let number = self.accepted.seek(start.as_ref(), &mut key)?;
        Ok(Found::read(number, &key))
    }

    /// Gives the leaf at a place: its number in key order, from 0. Gives none where the place
    /// is the number of leaves, and for no other cause: the record is read into memory of this
    /// function's own, so that there is no buffer that could be too short for it.
    ///
    /// # Errors
    ///
    /// [`PlaceOutOfRange`](Refusal::PlaceOutOfRange) where the place is above the number of
    /// leaves.
    ///
    /// ```
    /// use range_filter::{build, Filter, Refusal, Settings};
    ///
    /// let image = build(["D1", "D12", "D2", "V"], Settings::default())?;
    /// let filter = Filter::open(&image)?;
    /// let leaf = filter.leaf(1)?.expect("the image has four leaves");
    /// assert_eq!(leaf.cut(), b"D12");
    /// assert_eq!(filter.leaf(4)?, None);
    /// assert_eq!(filter.leaf(5), Err(Refusal::PlaceOutOfRange));
    /// # Ok::<(), Refusal>(())
    /// ```
    pub fn leaf(&self, place: usize) -> Result<Option<Leaf>, Refusal> {
        let mut records = [[0; RECORD_BYTES]];
        let written = self.records(place, &mut records)?;
        let record = records[..written].first();
        Ok(record.and_then(|record| Leaf::read(record, place, self.settings())))
    }

    /// Gives the leaves one by one in key order.
    ///
    /// ```
    /// use range_filter::{build, Filter, Settings};
    ///
    /// let image = build(["D1", "D12", "D2", "V"], Settings::default())?;
    /// let filter = Filter::open(&image)?;
    /// let cuts: Vec<Vec<u8>> = filter.leaves().map(|leaf| leaf.cut().to_vec()).collect();
    /// assert_eq!(cuts, [&b"D1"[..], b"D12", b"D2", b"V"]);
    /// # Ok::<(), range_filter::Refusal>(())
    /// ```
    #[must_use]
    pub fn leaves(&self) -> Leaves<'a> {
        Leaves::new(*self)
    }

    /// Replies to a file of questions, as [`ask`](crate::ask) does. The call checks the image
    /// again; for single questions take the methods above.
    ///
    /// # Errors
    ///
    /// [`QuestionMalformed`](Refusal::QuestionMalformed) to
    /// [`TooManyQuestions`](Refusal::TooManyQuestions), numbers 21 to 24, for the first question
    /// that cannot be taken.
    ///
    /// ```
    /// use range_filter::{build, Filter, Settings};
    ///
    /// let image = build(["D1", "D12", "D2", "V"], Settings::default())?;
    /// let replies = Filter::open(&image)?.ask(b"QS\x03D13")?;
    /// assert_eq!(replies, b"ANS\x02\x00\x00\x00\x02D2");
    /// # Ok::<(), range_filter::Refusal>(())
    /// ```
    pub fn ask(&self, questions: &[u8]) -> Result<Vec<u8>, Refusal> {
        questions::ask(self.image(), questions)
    }

    /// Gives the four bytes from an offset of the header on.
    fn header_bytes(&self, at: usize) -> [u8; 4] {
        let mut bytes = [0; 4];
        bytes.copy_from_slice(&self.image()[at..at + 4]);
        bytes
    }

    /// Writes the records of the leaves from a place on, as many as there is room for, and gives
    /// their number. Where there is room for one, 0 says that the place is behind the last leaf.
    pub(crate) fn records(&self, place: usize, records: &mut [Record]) -> Result<usize, Refusal> {
        let written = self.accepted.walk(place, records);
        written.map(|bytes| bytes as usize / RECORD_BYTES)
    }
}

impl<'a> IntoIterator for &Filter<'a> {
    type Item = Leaf;
    type IntoIter = Leaves<'a>;

    fn into_iter(self) -> Leaves<'a> {
        self.leaves()
    }
}

impl fmt::Debug for Filter<'_> {
    fn fmt(&self, formatter: &mut fmt::Formatter<'_>) -> fmt::Result {
        let mut filter = formatter.debug_struct("Filter");
        filter.field("settings", &self.settings());
        filter.field("len", &self.len());
        filter.finish_non_exhaustive()
    }
}

/// What a seek found: the smallest key from its start on that may be stored.
///
/// ```
/// use range_filter::{build, Filter, Found, Settings};
///
/// let image = build(["D1", "D12", "D2", "V"], Settings::default())?;
/// let Some(Found { place, key }) = Filter::open(&image)?.seek("D2a")? else {
///     panic!("D2 is cut there and may be D2a");
/// };
/// assert_eq!(place, 2);
/// assert_eq!(key, "D2a");
/// # Ok::<(), range_filter::Refusal>(())
/// ```
#[derive(Clone, Copy, Debug, PartialEq, Eq, Hash)]
pub struct Found {
    /// The place of the leaf that has the key among its possible keys.
    pub place: usize,
    /// The key.
    pub key: Key,
}

impl Found {
    /// Reads the number of a seek's reply, and its length byte and key. Gives none where the
    /// number says so.
    pub(crate) fn read(number: u32, key: &[u8]) -> Option<Self> {
        if number == NOT_FOUND {
            return None;
        }
        let place = number as usize;
        Key::read(key).map(|key| Found { place, key })
    }
}

/// Says whether a reply's number is 1.
pub(crate) fn is_one(number: u32) -> bool {
    number == 1
}
