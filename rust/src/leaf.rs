//! A leaf by value.

use crate::{Key, Settings};
use std::fmt;

/// The bytes of a walk's record: kind, length of the cut key, 64 bytes for the cut key, and four
/// for the suffix.
pub(crate) const RECORD_BYTES: usize = 70;

/// A walk's record. Whoever lends room for records lends whole ones, so that none is cut off.
pub(crate) type Record = [u8; RECORD_BYTES];

/// The first of the four bytes of a record with the suffix.
const SUFFIX_AT: usize = 66;

/// The kind byte of an exact leaf's record.
const EXACT: u8 = 1;

/// A leaf of the trie: what an image keeps of one key.
///
/// An *exact* leaf is a whole key, which begins another key of the list. An *open* leaf is a key
/// that is cut one byte behind the longest prefix that it shares with another key, and its suffix:
/// hash bits of the whole key, then the bits behind the cut, its real bits.
///
/// ```
/// use range_filter::{build, Filter, Settings};
///
/// let image = build(["D1", "D12", "D2", "VAN"], Settings::default().with_real_bits(8))?;
/// let filter = Filter::open(&image)?;
/// let leaf = filter.leaf(3)?.expect("the image has four leaves");
/// assert_eq!(leaf.place(), 3);
/// assert_eq!(leaf.cut(), b"V");
/// assert!(!leaf.is_exact());
/// assert_eq!(leaf.suffix().to_string(), "01000001");
/// # Ok::<(), range_filter::Refusal>(())
/// ```
#[derive(Clone, Copy, Debug, PartialEq, Eq, Hash)]
pub struct Leaf {
    place: usize,
    cut: Key,
    exact: bool,
    suffix: Suffix,
}

impl Leaf {
    /// Reads the record of the leaf at a place of an image with these settings. Gives none for
    /// bytes that are no record.
    pub(crate) fn read(record: &Record, place: usize, settings: Settings) -> Option<Self> {
        let exact = record[0] == EXACT;
        let suffix = &record[SUFFIX_AT..];
        let width = settings.hash_bits() + settings.real_bits();
        Some(Leaf {
            place,
            cut: Key::read(&record[1..])?,
            exact,
            suffix: Suffix {
                width: if exact { 0 } else { width },
                bits: u32::from_le_bytes(suffix.try_into().ok()?),
            },
        })
    }

    /// Gives the leaf's number in key order, from 0.
    ///
    /// ```
    /// use range_filter::{build, Filter, Settings};
    ///
    /// let image = build(["D1", "D12", "D2", "V"], Settings::default())?;
    /// let places: Vec<usize> = Filter::open(&image)?.leaves().map(|leaf| leaf.place()).collect();
    /// assert_eq!(places, [0, 1, 2, 3]);
    /// # Ok::<(), range_filter::Refusal>(())
    /// ```
    #[must_use]
    pub fn place(&self) -> usize {
        self.place
    }

    /// Gives the cut key: the whole key of an exact leaf, the shortest distinguishing prefix of
    /// an open one.
    ///
    /// ```
    /// use range_filter::{build, Filter, Settings};
    ///
    /// let image = build(["D1", "D12", "D2", "VAN"], Settings::default())?;
    /// let leaf = Filter::open(&image)?.leaves().last().expect("the image has leaves");
    /// assert_eq!(leaf.cut(), b"V");
    /// # Ok::<(), range_filter::Refusal>(())
    /// ```
    #[must_use]
    pub fn cut(&self) -> &[u8] {
        self.cut.as_bytes()
    }

    /// Says whether the leaf is exact: its cut key is a stored key.
    ///
    /// ```
    /// use range_filter::{build, Filter, Settings};
    ///
    /// let image = build(["D1", "D12", "D2", "V"], Settings::default())?;
    /// let exact: Vec<bool> = Filter::open(&image)?.leaves().map(|leaf| leaf.is_exact()).collect();
    /// assert_eq!(exact, [true, false, false, false]); // D1 begins D12
    /// # Ok::<(), range_filter::Refusal>(())
    /// ```
    #[must_use]
    pub fn is_exact(&self) -> bool {
        self.exact
    }

    /// Gives the suffix of an open leaf; that of an exact leaf has no bits.
    ///
    /// ```
    /// use range_filter::{build, Filter, Settings};
    ///
    /// let settings = Settings::default().with_real_bits(8).with_hash_bits(4);
    /// let image = build(["D1", "D12", "D2", "VAN"], settings)?;
    /// let leaves = Filter::open(&image)?.leaves();
    /// let widths: Vec<u8> = leaves.map(|leaf| leaf.suffix().width()).collect();
    /// assert_eq!(widths, [0, 12, 12, 12]);
    /// # Ok::<(), range_filter::Refusal>(())
    /// ```
    #[must_use]
    pub fn suffix(&self) -> Suffix {
        self.suffix
    }
}

/// What an open leaf keeps of its key beside the cut key: the hash bits, and behind them the real
/// bits, which are the bits of the key behind its cut.
///
/// It prints as zeros and ones, the first bit first, and as `-` where there are no bits.
///
/// ```
/// use range_filter::{build, Filter, Settings};
///
/// let keys = ["D1", "D12", "D2", "VAN"];
/// let suffixes = |settings| -> Result<Vec<String>, range_filter::Refusal> {
///     let image = build(keys, settings)?;
///     let leaves = Filter::open(&image)?.leaves();
///     Ok(leaves.map(|leaf| leaf.suffix().to_string()).collect())
/// };
/// let real = Settings::default().with_real_bits(8);
/// assert_eq!(suffixes(real)?, ["-", "00000000", "00000000", "01000001"]); // 41 is A
/// let both = real.with_hash_bits(4);
/// assert_eq!(suffixes(both)?, ["-", "001100000000", "110000000000", "010001000001"]);
/// # Ok::<(), range_filter::Refusal>(())
/// ```
#[derive(Clone, Copy, Debug, PartialEq, Eq, Hash)]
pub struct Suffix {
    width: u8,
    bits: u32,
}

impl Suffix {
    /// Gives the number of bits.
    ///
    /// ```
    /// use range_filter::{build, Filter, Settings};
    ///
    /// let image = build(["VAN"], Settings::default().with_real_bits(4).with_hash_bits(8))?;
    /// let leaf = Filter::open(&image)?.leaves().next().expect("the image has a leaf");
    /// assert_eq!(leaf.suffix().width(), 12);
    /// # Ok::<(), range_filter::Refusal>(())
    /// ```
    #[must_use]
    pub fn width(self) -> u8 {
        self.width
    }

    /// Gives the bits as a number, whose lowest bit is the first: the hash bits are the lowest.
    ///
    /// ```
    /// use range_filter::{build, hash, Filter, Settings};
    ///
    /// let settings = Settings::default().with_real_bits(8);
    /// let bits = |settings| -> Result<u32, range_filter::Refusal> {
    ///     let image = build(["VAN"], settings)?;
    ///     let leaf = Filter::open(&image)?.leaves().next().expect("the image has a leaf");
    ///     Ok(leaf.suffix().bits())
    /// };
    /// assert_eq!(bits(settings)?, 0x82); // 01000001 from its last bit to its first
    /// assert_eq!(hash("VAN") & 0xF, 0x2);
    /// assert_eq!(bits(settings.with_hash_bits(4))?, 0x822);
    /// # Ok::<(), range_filter::Refusal>(())
    /// ```
    #[must_use]
    pub fn bits(self) -> u32 {
        self.bits
    }
}

impl fmt::Display for Suffix {
    fn fmt(&self, formatter: &mut fmt::Formatter<'_>) -> fmt::Result {
        if self.width == 0 {
            return formatter.pad("-");
        }
        let digit = |bit| if self.bits >> bit & 1 == 1 { '1' } else { '0' };
        let digits: String = (0..self.width).map(digit).collect();
        formatter.pad(&digits)
    }
}
