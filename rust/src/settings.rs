//! The settings of a build.

/// How an image is built: its version, its dense levels, its real bits and its hash bits.
///
/// The default is version 1, which every reader takes, with no dense levels, no real bits and no
/// hash bits, which gives the smallest image. A value out of range is taken here and refused by
/// the build.
///
/// ```
/// use range_filter::{build, Filter, Refusal, Settings};
///
/// let settings = Settings::default().with_real_bits(8).with_hash_bits(4);
/// let image = build(["D1", "D12", "D2", "VAN"], settings)?;
/// assert_eq!(Filter::open(&image)?.settings(), settings);
///
/// let wrong = Settings::default().with_dense_levels(5);
/// assert_eq!(build(["D1"], wrong), Err(Refusal::SettingOutOfRange));
/// # Ok::<(), Refusal>(())
/// ```
#[derive(Clone, Copy, Debug, PartialEq, Eq, Hash)]
pub struct Settings {
    version: u8,
    dense_levels: u8,
    real_bits: u8,
    hash_bits: u8,
}

impl Settings {
    /// The newest version that a build takes. The first one is 1.
    ///
    /// ```
    /// assert_eq!(range_filter::Settings::MAX_VERSION, 2);
    /// ```
    pub const MAX_VERSION: u8 = 2;

    /// The most dense levels that a build takes.
    ///
    /// ```
    /// assert_eq!(range_filter::Settings::MAX_DENSE_LEVELS, 4);
    /// ```
    pub const MAX_DENSE_LEVELS: u8 = 4;

    /// The most real bits that a build takes.
    ///
    /// ```
    /// assert_eq!(range_filter::Settings::MAX_REAL_BITS, 16);
    /// ```
    pub const MAX_REAL_BITS: u8 = 16;

    /// The most hash bits that a build takes.
    ///
    /// ```
    /// assert_eq!(range_filter::Settings::MAX_HASH_BITS, 16);
    /// ```
    pub const MAX_HASH_BITS: u8 = 16;

    /// Gives these settings with a version of the image, 1 or 2.
    ///
    /// An image of version 2 also stores the first node of each level, which version 1 leaves to
    /// be found: counts and seeks are faster where levels are many. It has 6 bytes more, and 4 for
    /// each level. The answers are the same. Programs from before version 2 read version 1 alone.
    ///
    /// ```
    /// use range_filter::{build, Filter, Settings};
    ///
    /// let keys = ["D1", "D12", "D2", "V"];
    /// let first = build(keys, Settings::default())?;
    /// let second = build(keys, Settings::default().with_version(2))?;
    /// assert_eq!((first.len(), second.len()), (110, 128)); // three levels
    /// assert_eq!(Filter::open(&second)?.count("D11", "D13")?, 1);
    /// # Ok::<(), range_filter::Refusal>(())
    /// ```
    #[must_use]
    pub const fn with_version(self, version: u8) -> Self {
        Settings { version, ..self }
    }

    /// Gives these settings with so many dense levels, 0 to 4.
    ///
    /// A node on a dense level is a bitmap of 256 branches, which takes 64 bytes and is read
    /// fast; a node below is a list of its labels.
    ///
    /// ```
    /// use range_filter::{build, Settings};
    ///
    /// let keys = ["D1", "D12", "D2", "V"];
    /// let sparse = build(keys, Settings::default())?;
    /// let dense = build(keys, Settings::default().with_dense_levels(1))?;
    /// assert_eq!((sparse.len(), dense.len()), (110, 209));
    /// # Ok::<(), range_filter::Refusal>(())
    /// ```
    #[must_use]
    pub const fn with_dense_levels(self, dense_levels: u8) -> Self {
        Settings {
            dense_levels,
            ..self
        }
    }

    /// Gives these settings with so many real bits for a key, 0 to 16: the bits of the key behind
    /// its cut.
    ///
    /// More bits mean a longer image and fewer keys that are said to be possible and are not
    /// stored. All questions go by them.
    ///
    /// ```
    /// use range_filter::{build, Filter, Settings};
    ///
    /// let image = build(["D1", "D12", "D2", "VAN"], Settings::default().with_real_bits(8))?;
    /// let filter = Filter::open(&image)?;
    /// assert!(filter.may_contain("VAX")?); // begins as VAN does, as far as the image knows
    /// assert!(!filter.may_contain("VB")?); // the bits behind V are others
    /// # Ok::<(), range_filter::Refusal>(())
    /// ```
    #[must_use]
    pub const fn with_real_bits(self, real_bits: u8) -> Self {
        Settings { real_bits, ..self }
    }

    /// Gives these settings with so many hash bits for a key, 0 to 16: the lowest bits of the
    /// whole key's [`hash`](crate::hash()).
    ///
    /// Points alone go by them: each bit about halves the keys that
    /// [`may_contain`](crate::Filter::may_contain) takes for stored ones and that are not. Ranges,
    /// stems, counts and seeks say the same with and without them. Programs from before hash bits
    /// refuse an image that has some, with 12.
    ///
    /// ```
    /// use range_filter::{build, Filter, Settings};
    ///
    /// let image = build(["D1", "D12", "D2", "V"], Settings::default().with_hash_bits(8))?;
    /// let filter = Filter::open(&image)?;
    /// assert!(filter.may_contain("D2")?); // a stored key is never denied
    /// assert!(!filter.may_contain("D2x")?); // begins as D2 does, and has another hash
    /// assert!(filter.may_contain_range("D2x", "D2x")?); // a range has the real bits alone
    /// # Ok::<(), range_filter::Refusal>(())
    /// ```
    #[must_use]
    pub const fn with_hash_bits(self, hash_bits: u8) -> Self {
        Settings { hash_bits, ..self }
    }

    /// Gives the version of the image.
    ///
    /// ```
    /// use range_filter::Settings;
    ///
    /// assert_eq!(Settings::default().version(), 1);
    /// assert_eq!(Settings::default().with_version(2).version(), 2);
    /// ```
    #[must_use]
    pub const fn version(self) -> u8 {
        self.version
    }

    /// Gives the number of dense levels.
    ///
    /// ```
    /// use range_filter::Settings;
    ///
    /// assert_eq!(Settings::default().dense_levels(), 0);
    /// assert_eq!(Settings::default().with_dense_levels(2).dense_levels(), 2);
    /// ```
    #[must_use]
    pub const fn dense_levels(self) -> u8 {
        self.dense_levels
    }

    /// Gives the number of real bits for a key.
    ///
    /// ```
    /// use range_filter::Settings;
    ///
    /// assert_eq!(Settings::default().real_bits(), 0);
    /// assert_eq!(Settings::default().with_real_bits(8).real_bits(), 8);
    /// ```
    #[must_use]
    pub const fn real_bits(self) -> u8 {
        self.real_bits
    }

    /// Gives the number of hash bits for a key.
    ///
    /// ```
    /// use range_filter::Settings;
    ///
    /// assert_eq!(Settings::default().hash_bits(), 0);
    /// assert_eq!(Settings::default().with_hash_bits(4).hash_bits(), 4);
    /// ```
    #[must_use]
    pub const fn hash_bits(self) -> u8 {
        self.hash_bits
    }

    /// Reads the settings that stand in the four bytes of an image's header.
    pub(crate) const fn read(bytes: [u8; 4]) -> Self {
        let [version, dense_levels, real_bits, hash_bits] = bytes;
        Settings {
            version,
            dense_levels,
            real_bits,
            hash_bits,
        }
    }

    /// Gives the settings as the library takes them: the four bytes of an image's header as a
    /// number, the low byte first.
    pub(crate) fn number(self) -> u64 {
        let bytes = [
            self.version,
            self.dense_levels,
            self.real_bits,
            self.hash_bits,
        ];
        u32::from_le_bytes(bytes).into()
    }
}

impl Default for Settings {
    /// Gives version 1 without dense levels, real bits and hash bits.
    fn default() -> Self {
        Settings {
            version: 1,
            dense_levels: 0,
            real_bits: 0,
            hash_bits: 0,
        }
    }
}
