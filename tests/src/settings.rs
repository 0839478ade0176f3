//! The settings of an image, as they are handed to a build and as they stand in a header.

/// The numbers that each part of the settings' number can have, which are those of a byte.
const PART: u64 = 1 << 8;

/// The version, the number of dense levels, and the real bits n and the hash bits h of a slot.
/// They need not be in range.
#[derive(Clone, Copy, Debug, PartialEq, Eq, Hash)]
pub struct Settings {
    pub version: u64,
    pub dense_levels: u64,
    pub n: u64,
    pub h: u64,
}

/// Gives settings of version 1 without hash bits.
pub const fn version_1(dense_levels: u64, n: u64) -> Settings {
    Settings {
        version: 1,
        dense_levels,
        n,
        h: 0,
    }
}

/// Gives settings of version 2, which has level starts, without hash bits.
pub const fn version_2(dense_levels: u64, n: u64) -> Settings {
    Settings {
        version: 2,
        ..version_1(dense_levels, n)
    }
}

impl Settings {
    /// Gives these settings with so many hash bits.
    pub const fn with_hash(self, h: u64) -> Settings {
        Settings { h, ..self }
    }

    /// Counts the bits of a slot.
    pub const fn slot_bits(self) -> u64 {
        self.h + self.n
    }

    /// Gives the number that stands for the settings: header bytes 2 to 5, the low byte first.
    /// A part that is no byte is put in as 255, which is out of range too.
    pub fn number(self) -> u64 {
        let parts = [self.h, self.n, self.dense_levels, self.version];
        let put = |number: u64, part: u64| number * PART + part.min(PART - 1);
        parts.into_iter().fold(0, put)
    }

    /// Gives the settings that a number stands for. What lies above the other parts belongs to
    /// h, so that each number from 2^32 on has hash bits out of range.
    pub fn of_number(number: u64) -> Settings {
        Settings {
            version: number % PART,
            dense_levels: number / PART % PART,
            n: number / PART.pow(2) % PART,
            h: number / PART.pow(3),
        }
    }
}
