//! A key by value.

use std::borrow::Borrow;
use std::cmp::Ordering;
use std::fmt;
use std::hash::{Hash, Hasher};
use std::ops::Deref;

/// The most bytes that a key has.
///
/// ```
/// use range_filter::{build, Refusal, Settings, MAX_KEY_BYTES};
///
/// assert!(build([[b'k'; MAX_KEY_BYTES]], Settings::default()).is_ok());
/// let longer = [[b'k'; MAX_KEY_BYTES + 1]];
/// assert_eq!(build(longer, Settings::default()), Err(Refusal::KeyLengthWrong));
/// ```
pub const MAX_KEY_BYTES: usize = 64;

/// A key of at most 64 bytes by value, which a seek gives. It stands for its bytes wherever a
/// slice does, and compares with everything that has bytes.
///
/// ```
/// use range_filter::{build, Filter, Key, Settings};
///
/// let image = build(["D1", "D12", "D2", "V"], Settings::default())?;
/// let found = Filter::open(&image)?.seek("D2a")?.expect("there is a key from D2a on");
/// let key: Key = found.key;
/// assert_eq!(key, "D2a");
/// assert_eq!(key.len(), 3);
/// assert!(key.starts_with(b"D2"));
/// assert_eq!(format!("{key:?}"), r#"b"D2a""#);
/// # Ok::<(), range_filter::Refusal>(())
/// ```
#[derive(Clone, Copy)]
pub struct Key {
    length: u8,
    bytes: [u8; MAX_KEY_BYTES],
}

impl Key {
    /// Reads a key as replies and records have it: a length byte, and behind it the key's bytes.
    /// Gives none where the length is over 64 or bytes are missing.
    pub(crate) fn read(bytes: &[u8]) -> Option<Self> {
        let (&length, rest) = bytes.split_first()?;
        let from = rest.get(..length.into())?;
        let mut bytes = [0; MAX_KEY_BYTES];
        bytes.get_mut(..length.into())?.copy_from_slice(from);
        Some(Key { length, bytes })
    }

    /// Gives the key's bytes.
    ///
    /// ```
    /// use range_filter::{build, Filter, Settings};
    ///
    /// let image = build(["D1", "D12", "D2", "V"], Settings::default())?;
    /// let found = Filter::open(&image)?.seek("")?.expect("the image has keys");
    /// assert_eq!(found.key.as_bytes(), b"D1");
    /// # Ok::<(), range_filter::Refusal>(())
    /// ```
    #[must_use]
    pub fn as_bytes(&self) -> &[u8] {
        &self.bytes[..self.length.into()]
    }
}

impl Deref for Key {
    type Target = [u8];

    fn deref(&self) -> &[u8] {
        self.as_bytes()
    }
}

impl AsRef<[u8]> for Key {
    fn as_ref(&self) -> &[u8] {
        self.as_bytes()
    }
}

// Equality, order and hash are those of the bytes, as a lookup by a slice asks.
impl Borrow<[u8]> for Key {
    fn borrow(&self) -> &[u8] {
        self.as_bytes()
    }
}

impl<T: AsRef<[u8]> + ?Sized> PartialEq<T> for Key {
    fn eq(&self, other: &T) -> bool {
        self.as_bytes() == other.as_ref()
    }
}

impl Eq for Key {}

impl<T: AsRef<[u8]> + ?Sized> PartialOrd<T> for Key {
    fn partial_cmp(&self, other: &T) -> Option<Ordering> {
        self.as_bytes().partial_cmp(other.as_ref())
    }
}

impl Ord for Key {
    fn cmp(&self, other: &Self) -> Ordering {
        self.as_bytes().cmp(other.as_bytes())
    }
}

impl Hash for Key {
    fn hash<H: Hasher>(&self, state: &mut H) {
        self.as_bytes().hash(state);
    }
}

impl fmt::Debug for Key {
    fn fmt(&self, formatter: &mut fmt::Formatter<'_>) -> fmt::Result {
        write!(formatter, "b\"{}\"", self.escape_ascii())
    }
}
