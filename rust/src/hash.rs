//! The hash of a key.

use crate::calls;

/// Gives the 64-bit FNV-1a hash of a key, whose lowest bits are the key's hash bits.
///
/// The key may have any number of bytes. Who builds and asks does not need it: the library hashes
/// the keys itself.
///
/// ```
/// use range_filter::hash;
///
/// assert_eq!(hash(""), 0xcbf2_9ce4_8422_2325); // the hashes that are published for these keys
/// assert_eq!(hash("a"), 0xaf63_dc4c_8601_ec8c);
/// assert_eq!(hash("foobar"), 0x8594_4171_f739_67e8);
/// ```
#[must_use]
pub fn hash(key: impl AsRef<[u8]>) -> u64 {
    calls::hash(key.as_ref())
}
