//! Images from keys, and the check of an image.

use crate::{calls, Refusal, Settings};

/// The most keys of an image.
///
/// ```
/// assert_eq!(range_filter::MAX_KEYS, 65_535);
/// ```
pub const MAX_KEYS: usize = 65_535;

/// Builds the image of some keys, which have to ascend strictly by unsigned bytes.
///
/// # Errors
///
/// [`SettingOutOfRange`](Refusal::SettingOutOfRange) first; then for the first key that cannot be
/// taken [`TooManyKeys`](Refusal::TooManyKeys), [`KeyLengthWrong`](Refusal::KeyLengthWrong) or
/// [`KeysUnordered`](Refusal::KeysUnordered).
///
/// ```
/// use range_filter::{build, Refusal, Settings};
///
/// let image = build(["D1", "D12", "D2", "V"], Settings::default())?;
/// assert_eq!(image.len(), 110);
/// assert_eq!(build(["D1", "D1"], Settings::default()), Err(Refusal::KeysUnordered));
/// # Ok::<(), Refusal>(())
/// ```
///
/// Keys in another order are sorted first, and doubles dropped, which a set does:
///
/// ```
/// use std::collections::BTreeSet;
/// use range_filter::{build, Settings};
///
/// let keys = BTreeSet::from(["V", "D2", "D12", "D1", "D2"]);
/// assert_eq!(build(keys, Settings::default())?.len(), 110);
/// # Ok::<(), range_filter::Refusal>(())
/// ```
pub fn build<I>(keys: I, settings: Settings) -> Result<Vec<u8>, Refusal>
where
    I: IntoIterator,
    I::Item: AsRef<[u8]>,
{
    // The key behind the last one that fits is refused, whatever follows it.
    let keys = keys.into_iter().take(MAX_KEYS + 1);
    build_from_list(&write_key_list(keys), settings)
}

/// Builds the image of a key list: the bytes of a key list file.
///
/// # Errors
///
/// [`ListMalformed`](Refusal::ListMalformed) to [`SettingOutOfRange`](Refusal::SettingOutOfRange),
/// numbers 1 to 5.
///
/// ```
/// use range_filter::{build_from_list, Refusal, Settings};
///
/// let image = build_from_list(b"KY\x02D1KY\x03D12KY\x02D2KY\x01V", Settings::default())?;
/// assert_eq!(image.len(), 110);
/// let cut_off = build_from_list(b"KY\x02D", Settings::default());
/// assert_eq!(cut_off, Err(Refusal::ListMalformed));
/// # Ok::<(), Refusal>(())
/// ```
pub fn build_from_list(list: &[u8], settings: Settings) -> Result<Vec<u8>, Refusal> {
    let mut image = vec![0; image_length(list, settings)?];
    calls::build(list, settings, &mut image)?;
    Ok(image)
}

/// Gives the exact length of the image of a key list, and builds nothing.
///
/// # Errors
///
/// Those of [`build_from_list`].
///
/// ```
/// use range_filter::{image_length, write_key_list, Settings};
///
/// let list = write_key_list(["D1", "D12", "D2", "V"]);
/// assert_eq!(image_length(&list, Settings::default()), Ok(110));
/// assert_eq!(image_length(&list, Settings::default().with_version(2)), Ok(128));
/// assert_eq!(image_length(&list, Settings::default().with_hash_bits(8)), Ok(114));
/// assert_eq!(image_length(&[], Settings::default()), Ok(94)); // the empty list
/// ```
pub fn image_length(list: &[u8], settings: Settings) -> Result<usize, Refusal> {
    calls::image_length(list, settings).map(|length| length as usize)
}

/// Writes a key list: for each key a record of the mark "KY", a length byte and the key.
///
/// Nothing is judged here. Of a key that has over 255 bytes the first 255 are written, for a
/// length byte says no more; a build refuses such a key by its length.
///
/// ```
/// use range_filter::write_key_list;
///
/// assert_eq!(write_key_list(["D1", "D12"]), b"KY\x02D1KY\x03D12");
/// ```
pub fn write_key_list<I>(keys: I) -> Vec<u8>
where
    I: IntoIterator,
    I::Item: AsRef<[u8]>,
{
    let mut list = Vec::new();
    for key in keys {
        list.extend_from_slice(b"KY");
        write_key(key.as_ref(), &mut list);
    }
    list
}

/// Writes a length byte and a key, of which a length byte says at most 255 bytes.
pub(crate) fn write_key(key: &[u8], file: &mut Vec<u8>) {
    let length = u8::try_from(key.len()).unwrap_or(u8::MAX);
    file.push(length);
    file.extend_from_slice(&key[..length.into()]);
}

/// Checks an image, of either version. Without hash bits it is accepted exactly if some key list
/// builds these bytes. With hash bits it is accepted exactly if its spare bits and the slots of its
/// exact leaves are zero, and it would be accepted with the hash bits struck out; what a key list
/// builds is accepted.
///
/// [`Filter::open`](crate::Filter::open) checks an image too and keeps it for questions.
///
/// # Errors
///
/// [`FrameWrong`](Refusal::FrameWrong) to [`SlotWrong`](Refusal::SlotWrong), numbers 11 to 16.
///
/// ```
/// use range_filter::{build, check, Refusal, Settings};
///
/// let mut image = build(["D1", "D12", "D2", "V"], Settings::default())?;
/// assert_eq!(check(&image), Ok(()));
/// image[2] = 9; // the version
/// assert_eq!(check(&image), Err(Refusal::HeaderWrong));
/// # Ok::<(), Refusal>(())
/// ```
pub fn check(image: &[u8]) -> Result<(), Refusal> {
    calls::check(image)
}
