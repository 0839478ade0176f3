//! Keys and key lists. Rust orders byte slices by unsigned bytes with a proper prefix
//! first, which is the order of document 01.

/// The most bytes of a key.
pub const MAX_KEY: usize = 64;

/// The most keys of a list, and so the most leaves of an image.
pub const MAX_KEYS: usize = 65_535;

/// The mark of a key record.
const MARK: &[u8; 2] = b"KY";

/// Counts the bytes that two keys share from their start.
pub fn shared_prefix(a: &[u8], b: &[u8]) -> usize {
    a.iter().zip(b).take_while(|(x, y)| x == y).count()
}

/// Reads a key list, or gives the number of the first faulty record: 4, 1, 2, 1 or 3,
/// judged in this order.
pub fn parse(list: &[u8]) -> Result<Vec<Vec<u8>>, u32> {
    let mut keys: Vec<Vec<u8>> = Vec::new();
    let mut rest = list;
    while !rest.is_empty() {
        if keys.len() == MAX_KEYS {
            return Err(4);
        }
        let (key, behind) = parse_record(rest)?;
        if keys.last().is_some_and(|last| key <= last.as_slice()) {
            return Err(3);
        }
        keys.push(key.to_vec());
        rest = behind;
    }
    Ok(keys)
}

/// Splits the first record's key from the bytes behind the record.
fn parse_record(bytes: &[u8]) -> Result<(&[u8], &[u8]), u32> {
    let Some((&[first, second, length], behind)) = bytes.split_first_chunk() else {
        return Err(1);
    };
    if [first, second] != *MARK {
        return Err(1);
    }
    let length = usize::from(length);
    if length == 0 || length > MAX_KEY {
        return Err(2);
    }
    behind.split_at_checked(length).ok_or(1)
}

/// Writes keys as the records of a key list, in the order given.
pub fn write<K: AsRef<[u8]>>(keys: &[K]) -> Vec<u8> {
    let mut list = Vec::new();
    for key in keys {
        list.extend_from_slice(MARK);
        write_key(&mut list, key.as_ref());
    }
    list
}

/// Writes a key behind its length byte, as it stands in lists, questions and replies.
pub fn write_key(bytes: &mut Vec<u8>, key: &[u8]) {
    bytes.push(u8::try_from(key.len()).expect("a key's length fits its byte"));
    bytes.extend_from_slice(key);
}
