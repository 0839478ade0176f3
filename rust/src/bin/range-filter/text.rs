//! Keys as text, in which `\xHH` stands for a byte and `\\` for a backslash; settings, refusals and
//! numbers.

use std::fmt;

use range_filter::{Refusal, Settings, MAX_KEY_BYTES};

/// Why a text is not a key.
#[derive(Clone, Copy, Debug, PartialEq, Eq)]
pub enum KeyFault {
    /// The backslash at this column, from 1, starts neither of the two escapes.
    BadEscape(usize),
    /// The key has so many bytes, which are too many.
    TooLong(usize),
}

impl fmt::Display for KeyFault {
    fn fmt(&self, formatter: &mut fmt::Formatter<'_>) -> fmt::Result {
        match self {
            KeyFault::BadEscape(column) => write!(
                formatter,
                "the backslash in column {column} of the key starts no escape: \
                 write \\\\ for a backslash, or \\x and two hexadecimal digits for another byte"
            ),
            KeyFault::TooLong(length) => write!(
                formatter,
                "the key has {length} bytes, and the longest has {MAX_KEY_BYTES}: shorten it"
            ),
        }
    }
}

/// Gives the bytes of a key from its text.
pub fn read_key(text: &[u8]) -> Result<Vec<u8>, KeyFault> {
    let mut key = Vec::with_capacity(text.len());
    let mut rest = text;
    while let [first, behind @ ..] = rest {
        let column = text.len() - behind.len();
        let (byte, left) = match first {
            b'\\' => read_escape(behind).ok_or(KeyFault::BadEscape(column))?,
            _ => (*first, behind),
        };
        key.push(byte);
        rest = left;
    }
    if key.len() > MAX_KEY_BYTES {
        return Err(KeyFault::TooLong(key.len()));
    }
    Ok(key)
}

/// Gives the byte that an escape stands for, and the text behind it, from what follows its
/// backslash.
fn read_escape(text: &[u8]) -> Option<(u8, &[u8])> {
    match text {
        [b'\\', behind @ ..] => Some((b'\\', behind)),
        [b'x', high, low, behind @ ..] => Some((16 * digit(*high)? + digit(*low)?, behind)),
        _ => None,
    }
}

/// Gives the value of a hexadecimal digit.
fn digit(character: u8) -> Option<u8> {
    let value = char::from(character).to_digit(16)?;
    u8::try_from(value).ok()
}

/// Gives the text of a key, which has no blank and reads back as the key. The empty key is `""`.
pub fn show_key(key: &[u8]) -> String {
    if key.is_empty() {
        return "\"\"".to_string();
    }
    key.iter().copied().map(show_byte).collect()
}

/// Gives the text of a byte: itself, if it is a printable character other than a blank, a quote
/// and a backslash, else an escape.
fn show_byte(byte: u8) -> String {
    match byte {
        b'\\' => "\\\\".to_string(),
        b'"' => "\\x22".to_string(),
        b'!'..=b'~' => char::from(byte).to_string(),
        _ => format!("\\x{byte:02X}"),
    }
}

/// Gives settings in words.
pub fn show_settings(settings: Settings) -> String {
    let (version, dense) = (settings.version(), settings.dense_levels());
    let (real, hash) = (settings.real_bits(), settings.hash_bits());
    format!("version {version}, dense levels {dense}, real bits {real}, hash bits {hash}")
}

/// Gives a refusal in words: its number, its name, what is wrong and what to do.
pub fn show_refusal(refusal: Refusal) -> String {
    let (number, name) = (refusal.number(), refusal.name());
    format!("refused with {number}, {name}: {refusal}")
}

/// Gives a number with a comma before each three digits, as 65,535.
pub fn grouped(number: usize) -> String {
    let digits = number.to_string();
    let mut text = String::new();
    for (place, digit) in digits.chars().enumerate() {
        if place > 0 && (digits.len() - place) % 3 == 0 {
            text.push(',');
        }
        text.push(digit);
    }
    text
}
