//! What a call that writes bytes gives back.

/// The number of bytes written, or the number of a refusal.
#[derive(Clone, Copy, Debug, PartialEq, Eq)]
pub enum Answer {
    Written(usize),
    Refused(u32),
}

impl Answer {
    /// Gives the refusal's number, 0 for success.
    pub fn number(self) -> u32 {
        match self {
            Answer::Written(_) => 0,
            Answer::Refused(number) => number,
        }
    }

    /// Gives the number of bytes written, which is 0 for a refusal.
    pub fn written(self) -> usize {
        match self {
            Answer::Written(length) => length,
            Answer::Refused(_) => 0,
        }
    }

    /// Gives the number of bytes written by a call that has to succeed.
    pub fn length(self) -> usize {
        assert_eq!(self.number(), 0, "the call is refused");
        self.written()
    }
}

/// Copies bytes to the start of a buffer, or refuses: with the number that stands in the
/// place of the bytes, or with another where the buffer is too short for them.
pub fn put(bytes: Result<Vec<u8>, u32>, too_short: u32, buffer: &mut [u8]) -> Answer {
    match bytes {
        Err(number) => Answer::Refused(number),
        Ok(bytes) if bytes.len() > buffer.len() => Answer::Refused(too_short),
        Ok(bytes) => {
            buffer[..bytes.len()].copy_from_slice(&bytes);
            Answer::Written(bytes.len())
        }
    }
}
