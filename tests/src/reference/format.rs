//! The records of an image: the header, the marks and the bodies, and how bits stand in
//! a body.

use crate::settings::Settings;

/// The most records behind the header.
pub const RECORDS: usize = 13;

/// The marks of the records, in their order.
pub const MARKS: [&[u8; 2]; RECORDS] = [
    b"DL", b"DC", b"DP", b"SL", b"SC", b"SB", b"SV", b"RL", b"RC", b"RP", b"RS", b"TS", b"LV",
];

/// The number of each record, which is its body's index among the bodies.
pub const DL: usize = 0;
pub const DC: usize = 1;
pub const DP: usize = 2;
pub const SL: usize = 3;
pub const SC: usize = 4;
pub const SB: usize = 5;
pub const SV: usize = 6;
pub const RL: usize = 7;
pub const RC: usize = 8;
pub const RP: usize = 9;
pub const RS: usize = 10;
pub const TS: usize = 11;
pub const LV: usize = 12;

/// The mark of the header.
pub const HEADER_MARK: &[u8; 2] = b"HD";

/// The bytes of the header.
pub const HEADER_LENGTH: usize = 22;

/// The bytes of a record before its body: mark and body length.
pub const RECORD_HEAD: usize = 6;

/// The versions that are written and read.
pub const VERSIONS: [u64; 2] = [1, 2];

/// The version with the record LV.
const LEVELLED_VERSION: u64 = 2;

/// The bits of a dense node in D-Labels, and in D-HasChild.
pub const NODE_BITS: usize = 256;

/// The bits between two table entries of RL, RC and RP.
pub const DENSE_BLOCK: usize = 64;

/// The bits between two table entries of RS.
pub const SPARSE_BLOCK: usize = 512;

/// The sparse nodes between two table entries of TS.
pub const SAMPLE: usize = 64;

/// The bits of a table entry.
pub const TABLE_BITS: u64 = 32;

/// The highest settings.
pub const MAX_DENSE_LEVELS: u64 = 4;
pub const MAX_REAL_BITS: u64 = 16;
pub const MAX_HASH_BITS: u64 = 16;

/// Judges that the settings are in range.
pub fn settings_are_valid(settings: &Settings) -> bool {
    VERSIONS.contains(&settings.version)
        && settings.dense_levels <= MAX_DENSE_LEVELS
        && settings.n <= MAX_REAL_BITS
        && settings.h <= MAX_HASH_BITS
}

/// The header's fields behind its mark, as they stand in the file.
#[derive(Clone, Debug, PartialEq, Eq)]
pub struct Header {
    pub settings: Settings,
    pub leaves: u32,
    pub dense_nodes: u32,
    pub sparse_entries: u32,
    pub sparse_nodes: u32,
}

impl Header {
    /// Gives the header of an empty image.
    pub fn new(settings: Settings) -> Self {
        Header {
            settings,
            leaves: 0,
            dense_nodes: 0,
            sparse_entries: 0,
            sparse_nodes: 0,
        }
    }

    /// Reads the fields of a header as they stand.
    fn read(bytes: &[u8]) -> Self {
        Header {
            settings: Settings {
                version: bytes[2].into(),
                dense_levels: bytes[3].into(),
                n: bytes[4].into(),
                h: bytes[5].into(),
            },
            leaves: number(bytes, 6),
            dense_nodes: number(bytes, 10),
            sparse_entries: number(bytes, 14),
            sparse_nodes: number(bytes, 18),
        }
    }

    /// Writes the header, whose settings are bytes, with its mark.
    pub fn bytes(&self) -> Vec<u8> {
        let Settings {
            version,
            dense_levels,
            n,
            h,
        } = self.settings;
        let byte = |setting| u8::try_from(setting).expect("a setting is a byte");
        let mut bytes = HEADER_MARK.to_vec();
        bytes.extend_from_slice(&[version, dense_levels, n, h].map(byte));
        for count in [
            self.leaves,
            self.dense_nodes,
            self.sparse_entries,
            self.sparse_nodes,
        ] {
            bytes.extend_from_slice(&count.to_le_bytes());
        }
        bytes
    }

    /// Gives the marks of the records that the image has.
    pub fn marks(&self) -> &'static [&'static [u8; 2]] {
        match self.has_level_starts() {
            true => &MARKS,
            false => &MARKS[..LV],
        }
    }

    /// Says whether the image has the record LV. Bytes of a version that there is none of
    /// are judged as those of version 1.
    pub fn has_level_starts(&self) -> bool {
        self.settings.version == LEVELLED_VERSION
    }

    /// Gives the number of bits of each body before LV as the counts give it; products are
    /// exact.
    pub fn body_bits(&self) -> [u64; LV] {
        let dense_nodes = u64::from(self.dense_nodes);
        let dense_bits = dense_nodes * NODE_BITS as u64;
        let entries = u64::from(self.sparse_entries);
        let sparse_nodes = u64::from(self.sparse_nodes);
        let slot_bits = u64::from(self.leaves) * self.settings.slot_bits();
        let table = |things: u64, block: usize| things.div_ceil(block as u64) * TABLE_BITS;
        [
            dense_bits,
            dense_bits,
            dense_nodes,
            entries * 8,
            entries,
            entries,
            slot_bits,
            table(dense_bits, DENSE_BLOCK),
            table(dense_bits, DENSE_BLOCK),
            table(dense_nodes, DENSE_BLOCK),
            table(entries, SPARSE_BLOCK),
            table(sparse_nodes, SAMPLE),
        ]
    }
}

/// An image taken apart into its header and its bodies. The body of a record that the image
/// does not have is empty.
#[derive(Clone, Debug)]
pub struct Frame<'a> {
    pub header: Header,
    pub bodies: [&'a [u8]; RECORDS],
}

/// Takes an image apart, or gives nothing where its frame is wrong (number 11).
pub fn frame(image: &[u8]) -> Option<Frame<'_>> {
    let (head, mut rest) = image.split_at_checked(HEADER_LENGTH)?;
    if !head.starts_with(HEADER_MARK) {
        return None;
    }
    let header = Header::read(head);
    let mut bodies: [&[u8]; RECORDS] = [&[]; RECORDS];
    for (mark, body) in header.marks().iter().zip(&mut bodies) {
        (*body, rest) = record(rest, mark)?;
    }
    rest.is_empty().then_some(Frame { header, bodies })
}

/// Splits the body of the first record from the bytes behind the record.
fn record<'a>(bytes: &'a [u8], mark: &[u8; 2]) -> Option<(&'a [u8], &'a [u8])> {
    let (head, behind) = bytes.split_at_checked(RECORD_HEAD)?;
    if !head.starts_with(mark) {
        return None;
    }
    behind.split_at_checked(usize::try_from(number(head, 2)).ok()?)
}

/// Writes a header and the bodies of its records as an image.
pub fn assemble(header: &Header, bodies: &[Vec<u8>; RECORDS]) -> Vec<u8> {
    let mut image = header.bytes();
    for (mark, body) in header.marks().iter().zip(bodies) {
        image.extend_from_slice(*mark);
        image.extend_from_slice(&count32(body.len()).to_le_bytes());
        image.extend_from_slice(body);
    }
    image
}

/// Reads a 32-bit number, low byte first.
fn number(bytes: &[u8], at: usize) -> u32 {
    let four = [bytes[at], bytes[at + 1], bytes[at + 2], bytes[at + 3]];
    u32::from_le_bytes(four)
}

/// Narrows a count to the 32 bits that it has in a file.
pub fn count32(count: usize) -> u32 {
    u32::try_from(count).expect("counts of an image fit 32 bits")
}

/// Packs bits into bytes: bit i stands in byte i div 8 with weight 2^(i mod 8).
pub fn pack(bits: &[bool]) -> Vec<u8> {
    let byte = |eight: &[bool]| {
        let bits = eight.iter().rev();
        bits.fold(0, |byte, &bit| byte << 1 | u8::from(bit))
    };
    bits.chunks(8).map(byte).collect()
}

/// Reads one bit of a body; behind the body all bits are zero.
pub fn bit(body: &[u8], position: usize) -> bool {
    body.get(position / 8)
        .is_some_and(|byte| byte >> (position % 8) & 1 == 1)
}

/// Reads the first bits of a body; behind the body all bits are zero.
pub fn bits(body: &[u8], count: usize) -> Vec<bool> {
    (0..count).map(|position| bit(body, position)).collect()
}
