//! The header and the records of an image by their bytes, to show them.

use range_filter::{Refusal, Settings, MAX_KEYS};

use crate::text::grouped;

/// The bytes of a header.
pub const HEADER_BYTES: usize = 22;
/// The bytes of a record's mark and length.
pub const RECORD_HEAD_BYTES: usize = 6;

/// The mark of a record, and what it holds.
pub type Record = (&'static str, &'static str);

/// The records of version 2 in their order. Version 1 has the same without the last one.
const RECORDS: [Record; 13] = [
    ("DL", "D-Labels: the labels of dense nodes, 256 bits each"),
    ("DC", "D-HasChild: which of them lead to nodes"),
    ("DP", "D-IsPrefixKey: which dense nodes are exact leaves"),
    ("SL", "S-Labels: the labels of sparse nodes, a byte each"),
    ("SC", "S-HasChild: which of them lead to nodes"),
    ("SB", "S-LOUDS: where the entries of a sparse node start"),
    ("SV", "slots of the leaves: hash bits, then real bits"),
    ("RL", "ranks of DL"),
    ("RC", "ranks of DC"),
    ("RP", "ranks of DP"),
    ("RS", "ranks of SC"),
    ("TS", "select samples of SB"),
    ("LV", "level starts: the first node of each level"),
];
/// The version whose images have level starts.
const WITH_LEVEL_STARTS: u8 = 2;

/// The fields of a header.
#[derive(Clone, Copy, Debug, PartialEq, Eq)]
pub struct Header {
    version: u8,
    dense_levels: u8,
    real_bits: u8,
    hash_bits: u8,
    leaves: u32,
    /// The number of dense nodes.
    pub dense_nodes: u32,
    /// The number of entries of sparse nodes.
    pub sparse_entries: u32,
    /// The number of sparse nodes.
    pub sparse_nodes: u32,
}

impl Header {
    /// Reads the header at the start of an image, if it is there.
    pub fn read(image: &[u8]) -> Option<Header> {
        let fields = image.get(..HEADER_BYTES)?.strip_prefix(b"HD")?;
        Some(Header {
            version: fields[0],
            dense_levels: fields[1],
            real_bits: fields[2],
            hash_bits: fields[3],
            leaves: read_number(fields, 4)?,
            dense_nodes: read_number(fields, 8)?,
            sparse_entries: read_number(fields, 12)?,
            sparse_nodes: read_number(fields, 16)?,
        })
    }

    /// Gives the records that the check looks for behind the header: version 2's, or else those of
    /// version 1, whatever the version is.
    fn records(&self) -> &'static [Record] {
        match self.version {
            WITH_LEVEL_STARTS => &RECORDS,
            _ => &RECORDS[..RECORDS.len() - 1],
        }
    }

    /// Says which fields alone make the check refuse the image with 12.
    fn faults(&self) -> Vec<String> {
        let mut faults = Vec::new();
        let (version, newest) = (self.version, Settings::MAX_VERSION);
        if !(1..=newest).contains(&version) {
            faults.push(format!(
                "the version is {version}, and neither 1 nor {newest}"
            ));
        }
        let (levels, most) = (self.dense_levels, Settings::MAX_DENSE_LEVELS);
        if levels > most {
            faults.push(format!("there are {levels} dense levels, over {most}"));
        }
        let (bits, most) = (self.real_bits, Settings::MAX_REAL_BITS);
        if bits > most {
            faults.push(format!("there are {bits} real bits, over {most}"));
        }
        let (bits, most) = (self.hash_bits, Settings::MAX_HASH_BITS);
        if bits > most {
            faults.push(format!("there are {bits} hash bits, over {most}"));
        }
        let leaves = self.leaves as usize;
        if leaves > MAX_KEYS {
            let (leaves, most) = (grouped(leaves), grouped(MAX_KEYS));
            faults.push(format!("there are {leaves} leaves, over {most}"));
        }
        faults
    }
}

/// Gives the records of an image with the lengths of their bodies, or says where they break off.
pub fn read_records(image: &[u8]) -> Result<Vec<(Record, usize)>, String> {
    let header = Header::read(image).ok_or_else(|| no_header(image))?;
    let mut rest = &image[HEADER_BYTES..];
    let mut records = Vec::new();
    for record in header.records() {
        let length = body_length(rest, record.0)?;
        records.push((*record, length));
        rest = &rest[RECORD_HEAD_BYTES + length..];
    }
    if !rest.is_empty() {
        return Err(format!("{} bytes stand behind the last record", rest.len()));
    }
    Ok(records)
}

/// Gives the length of the body of the record with a mark at the start of some bytes, or says why
/// it is not there.
fn body_length(bytes: &[u8], mark: &str) -> Result<usize, String> {
    let Some(behind) = bytes.strip_prefix(mark.as_bytes()) else {
        return Err(format!("the record {mark} is not where it belongs"));
    };
    let length = read_number(behind, 0).map(|number| number as usize);
    let length = length.filter(|length| *length <= bytes.len() - RECORD_HEAD_BYTES);
    length.ok_or_else(|| format!("the record {mark} runs past the end of the file"))
}

/// Says which part of an image makes the check refuse it, as far as header and records tell.
pub fn detail(image: &[u8], refusal: Refusal) -> Option<String> {
    match refusal {
        Refusal::FrameWrong => read_records(image).err(),
        Refusal::HeaderWrong => {
            let faults = Header::read(image)?.faults();
            (!faults.is_empty()).then(|| faults.join("; "))
        }
        _ => None,
    }
}

/// Says why an image has no header.
fn no_header(image: &[u8]) -> String {
    if image.len() < HEADER_BYTES {
        return format!(
            "it has {} bytes, and a header alone {HEADER_BYTES}",
            image.len()
        );
    }
    "it does not begin with the mark HD".to_string()
}

/// Reads the 32-bit number at an offset, whose low byte is first, if all of it is there.
fn read_number(bytes: &[u8], offset: usize) -> Option<u32> {
    let number = bytes.get(offset..offset + 4)?.try_into().ok()?;
    Some(u32::from_le_bytes(number))
}
