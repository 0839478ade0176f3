//! Run files: sorted records, one a line, a key and a value with a tab between them.

use std::path::{Path, PathBuf};

use range_filter::Settings;

use crate::ending::Failure;
use crate::files::{open, unreadable};
use crate::lines::Lines;
use crate::question::Question;
use crate::text::read_key;

/// A record of a run.
#[derive(Clone, Debug, PartialEq, Eq)]
pub struct Record {
    /// The key, by which the run is sorted.
    pub key: Vec<u8>,
    /// What is stored under the key.
    pub value: String,
}

/// A run, read as a whole, and the image of its keys.
pub struct Run {
    /// The name of the file without its ending.
    pub name: String,
    /// All records.
    pub records: Vec<Record>,
    /// The bytes of the file.
    pub bytes: usize,
    /// The filter's image.
    pub image: Vec<u8>,
    path: PathBuf,
}

impl Run {
    /// Reads a run and builds its image.
    pub fn read(path: PathBuf, settings: Settings) -> Result<Run, Failure> {
        let records = read_records(&path, |_| true)?;
        let keys = records.iter().map(|record| &record.key);
        let image = range_filter::build(keys, settings)
            .map_err(|refusal| Failure::Refused(format!("{}: {refusal}", path.display())))?;
        let metadata = path.metadata().map_err(|error| unreadable(&path, &error))?;
        let name = path.file_stem().unwrap_or_default().to_string_lossy();
        Ok(Run {
            name: name.into_owned(),
            bytes: metadata.len() as usize,
            records,
            image,
            path,
        })
    }

    /// Opens the file again and gives the records that a question is about.
    pub fn search(&self, question: &Question) -> Result<Vec<Record>, Failure> {
        read_records(&self.path, |record| question.covers(&record.key))
    }
}

/// Reads a run file and gives the records that are wanted.
fn read_records(path: &Path, wanted: impl Fn(&Record) -> bool) -> Result<Vec<Record>, Failure> {
    let mut lines = Lines::new(path, open(path)?);
    let mut records = Vec::new();
    while let Some(line) = lines.next_line()? {
        let record = line.and_then(read_record);
        let record = record.map_err(|why| lines.refused(&why))?;
        if wanted(&record) {
            records.push(record);
        }
    }
    Ok(records)
}

/// Reads the record of a line.
fn read_record(line: &[u8]) -> Result<Record, String> {
    let tab = line.iter().position(|byte| *byte == b'\t');
    let tab = tab.ok_or("there is no tab between a key and a value: write one")?;
    let key = read_key(&line[..tab]).map_err(|fault| fault.to_string())?;
    let value = String::from_utf8_lossy(&line[tab + 1..]).into_owned();
    Ok(Record { key, value })
}
