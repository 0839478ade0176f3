//! Files of keys, one a line.

use std::collections::BTreeSet;
use std::io::Read;
use std::path::Path;

use range_filter::{Refusal, MAX_KEYS};

use crate::ending::Failure;
use crate::lines::Lines;
use crate::progress::Progress;
use crate::text::{read_key, show_key};

/// Gives the keys of an input whose lines ascend.
pub fn read_ascending(name: &Path, input: impl Read) -> Result<Vec<Vec<u8>>, Failure> {
    let mut keys: Vec<Vec<u8>> = Vec::new();
    for_each_key(name, input, |key| {
        if let Some(last) = keys.last().filter(|last| **last >= key) {
            return Err(not_above(last, &key));
        }
        keys.push(key);
        judge_number(keys.len())
    })?;
    Ok(keys)
}

/// Gives the keys of an input in ascending order, each once.
pub fn read_and_sort(name: &Path, input: impl Read) -> Result<Vec<Vec<u8>>, Failure> {
    let mut keys = BTreeSet::new();
    for_each_key(name, input, |key| {
        keys.insert(key);
        judge_number(keys.len())
    })?;
    Ok(keys.into_iter().collect())
}

/// Hands on the key of each line; a fault in a line is told with the line's number.
fn for_each_key(
    name: &Path,
    input: impl Read,
    mut take: impl FnMut(Vec<u8>) -> Result<(), String>,
) -> Result<(), Failure> {
    let mut lines = Lines::new(name, input);
    let mut progress = Progress::new("lines read", true);
    while let Some(line) = lines.next_line()? {
        let taken = line.and_then(read_line).and_then(&mut take);
        taken.map_err(|why| lines.refused(&why))?;
        progress.step();
    }
    Ok(())
}

/// Gives the key of a line.
fn read_line(line: &[u8]) -> Result<Vec<u8>, String> {
    if line.is_empty() {
        return Err("the line is empty, and the empty key can't be stored: remove it".to_string());
    }
    read_key(line).map_err(|fault| fault.to_string())
}

/// Says why a key is not above the one before it.
fn not_above(last: &[u8], key: &[u8]) -> String {
    let shown = show_key(key);
    if last == key {
        return format!("the key {shown} is there twice: remove one, or give --sort");
    }
    let before = show_key(last);
    format!("the key {shown} is below {before}, the key before it: sort the keys, or give --sort")
}

/// Refuses more keys than an image has.
fn judge_number(keys: usize) -> Result<(), String> {
    if keys > MAX_KEYS {
        return Err(Refusal::TooManyKeys.to_string());
    }
    Ok(())
}
