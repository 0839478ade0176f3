//! The lines of a text file or of standard input, with their numbers.

use std::io::{self, BufRead, BufReader, Read};
use std::path::{Path, PathBuf};

use crate::ending::Failure;
use crate::files::unreadable;

/// The most bytes that a line has: two keys of 64 escapes take about half of them.
const LONGEST_LINE: usize = 1_024;

/// The lines of an input, one after the other. No more of a line is kept than a line may have.
pub struct Lines<R> {
    name: PathBuf,
    input: BufReader<R>,
    line: Vec<u8>,
    number: usize,
}

impl<R: Read> Lines<R> {
    /// Starts before the first line of an input that has some name.
    pub fn new(name: &Path, input: R) -> Self {
        Lines {
            name: name.to_path_buf(),
            input: BufReader::new(input),
            line: Vec::new(),
            number: 0,
        }
    }

    /// Gives the next line, without its line feed, or what is wrong with it; nothing at the end.
    pub fn next_line(&mut self) -> Result<Option<Result<&[u8], String>>, Failure> {
        let name = &self.name;
        let read = fill_line(&mut self.input, &mut self.line);
        if !read.map_err(|error| unreadable(name, &error))? {
            return Ok(None);
        }
        self.number += 1;
        Ok(Some(judge(&self.line)))
    }

    /// Gives the number of the line that was given last, from 1.
    pub fn number(&self) -> usize {
        self.number
    }

    /// Gives the failure of an input whose last line is refused.
    pub fn refused(&self, why: &str) -> Failure {
        let (name, number) = (self.name.display(), self.number);
        Failure::Refused(format!("{name}, line {number}: {why}"))
    }

    /// Says whether the next line has to be waited for.
    pub fn must_wait(&self) -> bool {
        self.input.buffer().is_empty()
    }
}

/// Reads the next line, and no more of it than shows that it is too long; says whether there is
/// one. The rest of a line that was too long is passed over first.
fn fill_line(input: &mut impl BufRead, line: &mut Vec<u8>) -> io::Result<bool> {
    if line.len() > LONGEST_LINE {
        pass_line(input)?;
    }
    line.clear();
    let mut start = input.take(LONGEST_LINE as u64 + 1);
    start.read_until(b'\n', line)?;
    let there = !line.is_empty();
    if line.last() == Some(&b'\n') {
        line.pop();
    }
    Ok(there)
}

/// Passes over the rest of a line and its line feed.
fn pass_line(input: &mut impl BufRead) -> io::Result<()> {
    loop {
        let bytes = input.fill_buf()?;
        let end = bytes.iter().position(|byte| *byte == b'\n');
        let passed = end.map_or(bytes.len(), |end| end + 1);
        let done = end.is_some() || bytes.is_empty();
        input.consume(passed);
        if done {
            return Ok(());
        }
    }
}

/// Gives a line back, or says what no line may be.
fn judge(line: &[u8]) -> Result<&[u8], String> {
    if line.len() > LONGEST_LINE {
        Err(format!(
            "the line has over {LONGEST_LINE} bytes, and no key is so long: shorten it"
        ))
    } else if line.ends_with(b"\r") {
        Err("a carriage return stands before the line feed: remove it, \
             or write \\x0D if it belongs to the key"
            .to_string())
    } else {
        Ok(line)
    }
}
