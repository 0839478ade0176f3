//! `range-filter build`: an image from a file of keys.

use std::fs;
use std::io::{self, Write};
use std::ops::RangeInclusive;
use std::path::Path;

use range_filter::Settings;

use crate::arguments::{Arguments, Shape};
use crate::command::Command;
use crate::ending::{Ending, Failure};
use crate::files::{open, write_whole};
use crate::key_file::{read_and_sort, read_ascending};
use crate::text::grouped;

/// The subcommand.
pub const COMMAND: Command = Command {
    name: "build",
    summary: "build an image from a file of keys",
    help: HELP,
    shape: Shape {
        options: &[
            "-o",
            "--image-version",
            "--dense",
            "--real-bits",
            "--hash-bits",
        ],
        flags: &["--sort"],
        operands: &["KEYS"],
        needed: 1,
        words: false,
    },
    run,
};

const HELP: &str = "\
usage: range-filter build KEYS -o IMAGE [--image-version V] [--dense L]
                          [--real-bits N] [--hash-bits H] [--sort]

Builds the image of a file of keys and says how long it is.

KEYS is a text file with one key a line, or - for standard input. A key has 1
to 64 bytes. In it \\xHH stands for the byte with these two hexadecimal digits
and \\\\ for a backslash; every other byte stands for itself. Keys ascend by
their bytes, a key before the longer ones that begin with it: where there are no
escapes, that is the order of `LC_ALL=C sort`. There are at most 65,535 keys.

  -o IMAGE            the file to write. It is written under another name and
                      then takes the place of the file, so that a call which is
                      refused changes nothing
  --image-version V   the version of the image, 1 or 2 (1 if it is not given).
                      Version 2 is a little longer and makes counts and seeks
                      faster where levels are many; programs from before it
                      read version 1 alone
  --dense L           the levels of the trie that are dense, 0 to 4 (0 if it is
                      not given)
  --real-bits N       the bits of a key that are kept behind its cut, 0 to 16 (0
                      if it is not given). All questions go by them
  --hash-bits H       the bits of a key's hash that are kept, 0 to 16 (0 if it
                      is not given). Points alone go by them; programs from
                      before hash bits refuse an image that has some
  --sort              sort the keys and drop doubles first

Exit status: 0 built; 1 the keys are refused; 2 the arguments are not as above,
or a file can't be read or written.
";

/// Reads the keys, builds the image and writes it.
fn run(arguments: &Arguments, output: &mut dyn Write) -> Result<Ending, Failure> {
    let path = arguments.needed_operand(0);
    let Some(goal) = arguments.value("-o").map(Path::new) else {
        return Err(Failure::Unable(
            "-o IMAGE is missing: name the file to write".to_string(),
        ));
    };
    refuse_same_file(path, goal)?;
    let settings = read_settings(arguments, Settings::default())?;
    let keys = read_keys(path, arguments.has("--sort"))?;
    let number = keys.len();
    let image = range_filter::build(keys, settings)
        .map_err(|refusal| Failure::Refused(format!("{}: {refusal}", path.display())))?;
    write_whole(goal, &image)?;
    let name = goal.display();
    let (keys, bytes) = (grouped(number), grouped(image.len()));
    writeln!(output, "{name}: {keys} keys, {bytes} bytes")?;
    Ok(Ending::Done)
}

/// Gives the settings that the arguments name, the others as they are given.
pub fn read_settings(arguments: &Arguments, others: Settings) -> Result<Settings, Failure> {
    let read = |option: &str, range: RangeInclusive<u8>, other: u8| {
        let number = arguments.number(option, range);
        number.map(|number| number.unwrap_or(other))
    };
    let versions = 1..=Settings::MAX_VERSION;
    let version = read("--image-version", versions, others.version())?;
    let levels = 0..=Settings::MAX_DENSE_LEVELS;
    let dense = read("--dense", levels, others.dense_levels())?;
    let widths = 0..=Settings::MAX_REAL_BITS;
    let real = read("--real-bits", widths, others.real_bits())?;
    let widths = 0..=Settings::MAX_HASH_BITS;
    let hash = read("--hash-bits", widths, others.hash_bits())?;
    Ok(others
        .with_version(version)
        .with_dense_levels(dense)
        .with_real_bits(real)
        .with_hash_bits(hash))
}

/// Refuses an output that would take the place of the keys.
fn refuse_same_file(keys: &Path, goal: &Path) -> Result<(), Failure> {
    let (keys, goal) = (fs::canonicalize(keys), fs::canonicalize(goal));
    match (keys, goal) {
        (Ok(keys), Ok(goal)) if keys == goal => Err(Failure::Unable(
            "the image would take the place of the keys: name another output".to_string(),
        )),
        _ => Ok(()),
    }
}

/// Reads the keys of a file, or of standard input for `-`.
fn read_keys(path: &Path, sort: bool) -> Result<Vec<Vec<u8>>, Failure> {
    let standard = path == Path::new("-");
    match (standard, sort) {
        (true, true) => read_and_sort(Path::new("standard input"), io::stdin()),
        (true, false) => read_ascending(Path::new("standard input"), io::stdin()),
        (false, true) => read_and_sort(path, open(path)?),
        (false, false) => read_ascending(path, open(path)?),
    }
}
