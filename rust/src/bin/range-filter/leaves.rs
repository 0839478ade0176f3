//! `range-filter leaves`: the leaves of an image as lines.

use std::fmt::Write as _;
use std::io::Write;

use range_filter::Leaf;

use crate::arguments::{Arguments, Shape};
use crate::command::Command;
use crate::ending::{Ending, Failure};
use crate::files::{open_filter, read_image};

/// The subcommand.
pub const COMMAND: Command = Command {
    name: "leaves",
    summary: "write the leaves of an image as lines",
    help: HELP,
    shape: Shape {
        options: &["--from", "--limit"],
        ..Shape::IMAGE
    },
    run,
};

const HELP: &str = "\
usage: range-filter leaves IMAGE [--from PLACE] [--limit N]

Writes the word leaves and the number of leaves, then a line for each leaf in
the order of the keys: its place from 0, E (exact) or O (open), the cut key in
hexadecimal, and the suffix, which is the hash bits and then the real bits, or -
if it has none of both.

  leaves 4
  0 E 4431 -
  1 O 443132 -
  2 O 4432 -
  3 O 56 -

  --from PLACE   start at this place (0 if it is not given)
  --limit N      write at most so many leaves (all if it is not given)

Exit status: 0 done; 1 the image or the place is refused; 2 the arguments are
not as above, or the file can't be read.
";

/// Reads the image and writes its leaves.
fn run(arguments: &Arguments, output: &mut dyn Write) -> Result<Ending, Failure> {
    let path = arguments.needed_operand(0);
    let from = arguments.number("--from", 0..=usize::MAX)?.unwrap_or(0);
    let limit = arguments.number("--limit", 0..=usize::MAX)?;
    let image = read_image(path)?;
    let filter = open_filter(path, &image)?;
    if from > filter.len() {
        return Err(Failure::Refused(format!(
            "there is no place {from}: take one from 0 to {}",
            filter.len()
        )));
    }
    writeln!(output, "leaves {}", filter.len())?;
    for leaf in filter.leaves().skip(from).take(limit.unwrap_or(usize::MAX)) {
        writeln!(output, "{}", line(&leaf))?;
    }
    Ok(Ending::Done)
}

/// Gives the line of a leaf.
fn line(leaf: &Leaf) -> String {
    let kind = if leaf.is_exact() { 'E' } else { 'O' };
    let mut cut = String::new();
    for byte in leaf.cut() {
        write!(cut, "{byte:02X}").expect("a string takes all that is written");
    }
    format!("{} {kind} {cut} {}", leaf.place(), leaf.suffix())
}
