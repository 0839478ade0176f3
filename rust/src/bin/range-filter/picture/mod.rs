//! `range-filter picture`: the trie of a small image as an SVG.

mod drawing;
mod svg;
mod trie;

use std::io::Write;

use crate::arguments::{Arguments, Shape};
use crate::command::Command;
use crate::ending::{Ending, Failure};
use crate::files::{open_filter, read_image};
use crate::text::grouped;
use drawing::draw;
use trie::Trie;

/// The subcommand.
pub const COMMAND: Command = Command {
    name: "picture",
    summary: "draw the trie of a small image as an SVG",
    help: HELP,
    shape: Shape::IMAGE,
    run,
};

const HELP: &str = "\
usage: range-filter picture IMAGE >PICTURE.svg

Draws the trie of an image as an SVG: a column for each level, a row for each
leaf, and at each branch its label, a printable character or two hexadecimal
digits. Squares are dense nodes, circles sparse ones; a filled one is an exact
leaf too. A diamond is an open leaf. Behind each leaf stand its place, its kind,
its cut key and its suffix, which is its hash bits and then its real bits. The
image has at most 200 leaves.

Exit status: 0 drawn; 1 the image is refused or has more leaves; 2 the arguments
are not as above, or the file can't be read.
";

/// The most leaves of a picture.
const MOST_LEAVES: usize = 200;

/// Reads the image and writes its picture.
fn run(arguments: &Arguments, output: &mut dyn Write) -> Result<Ending, Failure> {
    let path = arguments.needed_operand(0);
    let image = read_image(path)?;
    let filter = open_filter(path, &image)?;
    if filter.len() > MOST_LEAVES {
        return Err(Failure::Refused(format!(
            "the image has {} leaves, and a picture shows at most {MOST_LEAVES}: \
             `range-filter leaves` writes them as lines",
            grouped(filter.len())
        )));
    }
    let name = path.file_name().unwrap_or(path.as_os_str());
    let picture = draw(&name.to_string_lossy(), &Trie::of(&filter));
    output.write_all(picture.as_bytes())?;
    Ok(Ending::Done)
}
