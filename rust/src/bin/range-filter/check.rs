//! `range-filter check`: whether a file is an image.

use std::io::Write;

use range_filter::Filter;

use crate::arguments::{Arguments, Shape};
use crate::command::Command;
use crate::ending::{Ending, Failure};
use crate::files::read_image;
use crate::records::detail;
use crate::text::{grouped, show_refusal, show_settings};

/// The subcommand.
pub const COMMAND: Command = Command {
    name: "check",
    summary: "say whether a file is an image, and if not, why",
    help: HELP,
    shape: Shape::IMAGE,
    run,
};

const HELP: &str = "\
usage: range-filter check IMAGE

Says whether a file is an image, just as some list of keys builds it, in a line:

  accepted: 4 leaves, version 1, dense levels 0, real bits 0, hash bits 0
  refused with 12, HEADER_WRONG: what is wrong and what to do (the wrong field)

The number is one of 11 to 16, and its name stands behind it. What stands in
brackets tells more, if the header and the records show it. A file of over 64
MiB is refused without being read. The hash bits of an open leaf may be any, so
that with hash bits a file may be accepted which no list of keys builds.

Exit status: 0 accepted; 1 refused; 2 the arguments are not as above, or the
file can't be read.
";

/// Reads the file and writes the verdict.
fn run(arguments: &Arguments, output: &mut dyn Write) -> Result<Ending, Failure> {
    let image = read_image(arguments.needed_operand(0))?;
    match Filter::open(&image) {
        Ok(filter) => {
            let leaves = grouped(filter.len());
            let settings = show_settings(filter.settings());
            writeln!(output, "accepted: {leaves} leaves, {settings}")?;
            Ok(Ending::Done)
        }
        Err(refusal) => {
            let more = detail(&image, refusal).map(|words| format!(" ({words})"));
            let more = more.unwrap_or_default();
            writeln!(output, "{}{more}", show_refusal(refusal))?;
            Ok(Ending::Refused)
        }
    }
}
