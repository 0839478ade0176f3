//! What a subcommand is.

use std::io::Write;

use crate::arguments::{Arguments, Shape};
use crate::ending::{Ending, Failure};

/// A subcommand: its name, its help, what it takes and what it does.
pub struct Command {
    /// The name, which is the program's first argument.
    pub name: &'static str,
    /// What it does, in a line of the program's help.
    pub summary: &'static str,
    /// The text of its `--help`.
    pub help: &'static str,
    /// The arguments that it takes.
    pub shape: Shape,
    /// Does the work and writes the result to standard output.
    pub run: fn(&Arguments, &mut dyn Write) -> Result<Ending, Failure>,
}
