//! The command line of the range filter: builds images, checks them, shows what is in them and
//! puts questions to them.

mod arguments;
mod ask;
mod build;
mod check;
mod command;
mod ending;
mod files;
mod info;
mod key_file;
mod leaves;
mod lines;
mod picture;
mod progress;
mod question;
mod records;
mod text;
mod tour;

use std::env;
use std::ffi::OsString;
use std::io::{self, BufWriter, Write};
use std::process::ExitCode;
use std::vec::IntoIter;

use arguments::Arguments;
use command::Command;
use ending::{Ending, Failure};

/// The subcommands, in the order of the help.
const COMMANDS: [Command; 7] = [
    build::COMMAND,
    check::COMMAND,
    info::COMMAND,
    ask::COMMAND,
    leaves::COMMAND,
    picture::COMMAND,
    tour::COMMAND,
];

const HEAD: &str = "\
usage: range-filter SUBCOMMAND ..

Builds and asks filter images. A filter says from memory whether a sorted run of
keys may hold a key, a range or a stem, and never denies a stored key.
";

const FOOT: &str = "
`range-filter SUBCOMMAND --help` says what a subcommand takes, and
`range-filter --version` which version this is.

Exit status: 0 done; 1 an input is refused; 2 the arguments are not as the help
says, or a file can't be read or written. Errors stand on standard error.
";

/// Runs the program on its arguments and gives the exit status.
fn main() -> ExitCode {
    let words: Vec<OsString> = env::args_os().skip(1).collect();
    let mut output = BufWriter::new(io::stdout().lock());
    let ending = run(words, &mut output);
    // What was written before a failure goes out too.
    let flushed = output.flush().map_err(Failure::from);
    match ending.and_then(|ending| flushed.map(|()| ending)) {
        Ok(ending) => ending.into(),
        Err(failure) => failure.tell(),
    }
}

/// Does what the arguments ask for.
fn run(words: Vec<OsString>, output: &mut dyn Write) -> Result<Ending, Failure> {
    let mut words = words.into_iter();
    let first = words.next().unwrap_or_default();
    match first.to_str() {
        Some("--help" | "-h") => write_help(output)?,
        Some("--version" | "-V") => writeln!(output, "range-filter {}", env!("CARGO_PKG_VERSION"))?,
        _ => {
            let mut commands = COMMANDS.iter();
            let command = commands.find(|command| first == command.name);
            let command = command.ok_or_else(|| unknown(&first))?;
            return run_command(command, words, output);
        }
    }
    Ok(Ending::Done)
}

/// Runs a subcommand on the words behind its name, or writes its help.
fn run_command(
    command: &Command,
    words: IntoIter<OsString>,
    output: &mut dyn Write,
) -> Result<Ending, Failure> {
    let name = command.name;
    let arguments = Arguments::read(&command.shape, words).map_err(|why| {
        Failure::Unable(format!(
            "{why}: `range-filter {name} --help` says what it takes"
        ))
    })?;
    if arguments.help {
        output.write_all(command.help.as_bytes())?;
        return Ok(Ending::Done);
    }
    (command.run)(&arguments, output)
}

/// Writes the help of the program.
fn write_help(output: &mut dyn Write) -> io::Result<()> {
    writeln!(output, "{HEAD}")?;
    for command in &COMMANDS {
        writeln!(output, "  {:8}{}", command.name, command.summary)?;
    }
    output.write_all(FOOT.as_bytes())
}

/// Gives the failure of a call without a subcommand, or with one that is not there.
fn unknown(word: &OsString) -> Failure {
    let what = if word.is_empty() {
        "a subcommand is missing".to_string()
    } else {
        format!("there is no subcommand '{}'", word.to_string_lossy())
    };
    Failure::Unable(format!("{what}: `range-filter --help` lists them"))
}
