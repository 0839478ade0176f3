//! How a call of the program ends, and with which exit status.

use std::io::{self, Write};
use std::process::ExitCode;

/// How a call ends that wrote its result; the greater of two endings is that of both.
#[derive(Clone, Copy, Debug, PartialEq, Eq, PartialOrd, Ord)]
pub enum Ending {
    /// All is done: exit status 0.
    Done,
    /// The result says that an input is refused: exit status 1.
    Refused,
}

/// Why a call ends before its result.
#[derive(Debug)]
pub enum Failure {
    /// The input is refused: exit status 1.
    Refused(String),
    /// The arguments are not as the help says, or a file can't be read or written: exit status 2.
    Unable(String),
    /// The reader of standard output has gone, and nobody waits for the rest: exit status 0.
    NoReader,
}

impl Failure {
    /// Says on standard error why the call ended, and gives the exit status.
    pub fn tell(&self) -> ExitCode {
        match self {
            Failure::Refused(why) => {
                tell(why);
                ExitCode::from(1)
            }
            Failure::Unable(why) => {
                tell(why);
                ExitCode::from(2)
            }
            Failure::NoReader => ExitCode::SUCCESS,
        }
    }
}

impl From<Ending> for ExitCode {
    fn from(ending: Ending) -> Self {
        match ending {
            Ending::Done => ExitCode::SUCCESS,
            Ending::Refused => ExitCode::from(1),
        }
    }
}

/// Says a sentence on standard error. A closed standard error leaves nobody to tell.
pub fn tell(sentence: &str) {
    let _ = writeln!(io::stderr(), "range-filter: {sentence}");
}

/// Standard output alone fails with a plain error; the readers of files name the file.
impl From<io::Error> for Failure {
    fn from(error: io::Error) -> Self {
        if error.kind() == io::ErrorKind::BrokenPipe {
            return Failure::NoReader;
        }
        Failure::Unable(format!(
            "standard output can't be written ({error}): send it somewhere else"
        ))
    }
}
