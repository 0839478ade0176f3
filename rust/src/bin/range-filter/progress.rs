//! How far a long piece of work is, on standard error.

use std::io::{self, IsTerminal, Write};
use std::time::{Duration, Instant};

use crate::text::grouped;

/// Work that takes no longer says nothing.
const QUIET: Duration = Duration::from_secs(1);
/// The time between two lines.
const PAUSE: Duration = Duration::from_millis(200);
/// The clock is read once for so many steps.
const STEPS: usize = 4_096;

/// Counts the steps of a piece of work and shows the count, once the work takes over a second and
/// if standard error is a terminal.
pub struct Progress {
    what: &'static str,
    steps: usize,
    next: Instant,
    shown: bool,
    wanted: bool,
}

impl Progress {
    /// Starts a piece of work; the words name its steps, as "lines read". It is hidden if nothing
    /// else on the terminal shows how far it is.
    pub fn new(what: &'static str, hidden: bool) -> Self {
        Progress {
            what,
            steps: 0,
            next: Instant::now() + QUIET,
            shown: false,
            wanted: hidden && io::stderr().is_terminal(),
        }
    }

    /// Counts a step.
    pub fn step(&mut self) {
        self.steps += 1;
        if self.wanted && self.steps % STEPS == 0 && Instant::now() >= self.next {
            self.next = Instant::now() + PAUSE;
            self.shown = true;
            let steps = grouped(self.steps);
            let _ = write!(io::stderr(), "\x1b[Krange-filter: {steps} {}\r", self.what);
        }
    }
}

/// Clears the line at the end of the work.
impl Drop for Progress {
    fn drop(&mut self) {
        if self.shown {
            let _ = write!(io::stderr(), "\x1b[K");
        }
    }
}
