//! A line on the terminal that says how far a long command has come.

use std::io::{self, IsTerminal, Write};
use std::time::{Duration, Instant};

/// Nothing is shown before this long, and then as often.
const STEP: Duration = Duration::from_millis(200);

/// Looks at the clock only so often.
const STRIDE: u64 = 64;

pub struct Progress {
    done: &'static str,
    what: &'static str,
    total: u64,
    next: Instant,
    terminal: bool,
    shown: bool,
}

impl Progress {
    pub fn new(done: &'static str, what: &'static str, total: u64) -> Progress {
        let terminal = io::stderr().is_terminal();
        Progress { done, what, total, next: Instant::now() + STEP, terminal, shown: false }
    }

    pub fn at(&mut self, number: u64) {
        if self.terminal && number.is_multiple_of(STRIDE) && Instant::now() >= self.next {
            let Progress { done, what, total, .. } = self;
            let _ = write!(io::stderr(), "\r{done} {number} of {total} {what}");
            self.next = Instant::now() + STEP;
            self.shown = true;
        }
    }
}

impl Drop for Progress {
    /// The line is wiped.
    fn drop(&mut self) {
        if self.shown {
            let _ = write!(io::stderr(), "\r\x1b[K");
        }
    }
}
