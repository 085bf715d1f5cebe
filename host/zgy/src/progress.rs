//! How far long work is, on a terminal.

use std::io::{self, IsTerminal, Write};
use std::time::{Duration, Instant};

/// Work shorter than this shows nothing.
const QUIET: Duration = Duration::from_millis(300);

pub struct Progress {
    what: &'static str,
    total: u64,
    percent: u64,
    started: Instant,
    shows: bool,
}

impl Progress {
    pub fn new(what: &'static str, total: u64) -> Self {
        Progress { what, total, percent: 0, started: Instant::now(), shows: io::stderr().is_terminal() }
    }

    pub fn at(&mut self, done: u64) {
        let percent = done * 100 / self.total.max(1);
        if self.shows && percent > self.percent && self.started.elapsed() > QUIET {
            self.percent = percent;
            let _ = write!(io::stderr(), "\r{} {percent:3} %", self.what);
        }
    }
}

impl Drop for Progress {
    fn drop(&mut self) {
        if self.percent > 0 {
            // Blanks over the line, so that what follows starts on a clean one.
            let _ = write!(io::stderr(), "\r{:width$}\r", "", width = self.what.len() + 6);
        }
    }
}
