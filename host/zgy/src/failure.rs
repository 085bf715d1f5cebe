//! Why the command stops: one line for the person who called it.

use std::fmt;
use std::io::{self, Write};
use std::path::Path;
use zgy::{Record, Refusal};

pub struct Failure {
    line: String,
    status: u8,
}

impl Failure {
    /// A call that the library refused, or a file that the system did.
    pub fn of(path: &Path, cause: impl fmt::Display) -> Self {
        Failure { line: format!("{}: {cause}", path.display()), status: 1 }
    }

    /// A region that the library refused, with what there is instead.
    pub fn of_region(path: &Path, refusal: Refusal, cube: &Record, level: u32) -> Self {
        let [inlines, crosslines, samples] = cube.extent(level);
        let instead = match refusal.number {
            15 => format!("; its levels are 0 to {}", cube.levels - 1),
            16 => format!("; level {level} has {inlines} inlines, {crosslines} crosslines and {samples} samples, counted from 0"),
            _ => String::new(),
        };
        Failure::of(path, format_args!("{refusal}{instead}"))
    }

    /// A command line that says nothing that can be done.
    pub fn usage(line: String) -> Self {
        Failure { line, status: 2 }
    }

    pub fn status(&self) -> u8 {
        self.status
    }
}

impl fmt::Display for Failure {
    fn fmt(&self, f: &mut fmt::Formatter<'_>) -> fmt::Result {
        f.write_str(&self.line)
    }
}

/// Writes text and a line's end to standard output. A reader that has gone away, as `head` does, ends the command quietly.
pub fn print(text: impl fmt::Display) -> Result<(), Failure> {
    match writeln!(io::stdout().lock(), "{text}") {
        Ok(()) => Ok(()),
        Err(error) if error.kind() == io::ErrorKind::BrokenPipe => std::process::exit(0),
        Err(error) => Err(Failure { line: format!("standard output: {error}"), status: 1 }),
    }
}
