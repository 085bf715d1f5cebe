//! The library's speed, as ratios to plain Rust doing the same job and to memcpy of the same bytes, all in one run.

mod cubes;
mod opening;
mod others;
mod plain;
mod regions;
mod segyio;
mod table;

use regions::Call;
use std::process::ExitCode;
use table::{Effort, Report};

/// What the argument chooses.
type Part = (&'static str, fn(&mut Report));

const PARTS: [Part; 6] = [
    ("open", opening::run),
    ("raw", |report| regions::run(report, Call::Raw)),
    ("float", |report| regions::run(report, Call::Float)),
    ("write", |report| regions::run(report, Call::Write)),
    ("other", others::run),
    ("segyio", segyio::run),
];

fn main() -> ExitCode {
    let names = PARTS.map(|(name, _)| name);
    let (short, wanted): (Vec<_>, Vec<_>) = std::env::args().skip(1).partition(|word| word == "--short");
    if !wanted.iter().all(|wanted| names.contains(&wanted.as_str())) {
        eprintln!("usage: bench [--short] [{}]...", names.join("|"));
        return ExitCode::from(2);
    }
    println!(
        "Times are the best of some rounds, library and others in turn, on memory touched before. Ratios are the library's time"
    );
    println!("over the other's: below 1 the library is faster. The last column marks a goal that is missed.");
    let mut report = Report::new(if short.is_empty() { Effort::WHOLE } else { Effort::SHORT });
    for (name, part) in PARTS {
        if wanted.is_empty() || wanted.iter().any(|wanted| wanted == name) {
            part(&mut report);
        }
    }
    if report.finish() {
        ExitCode::SUCCESS
    } else {
        ExitCode::FAILURE
    }
}
