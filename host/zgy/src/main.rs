//! The command for people: `zgy info`, `zgy section`, `zgy trace`, `zgy make`.

mod arguments;
mod cube_file;
mod failure;
mod info;
mod make;
mod mapped;
mod progress;
mod section;
mod trace;

use arguments::Arguments;
use failure::Failure;
use std::process::ExitCode;

const USAGE: &str = "\
zgy info FILE [--brief]
    what a cube is: sizes, levels, ranges, the five strings, and every brick (not with --brief)
zgy section FILE --inline N | --crossline N | --slice N [--level L] [--own-range] -o OUT.pgm
    a grey image of a section: by the coding range, or by the data's own range (float32 cubes, or --own-range)
zgy trace FILE I J
    the samples of the trace at inline I and crossline J, each with its index and vertical position
zgy make OUT --size I,J,K --type int8|int16|float32 [--range MIN,MAX] [--side I,J,K] [--orig A,B,C] [--inc A,B,C]
         [--string TEXT]... [--stored]
    a new cube of zeros: constant bricks, or stored ones that can be written";

fn main() -> ExitCode {
    match run() {
        Ok(()) => ExitCode::SUCCESS,
        Err(failure) => {
            eprintln!("zgy: {failure}");
            ExitCode::from(failure.status())
        }
    }
}

fn run() -> Result<(), Failure> {
    let mut arguments = Arguments::new(std::env::args().skip(1))?;
    match arguments.next()?.as_str() {
        "info" => info::run(arguments),
        "section" => section::run(arguments),
        "trace" => trace::run(arguments),
        "make" => make::run(arguments),
        "help" | "--help" | "-h" => failure::print(USAGE),
        other => Err(Failure::usage(format!("there is no command '{other}': info, section, trace, make or help"))),
    }
}
