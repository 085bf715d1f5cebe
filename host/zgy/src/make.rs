//! `zgy make`: a new cube.

use crate::arguments::Arguments;
use crate::failure::{print, Failure};
use crate::mapped::MappedMut;
use std::fs::File;
use std::path::Path;
use zgy::{Cube, Description, Fill, Record, Refusal};

/// The number of a buffer that is too short.
const TOO_SHORT: u32 = 18;

pub fn run(mut arguments: Arguments) -> Result<(), Failure> {
    let path = arguments.path()?;
    let description = description(&mut arguments)?;
    let text = text(&mut arguments)?;
    let fill = if arguments.flag("--stored") { Fill::Stored } else { Fill::Constant };
    arguments.finish()?;
    let length = length(&description, &text, fill).map_err(|refusal| Failure::of(&path, refusal))?;
    write(&path, length, &description, &text, fill)?;
    print(format_args!("{}: {length} bytes", path.display()))
}

fn description(arguments: &mut Arguments) -> Result<Description, Failure> {
    let whole = "a whole number";
    let number = "a number";
    let size = arguments.list("--size", whole)?.ok_or_else(|| missing("--size I,J,K"))?;
    let kind = arguments.take("--type").ok_or_else(|| missing("--type int8, int16 or float32"))?;
    let datatype = datatype(&kind)?;
    let range: Option<[f32; 2]> = arguments.list("--range", number)?;
    if datatype != 6 && range.is_none() {
        return Err(missing("--range MIN,MAX for an integer type"));
    }
    Ok(Description {
        size,
        datatype,
        range: range.unwrap_or_default().map(f32::to_bits),
        side: arguments.list("--side", whole)?.unwrap_or([64; 3]),
        orig: arguments.list("--orig", number)?.unwrap_or([0.0; 3]).map(f32::to_bits),
        inc: arguments.list("--inc", number)?.unwrap_or([1.0; 3]).map(f32::to_bits),
        ..Description::default()
    })
}

fn datatype(name: &str) -> Result<u8, Failure> {
    match name {
        "int8" => Ok(0),
        "int16" => Ok(2),
        "float32" => Ok(6),
        _ => Err(Failure::usage(format!("--type: '{name}' is not int8, int16 or float32"))),
    }
}

/// Five strings, the later ones empty where fewer are given. A sixth is left for the library to refuse.
fn text(arguments: &mut Arguments) -> Result<Vec<u8>, Failure> {
    let mut strings = Vec::new();
    while let Some(string) = arguments.take("--string") {
        strings.push(string);
    }
    strings.resize(strings.len().max(5), String::new());
    Ok(strings.iter().flat_map(|string| string.bytes().chain([0])).collect())
}

/// The headers alone: a cube of constant bricks, in a buffer that grows until the library takes it.
fn headers(description: &Description, text: &[u8]) -> Result<Vec<u8>, Refusal> {
    let mut buffer = vec![0; 4096];
    loop {
        match Cube::make(&mut buffer, description, text, Fill::Constant) {
            Ok(end) => {
                buffer.truncate(end);
                return Ok(buffer);
            }
            Err(Refusal { number: TOO_SHORT, .. }) => buffer.resize(2 * buffer.len(), 0),
            Err(refusal) => return Err(refusal),
        }
    }
}

/// How long the file gets. Stored bricks follow the headers from the first multiple of the brick's bytes on.
fn length(description: &Description, text: &[u8], fill: Fill) -> Result<u64, Refusal> {
    let cube: Record = Cube::open(&headers(description, text)?)?;
    let side = description.side.map(u64::from);
    let brick = side[0] * side[1] * side[2] * cube.item_bytes() as u64;
    Ok(match fill {
        Fill::Constant => cube.header,
        Fill::Stored => cube.header.next_multiple_of(brick) + u64::from(cube.bricks) * brick,
    })
}

/// A file that is there already is not touched; one that cannot be finished is taken away again.
fn write(path: &Path, length: u64, description: &Description, text: &[u8], fill: Fill) -> Result<(), Failure> {
    let file = File::options().read(true).write(true).create_new(true).open(path).map_err(|error| Failure::of(path, error))?;
    let made = MappedMut::create(&file, length)
        .map_err(|error| Failure::of(path, error))
        .and_then(|mut bytes| Cube::make(&mut bytes, description, text, fill).map_err(|refusal| Failure::of(path, refusal)));
    if made.is_err() {
        let _ = std::fs::remove_file(path);
    }
    made.map(|_| ())
}

fn missing(what: &str) -> Failure {
    Failure::usage(format!("{what} is missing"))
}
