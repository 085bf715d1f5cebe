//! `zgy info`: what a cube is.

use crate::arguments::Arguments;
use crate::cube_file::CubeFile;
use crate::failure::{print, Failure};
use std::fmt::Write as _;
use zgy::{Brick, Record, Refusal};

const DIRECTIONS: [&str; 3] = ["inline", "crossline", "vertical"];

pub fn run(mut arguments: Arguments) -> Result<(), Failure> {
    let path = arguments.path()?;
    let brief = arguments.flag("--brief");
    arguments.finish()?;
    let file = CubeFile::open(&path)?;
    print(text(&file.cube, &file.bytes, brief).map_err(|refusal| file.refused(refusal))?)
}

fn text(cube: &Record, file: &[u8], brief: bool) -> Result<String, Refusal> {
    let bricks: Vec<Brick> = (0..cube.bricks).map(|entry| cube.brick_kind(file, entry)).collect::<Result<_, _>>()?;
    let mut lines = vec![headers(cube), summary(&bricks), places(cube)?, strings(cube, file)?];
    if !brief {
        lines.extend(bricks.iter().enumerate().map(|(entry, brick)| format!("entry {entry} {}", kind(brick))));
    }
    Ok(lines.join("\n"))
}

/// The lines of the listing before its entries, and what a person asks next.
fn headers(cube: &Record) -> String {
    let d = &cube.description;
    let mut text = format!("version {}\ntype {} ({})\n", cube.version, d.datatype, type_name(d.datatype));
    let _ = writeln!(text, "brick {}\nsize {}\nlevels {}", three(d.side), three(d.size), cube.levels);
    for level in 0..cube.levels {
        let _ = writeln!(text, "extent {level} {}", three(cube.extent(level)));
    }
    let _ = writeln!(text, "bricks {}\nheader {}\nlength {}", cube.bricks, cube.header, cube.length);
    let _ = writeln!(text, "source {}", d.srctype);
    for (name, id) in [("dataid", d.dataid), ("verid", d.verid), ("previd", d.previd)] {
        let _ = writeln!(text, "{name} {}", uuid(id));
    }
    let _ = writeln!(text, "horizontal {} factor {}", d.hdim, f64::from_bits(d.hfactor));
    let _ = write!(text, "vertical {} factor {}", d.vdim, f64::from_bits(d.vfactor));
    text
}

fn summary(bricks: &[Brick]) -> String {
    let count = |test: fn(&Brick) -> bool| bricks.iter().filter(|brick| test(brick)).count();
    let stored = count(|brick| matches!(brick, Brick::Stored(_)));
    let constant = count(|brick| matches!(brick, Brick::Constant(_)));
    format!("kinds {stored} stored, {constant} constant, {} missing", bricks.len() - stored - constant)
}

/// Ranges: of the values, and of the positions in each direction.
fn places(cube: &Record) -> Result<String, Refusal> {
    let range = cube.description.range.map(f32::from_bits);
    let mut text = format!("range {} to {}", range[0], range[1]);
    for (dimension, name) in DIRECTIONS.iter().enumerate() {
        let last = cube.description.size[dimension] - 1;
        let from = cube.position(dimension as u32, 0)?;
        let to = cube.position(dimension as u32, last)?;
        let _ = write!(text, "\n{name} {from} to {to} by {}", cube.grid.inc[dimension]);
    }
    Ok(text)
}

fn strings(cube: &Record, file: &[u8]) -> Result<String, Refusal> {
    let mut lines = Vec::new();
    for number in 0.. {
        let Some(string) = cube.string(file, number)? else { break };
        lines.push(format!("string {number} {}", String::from_utf8_lossy(string).escape_debug()));
    }
    Ok(lines.join("\n"))
}

fn kind(brick: &Brick) -> String {
    match brick {
        Brick::Missing => "missing".into(),
        Brick::Constant(value) => format!("constant {value}"),
        Brick::Stored(offset) => format!("stored {offset}"),
    }
}

fn type_name(datatype: u8) -> &'static str {
    match datatype {
        0 => "int8",
        2 => "int16",
        _ => "float32",
    }
}

fn three(numbers: [u32; 3]) -> String {
    numbers.map(|number| number.to_string()).join(" ")
}

/// Groups of 4, 2, 2, 2 and 6 bytes in hexadecimal.
fn uuid(id: [u8; 16]) -> String {
    let hex = |bytes: &[u8]| bytes.iter().map(|byte| format!("{byte:02x}")).collect::<String>();
    [&id[..4], &id[4..6], &id[6..8], &id[8..10], &id[10..]].map(hex).join("-")
}
