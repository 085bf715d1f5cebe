//! `zgy section`: a grey image of a section.

use crate::arguments::Arguments;
use crate::cube_file::CubeFile;
use crate::failure::Failure;
use crate::progress::Progress;
use std::fs::File;
use std::io::{BufWriter, Write};
use std::path::PathBuf;
use zgy::{Record, Refusal, Region};

/// The options that choose a section, by the dimension that they fix.
const SECTIONS: [&str; 3] = ["--inline", "--crossline", "--slice"];

/// Lines are read this many at a time: a row of the largest bricks.
const LINES: u32 = 64;

/// A section: all samples of a level with one index fixed. Its lines follow the slower of the other two directions.
struct Section<'a> {
    cube: Record,
    file: &'a [u8],
    level: u32,
    fixed: usize,
    index: u32,
}

/// Grey 0 to 255 over a range of values.
struct Scale {
    min: f64,
    max: f64,
}

pub fn run(mut arguments: Arguments) -> Result<(), Failure> {
    let path = arguments.path()?;
    let (fixed, index) = chosen(&mut arguments)?;
    let level = arguments.option("--level", "a level")?.unwrap_or(0);
    let own = arguments.flag("--own-range");
    let out: PathBuf = arguments.take("-o").ok_or_else(|| Failure::usage("-o OUT.pgm is missing".into()))?.into();
    arguments.finish()?;
    let file = CubeFile::open(&path)?;
    let section = Section { cube: file.cube, file: &file.bytes, level, fixed, index };
    let own = own || file.cube.description.datatype == 6;
    let image = section.image(own).map_err(|refusal| file.refused_region(refusal, level))?;
    let [width, height] = section.pixels();
    written(&out, width, height, &image).map_err(|error| Failure::of(&out, error))
}

fn chosen(arguments: &mut Arguments) -> Result<(usize, u32), Failure> {
    let mut given = Vec::new();
    for (fixed, name) in SECTIONS.iter().enumerate() {
        given.extend(arguments.option(name, "an index")?.map(|index| (fixed, index)));
    }
    match given[..] {
        [one] => Ok(one),
        _ => Err(Failure::usage("exactly one of --inline N, --crossline N and --slice N is needed".into())),
    }
}

impl Section<'_> {
    /// The direction from line to line, and that along a line.
    fn directions(&self) -> [usize; 2] {
        [[1, 2], [0, 2], [0, 1]][self.fixed]
    }

    fn lines(&self) -> u32 {
        self.cube.extent(self.level)[self.directions()[0]]
    }

    fn line_length(&self) -> u32 {
        self.cube.extent(self.level)[self.directions()[1]]
    }

    /// Width and height: a vertical section shows its traces downwards, a slice its inlines as rows.
    fn pixels(&self) -> [usize; 2] {
        let [lines, length] = [self.lines() as usize, self.line_length() as usize];
        if self.fixed == 2 {
            [length, lines]
        } else {
            [lines, length]
        }
    }

    fn region(&self, first: u32, lines: u32) -> Region {
        let mut region = Region::whole(&self.cube, self.level);
        region.start[self.fixed] = self.index;
        region.count[self.fixed] = 1;
        region.start[self.directions()[0]] = first;
        region.count[self.directions()[0]] = lines;
        region
    }

    /// Hands out every line, with its number.
    fn each_line(&self, what: &'static str, mut take: impl FnMut(usize, &[f64])) -> Result<(), Refusal> {
        let length = self.line_length() as usize;
        let mut samples = vec![0.0; LINES.min(self.lines()) as usize * length];
        let mut progress = Progress::new(what, self.lines().into());
        for first in (0..self.lines()).step_by(LINES as usize) {
            let lines = LINES.min(self.lines() - first);
            let count = self.cube.read_float(&mut samples, self.file, self.region(first, lines))?;
            samples[..count].chunks(length).enumerate().for_each(|(n, line)| take(first as usize + n, line));
            progress.at((first + lines).into());
        }
        Ok(())
    }

    fn scale(&self, own: bool) -> Result<Scale, Refusal> {
        if !own {
            return Ok(Scale { min: self.cube.grid.min.into(), max: self.cube.grid.max.into() });
        }
        let mut scale = Scale { min: f64::INFINITY, max: f64::NEG_INFINITY };
        self.each_line("range", |_, line| line.iter().filter(|sample| sample.is_finite()).for_each(|&sample| scale.widen(sample)))?;
        Ok(scale)
    }

    fn image(&self, own: bool) -> Result<Vec<u8>, Refusal> {
        let scale = self.scale(own)?;
        let [width, height] = self.pixels();
        let mut image = vec![0; width * height];
        self.each_line("section", |n, line| {
            for (along, &sample) in line.iter().enumerate() {
                let pixel = if self.fixed == 2 { n * width + along } else { along * width + n };
                image[pixel] = scale.grey(sample);
            }
        })?;
        Ok(image)
    }
}

impl Scale {
    fn widen(&mut self, sample: f64) {
        self.min = self.min.min(sample);
        self.max = self.max.max(sample);
    }

    /// Values outside the range, or infinite, get the end that they lie beyond; a NaN, and all of a range without width, get 0.
    fn grey(&self, sample: f64) -> u8 {
        ((sample - self.min) / (self.max - self.min) * 255.0).round() as u8
    }
}

fn written(path: &PathBuf, width: usize, height: usize, image: &[u8]) -> std::io::Result<()> {
    let mut out = BufWriter::new(File::create(path)?);
    write!(out, "P5\n{width} {height}\n255\n")?;
    out.write_all(image)?;
    out.flush()
}
