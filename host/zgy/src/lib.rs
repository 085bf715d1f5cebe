//! Opens, reads, edits and makes ZGY seismic cubes (versions 2 and 3) that lie in memory.
//!
//! The calls are those of the proved library: each takes every argument there is, and is carried out or refused by a number of one
//! table ([`Refusal`]). A refused call changes nothing that was lent to it.
//!
//! ```
//! use zgy::{Cube, Description, Fill, Region};
//!
//! let description = Description { side: [4; 3], size: [3, 4, 2], range: [0, 1.0f32.to_bits()], ..Description::default() };
//! let mut file = vec![0; 4096];
//! let length = Cube::make(&mut file, &description, b"\0\0\0\0\0", Fill::Stored)?;
//! file.truncate(length);
//!
//! let cube = Cube::open(&file)?;
//! let trace = Region { level: 0, start: [1, 2, 0], count: [1, 1, 2] };
//! cube.write(&mut file, trace, &[127, 128])?;
//! let mut samples = [0.0; 2];
//! cube.read_float(&mut samples, &file, trace)?;
//! assert_eq!(samples, [1.0, 0.0]);
//! # Ok::<(), zgy::Refusal>(())
//! ```

mod boundary;
mod refusal;

pub use boundary::{Description, Grid, Record, Region};
pub use refusal::Refusal;

use boundary::*;
use refusal::taken;

/// What makes a record out of bytes: opening a cube, and making one.
pub enum Cube {}

/// What a brick is.
#[derive(Clone, Copy, Debug, PartialEq)]
pub enum Brick {
    Missing,
    /// All samples have this storage value, unscaled.
    Constant(f64),
    /// Its bytes start here in the file.
    Stored(u64),
}

/// How a made cube's bricks are.
#[derive(Clone, Copy, Debug, PartialEq, Eq)]
pub enum Fill {
    /// Every brick is the constant 0: the file is its headers alone.
    Constant,
    /// Every brick is stored and holds zeros.
    Stored,
}

impl Default for Description {
    /// One sample of int8 in bricks of 64, with a coding range that check 7 still refuses, and increments of 1.
    fn default() -> Self {
        let one = 1.0f32.to_bits();
        Description {
            side: [64; 3],
            datatype: 0,
            range: [0; 2],
            dataid: [0; 16],
            verid: [0; 16],
            previd: [0; 16],
            srctype: 0,
            orig: [0; 3],
            inc: [one; 3],
            size: [1; 3],
            hdim: 0,
            hfactor: 0,
            vdim: 0,
            vfactor: 0,
        }
    }
}

impl Cube {
    /// Opens a cube: checks its headers, text and whole brick table. Refusals 1 to 13.
    pub fn open(file: &[u8]) -> Result<Record, Refusal> {
        let opened = unsafe { zgy_open(file.as_ptr(), file.len()) };
        taken(opened.number, opened.entry)?;
        Ok(opened.cube)
    }

    /// Makes a cube of version 3 at the front of `out` and answers its length; bytes after it stay. `text` is five strings, each
    /// ended by a zero byte. Refusals 4 to 9, 11, 18.
    pub fn make(out: &mut [u8], description: &Description, text: &[u8], fill: Fill) -> Result<usize, Refusal> {
        let stored = match fill {
            Fill::Constant => 0,
            Fill::Stored => 1,
        };
        count(unsafe { zgy_make(out.as_mut_ptr(), out.len(), *description, text.as_ptr(), text.len(), stored) })
    }
}

impl Record {
    /// What the brick of an entry is; [`Record`] says how entries are numbered. Refusals 14, 16, 12.
    pub fn brick_kind(&self, file: &[u8], entry: u32) -> Result<Brick, Refusal> {
        let answer = unsafe { zgy_brick_kind(file.as_ptr(), file.len(), *self, entry) };
        taken(answer.number, answer.entry)?;
        Ok(match answer.kind {
            0 => Brick::Missing,
            1 => Brick::Constant(answer.value),
            _ => Brick::Stored(answer.offset),
        })
    }

    /// The bytes of an entry's brick without a copy: its part of the file, or the front of `filler` for one that is not stored,
    /// which has to hold its storage bytes again and again. Refusals 14, 16, 12, 18, 17.
    pub fn brick_view<'a>(&self, file: &'a [u8], filler: &'a [u8], entry: u32) -> Result<&'a [u8], Refusal> {
        let view = unsafe { zgy_brick_view(file.as_ptr(), file.len(), filler.as_ptr(), filler.len(), *self, entry) };
        taken(view.number, view.entry)?;
        let source = if view.source == 1 { file } else { filler };
        Ok(part(source, view.offset, view.length))
    }

    /// Reads a region's storage bytes to the front of `out`, vertical fastest, and answers how many; bytes after them stay.
    /// Refusals 14, 15, 16, 18, 12.
    pub fn read_raw(&self, out: &mut [u8], file: &[u8], region: Region) -> Result<usize, Refusal> {
        count(unsafe { zgy_read_raw(out.as_mut_ptr(), out.len(), file.as_ptr(), file.len(), *self, region) })
    }

    /// Reads a region's samples as floats to the front of `out`, in the order of `read_raw`, and answers how many; floats after them
    /// stay. Refusals 14, 15, 16, 18, 12.
    pub fn read_float(&self, out: &mut [f64], file: &[u8], region: Region) -> Result<usize, Refusal> {
        count(unsafe { zgy_read_float(out.as_mut_ptr(), out.len(), file.as_ptr(), file.len(), *self, region) })
    }

    /// Writes a region's storage bytes into stored bricks, in the order of `read_raw`, and answers how many. All other bytes of the
    /// file stay. Refusals 14, 15, 16, 18, 12, 19.
    pub fn write(&self, file: &mut [u8], region: Region, input: &[u8]) -> Result<usize, Refusal> {
        count(unsafe { zgy_write(file.as_mut_ptr(), file.len(), input.as_ptr(), input.len(), *self, region) })
    }

    /// Where an index stands along a dimension of level 0. Refusals 14, 16.
    pub fn position(&self, dimension: u32, index: u32) -> Result<f64, Refusal> {
        let answer = unsafe { zgy_position(*self, dimension, index) };
        taken(answer.number, answer.entry)?;
        Ok(answer.value)
    }

    /// A string of the text section by its number, from 0, without its zero byte; none after the fifth. Refusals 14, 11.
    pub fn string<'a>(&self, file: &'a [u8], number: u32) -> Result<Option<&'a [u8]>, Refusal> {
        let answer = unsafe { zgy_string(file.as_ptr(), file.len(), *self, number) };
        taken(answer.number, answer.entry)?;
        Ok((answer.found == 1).then(|| part(file, answer.offset, answer.length)))
    }

    /// The bytes of a sample: 1, 2 or 4 for types 0, 2 and 6; 0 for a type that opening refuses.
    pub fn item_bytes(&self) -> usize {
        match self.description.datatype {
            0 => 1,
            2 => 2,
            6 => 4,
            _ => 0,
        }
    }

    /// The samples of a level in each direction: size / 2^level, rounded up.
    pub fn extent(&self, level: u32) -> [u32; 3] {
        self.description.size.map(|size| (u64::from(size)).div_ceil(1 << level.min(32)) as u32)
    }
}

impl Region {
    /// All samples of a level.
    pub fn whole(cube: &Record, level: u32) -> Region {
        Region { level, start: [0; 3], count: cube.extent(level) }
    }

    /// How many samples the region has.
    pub fn samples(&self) -> u128 {
        self.count.iter().map(|&n| u128::from(n)).product()
    }
}

/// Moves a version 1 brick, of subtiles of 8 x 8 x side 2, to plain order and answers its bytes. Refusals 20, 18.
pub fn to_plain(out: &mut [u8], brick: &[u8], side: [u32; 3], width: u32) -> Result<usize, Refusal> {
    let [a, b, c] = side;
    count(unsafe { zgy_to_plain(out.as_mut_ptr(), out.len(), brick.as_ptr(), brick.len(), a, b, c, width) })
}

/// Moves a brick in plain order to the version 1 order. Refusals 20, 18.
pub fn to_subtiled(out: &mut [u8], brick: &[u8], side: [u32; 3], width: u32) -> Result<usize, Refusal> {
    let [a, b, c] = side;
    count(unsafe { zgy_to_subtiled(out.as_mut_ptr(), out.len(), brick.as_ptr(), brick.len(), a, b, c, width) })
}

fn count(done: ZgyDone) -> Result<usize, Refusal> {
    taken(done.number, done.entry)?;
    Ok(done.count as usize)
}

fn part(source: &[u8], offset: u64, length: u64) -> &[u8] {
    &source[offset as usize..(offset + length) as usize]
}
