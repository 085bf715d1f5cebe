//! Where things are in a file, and the checks that a record owes on every call.

use super::refuse;
use zgy::{Description, Grid, Record, Refusal};

pub const TEXT_AT: usize = 346;
const HISTOGRAM: u64 = 2064;

/// How the entries of a level are numbered: those before it, and its bricks in each direction.
#[derive(Clone, Copy)]
pub struct Level {
    pub base: u64,
    pub bricks: [u64; 3],
}

/// How many levels, bricks and alpha tiles there are.
#[derive(Clone, Copy, PartialEq)]
pub struct Counts {
    pub levels: u32,
    pub bricks: u64,
    pub alphas: u64,
}

/// What an entry of the brick table says; a constant by the low bytes of its entry.
#[derive(Clone, Copy)]
pub enum Entry {
    Missing,
    Constant(u32),
    Stored(u64),
}

/// The bricks in each direction of the levels from 0 to the first that has one brick.
fn levels(description: &Description) -> impl Iterator<Item = [u64; 3]> {
    let Description { size, side, .. } = *description;
    let first = std::array::from_fn(|d| u64::from(size[d].div_ceil(side[d])));
    std::iter::successors(Some(first), |bricks| (*bricks != [1; 3]).then_some(bricks.map(|n| n.div_ceil(2))))
}

/// A level of a record that passed check 14. The table starts with the highest level and ends with level 0, so before a level come
/// all entries but those of the levels up to it.
pub fn level(cube: &Record, number: u32) -> Option<Level> {
    let mut levels = levels(&cube.description).scan(u64::from(cube.bricks), |base, bricks| {
        *base -= bricks.iter().product::<u64>();
        Some(Level { base: *base, bricks })
    });
    levels.nth(number as usize)
}

pub fn counts(description: &Description) -> Counts {
    levels(description).fold(Counts { levels: 0, bricks: 0, alphas: 0 }, |sum, [inline, crossline, vertical]| {
        let alphas = inline * crossline;
        Counts { levels: sum.levels + 1, bricks: sum.bricks + alphas * vertical, alphas: sum.alphas + alphas }
    })
}

/// Where the brick table starts.
pub fn table_at(text: u64, alphas: u64) -> u64 {
    TEXT_AT as u64 + text + HISTOGRAM + 8 * alphas
}

/// Where the headers end.
pub fn header_end(text: u64, counts: Counts) -> u64 {
    table_at(text, counts.alphas) + 8 * counts.bricks
}

pub fn item_bytes(datatype: u8) -> Option<usize> {
    match datatype {
        0 => Some(1),
        2 => Some(2),
        6 => Some(4),
        _ => None,
    }
}

pub fn brick_bytes(description: &Description) -> u64 {
    let items: u64 = description.side.iter().map(|&n| u64::from(n)).product();
    items * item_bytes(description.datatype).unwrap_or(0) as u64
}

/// The n-th entry of a table.
pub fn entry(table: &[u8], n: usize, width: usize) -> Entry {
    let bits = u64::from_le_bytes(table[8 * n..8 * n + 8].try_into().unwrap());
    match bits {
        0 => Entry::Missing,
        1 => Entry::Constant(0),
        _ if bits >> 63 == 1 => Entry::Constant(bits as u32 & (u32::MAX >> (32 - 8 * width))),
        _ => Entry::Stored(bits),
    }
}

/// The grid part of a record.
pub fn grid(description: &Description) -> Grid {
    let [min, max] = if description.datatype == 6 { [0.0; 2] } else { description.range.map(f32::from_bits) };
    Grid { orig: description.orig.map(f32::from_bits), inc: description.inc.map(f32::from_bits), min, max }
}

/// Checks 4 to 9.
pub fn judge(description: &Description, text: u64) -> Result<Counts, Refusal> {
    if !description.side.iter().all(|side| matches!(side, 4 | 8 | 16 | 32 | 64)) {
        return refuse(4);
    }
    if item_bytes(description.datatype).is_none() {
        return refuse(5);
    }
    if !description.size.iter().all(|size| (1..=1 << 20).contains(size)) {
        return refuse(6);
    }
    if !floats_are_sound(description) {
        return refuse(7);
    }
    let counts = counts(description);
    if counts.bricks > 16_384 {
        return refuse(8);
    }
    if !(5..=65_536).contains(&text) {
        return refuse(9);
    }
    Ok(counts)
}

/// Check 7.
fn floats_are_sound(description: &Description) -> bool {
    let finite = |bits: &u32| f32::from_bits(*bits).is_finite();
    let [min, max] = description.range;
    let range = description.datatype == 6 || (finite(&min) && finite(&max) && f32::from_bits(min) < f32::from_bits(max));
    range && description.orig.iter().chain(&description.inc).all(finite)
}

/// Check 14: the record is one that opening gives, for a file of this length.
pub fn check_record(cube: &Record, file: &[u8]) -> Result<(), Refusal> {
    if cube.length == file.len() as u64 {
        check_numbers(cube)
    } else {
        refuse(14)
    }
}

/// Check 14 where no file is lent.
pub fn check_numbers(cube: &Record) -> Result<(), Refusal> {
    let text = u64::from(cube.text);
    let Ok(counts) = judge(&cube.description, text) else { return refuse(14) };
    let said = Counts { levels: cube.levels, bricks: cube.bricks.into(), alphas: cube.alphas.into() };
    let derived = said == counts && cube.header == header_end(text, counts) && same_bits(&cube.grid, &grid(&cube.description));
    if derived && matches!(cube.version, 2 | 3) && cube.length >= cube.header {
        Ok(())
    } else {
        refuse(14)
    }
}

fn same_bits(a: &Grid, b: &Grid) -> bool {
    let bits = |g: &Grid| (g.orig.map(f32::to_bits), g.inc.map(f32::to_bits), g.min.to_bits(), g.max.to_bits());
    bits(a) == bits(b)
}
