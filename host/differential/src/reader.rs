//! A second reader of cubes, by docs/FORMAT.md alone: sample by sample, simple and slow. It shares nothing with the library but the
//! shapes of arguments and answers.

use std::collections::BTreeSet;
use std::ops::Range;
use zgy::{Brick, Description, Fill, Grid, Record, Refusal, Region};

pub type Answer<T> = Result<T, Refusal>;

/// Where the fields stand in the file.
pub mod at {
    pub const VERSION: usize = 4;
    const INFO: usize = 9;
    pub const SIDE: usize = INFO;
    pub const TYPE: usize = INFO + 12;
    pub const RANGE: usize = INFO + 13;
    pub const DATAID: usize = INFO + 21;
    pub const VERID: usize = INFO + 37;
    pub const PREVID: usize = INFO + 53;
    pub const SRCTYPE: usize = INFO + 69;
    pub const ORIG: usize = INFO + 70;
    pub const INC: usize = INFO + 82;
    pub const SIZE: usize = INFO + 94;
    pub const CURSIZE: usize = INFO + 118;
    pub const SRVORIG: usize = INFO + 162;
    pub const SRVSIZE: usize = INFO + 174;
    pub const GDEF: usize = INFO + 186;
    pub const HDIM: usize = INFO + 315;
    pub const HFACTOR: usize = INFO + 316;
    pub const VDIM: usize = INFO + 324;
    pub const VFACTOR: usize = INFO + 325;
    pub const TEXT_LENGTH: usize = INFO + 333;
    pub const TEXT: usize = INFO + 337;
}

const HISTOGRAM: u64 = 2064;
const TOP_BIT: u64 = 1 << 63;
const ONE_NAN: u64 = 0x7FF8_0000_0000_0000;

/// A level of detail: its samples and bricks in each direction, and the entry of its first brick.
#[derive(Clone, Debug, PartialEq, Eq)]
pub struct Level {
    pub extent: [u32; 3],
    pub bricks: [u64; 3],
    pub first: u64,
}

/// What an entry of the brick table says. A constant has its storage bytes first, then whatever the entry holds.
#[derive(Clone, Copy, Debug, PartialEq, Eq)]
pub enum Entry {
    Missing,
    Constant([u8; 4]),
    Stored(u64),
    OutOfRange,
}

/// A sample's storage bytes, or none where its brick is missing. Bytes past the item's width are zeros.
pub type Sample = Option<[u8; 4]>;

/// What a brick view shows.
#[derive(Clone, Debug, PartialEq, Eq)]
pub enum Shown {
    File(Range<usize>),
    Filler(Range<usize>),
}

fn check(broken: bool, number: u32) -> Answer<()> {
    match broken {
        true => Err(Refusal { number, entry: 0 }),
        false => Ok(()),
    }
}

fn check_none(at_fault: Option<u32>, number: u32) -> Answer<()> {
    at_fault.map_or(Ok(()), |entry| Err(Refusal { number, entry }))
}

fn array<const N: usize>(bytes: &[u8], at: usize) -> [u8; N] {
    bytes[at..at + N].try_into().unwrap()
}

pub fn u32_at(bytes: &[u8], at: usize) -> u32 {
    u32::from_le_bytes(array(bytes, at))
}

pub fn u64_at(bytes: &[u8], at: usize) -> u64 {
    u64::from_le_bytes(array(bytes, at))
}

fn words_at<const N: usize>(bytes: &[u8], at: usize) -> [u32; N] {
    std::array::from_fn(|n| u32_at(bytes, at + 4 * n))
}

pub fn put(bytes: &mut [u8], at: usize, part: &[u8]) {
    bytes[at..at + part.len()].copy_from_slice(part);
}

pub fn put_words(bytes: &mut [u8], at: usize, words: &[u32]) {
    for (n, word) in words.iter().enumerate() {
        put(bytes, at + 4 * n, &word.to_le_bytes());
    }
}

/// Between an id as stored, piecewise little-endian, and in canonical order. The rule is its own inverse.
fn reordered(id: [u8; 16]) -> [u8; 16] {
    [3, 2, 1, 0, 5, 4, 7, 6, 8, 9, 10, 11, 12, 13, 14, 15].map(|n| id[n])
}

fn described(file: &[u8]) -> Description {
    Description {
        side: words_at(file, at::SIDE),
        datatype: file[at::TYPE],
        range: words_at(file, at::RANGE),
        dataid: reordered(array(file, at::DATAID)),
        verid: reordered(array(file, at::VERID)),
        previd: reordered(array(file, at::PREVID)),
        srctype: file[at::SRCTYPE],
        orig: words_at(file, at::ORIG),
        inc: words_at(file, at::INC),
        size: words_at(file, at::SIZE),
        hdim: file[at::HDIM],
        hfactor: u64_at(file, at::HFACTOR),
        vdim: file[at::VDIM],
        vfactor: u64_at(file, at::VFACTOR),
    }
}

/// Writes what a description says, and nothing else of the header.
pub fn put_description(file: &mut [u8], description: &Description) {
    put_words(file, at::SIDE, &description.side);
    file[at::TYPE] = description.datatype;
    put_words(file, at::RANGE, &description.range);
    put(file, at::DATAID, &reordered(description.dataid));
    put(file, at::VERID, &reordered(description.verid));
    put(file, at::PREVID, &reordered(description.previd));
    file[at::SRCTYPE] = description.srctype;
    put_words(file, at::ORIG, &description.orig);
    put_words(file, at::INC, &description.inc);
    put_words(file, at::SIZE, &description.size);
    file[at::HDIM] = description.hdim;
    put(file, at::HFACTOR, &description.hfactor.to_le_bytes());
    file[at::VDIM] = description.vdim;
    put(file, at::VFACTOR, &description.vfactor.to_le_bytes());
}

/// The bytes of an item of a type that check 5 lets pass.
pub fn item_bytes(datatype: u8) -> usize {
    match datatype {
        0 => 1,
        2 => 2,
        6 => 4,
        _ => panic!("type {datatype}"),
    }
}

pub fn brick_bytes(description: &Description) -> u64 {
    description.side.iter().map(|&side| u64::from(side)).product::<u64>() * item_bytes(description.datatype) as u64
}

/// The levels, from 0 on, of sides and sizes that checks 4 and 6 let pass.
pub fn levels(description: &Description) -> Vec<Level> {
    let mut levels: Vec<Level> = Vec::new();
    let mut bricks: [u64; 3] = std::array::from_fn(|d| u64::from(description.size[d].div_ceil(description.side[d])));
    loop {
        let scale = 1 << levels.len();
        levels.push(Level { extent: description.size.map(|size| size.div_ceil(scale)), bricks, first: 0 });
        if bricks == [1; 3] {
            number_entries(&mut levels);
            return levels;
        }
        bricks = bricks.map(|n| n.div_ceil(2));
    }
}

/// The brick table starts with the highest level and ends with level 0.
fn number_entries(levels: &mut [Level]) {
    let mut first = 0;
    for level in levels.iter_mut().rev() {
        level.first = first;
        first += level.bricks.iter().product::<u64>();
    }
}

/// How many bricks the levels have together.
pub fn brick_count(levels: &[Level]) -> u64 {
    levels.iter().map(|level| level.bricks.iter().product::<u64>()).sum()
}

fn alpha_count(levels: &[Level]) -> u64 {
    levels.iter().map(|level| level.bricks[0] * level.bricks[1]).sum()
}

fn finite(words: &[u32]) -> bool {
    words.iter().all(|&word| f32::from_bits(word).is_finite())
}

fn range_is_sound(description: &Description) -> bool {
    let [min, max] = description.range.map(f32::from_bits);
    description.datatype == 6 || (finite(&description.range) && min < max)
}

/// Checks 4 to 8.
fn judge_description(description: &Description) -> Answer<()> {
    check(description.side.iter().any(|side| ![4, 8, 16, 32, 64].contains(side)), 4)?;
    check(![0, 2, 6].contains(&description.datatype), 5)?;
    check(description.size.iter().any(|size| !(1..=1_048_576).contains(size)), 6)?;
    check(!finite(&description.orig) || !finite(&description.inc) || !range_is_sound(description), 7)?;
    check(brick_count(&levels(description)) > 16_384, 8)
}

/// Check 9.
fn judge_text_length(length: u64) -> Answer<()> {
    check(!(5..=65_536).contains(&length), 9)
}

/// Check 11.
fn judge_text(text: &[u8]) -> Answer<()> {
    let zeros = text.iter().filter(|&&byte| byte == 0).count();
    check(zeros != 5 || text.last() != Some(&0), 11)
}

fn grid_of(description: &Description) -> Grid {
    let [min, max] = match description.datatype {
        6 => [0.0; 2],
        _ => description.range.map(f32::from_bits),
    };
    Grid { orig: description.orig.map(f32::from_bits), inc: description.inc.map(f32::from_bits), min, max }
}

/// The record of a description and text length that checks 4 to 9 let pass.
pub fn record_of(version: u32, description: Description, text: u32, length: u64) -> Record {
    let levels = levels(&description);
    let (bricks, alphas) = (brick_count(&levels), alpha_count(&levels));
    Record {
        version,
        description,
        text,
        grid: grid_of(&description),
        header: at::TEXT as u64 + u64::from(text) + HISTOGRAM + 8 * alphas + 8 * bricks,
        levels: levels.len() as u32,
        bricks: bricks as u32,
        alphas: alphas as u32,
        length,
    }
}

/// A record with its grid as bits, for comparing: as floats, -0.0 would pass for 0.0.
pub fn by_bits(record: &Record) -> (Record, [u32; 8]) {
    let none = Grid { orig: [0.0; 3], inc: [0.0; 3], min: 0.0, max: 0.0 };
    let Grid { orig: [a, b, c], inc: [d, e, f], min, max } = record.grid;
    (Record { grid: none, ..*record }, [a, b, c, d, e, f, min, max].map(f32::to_bits))
}

/// Check 14. Positions lend no file.
pub fn judge_record(record: &Record, file: Option<&[u8]>) -> Answer<()> {
    let description = record.description;
    let sound = [2, 3].contains(&record.version)
        && judge_description(&description).is_ok()
        && judge_text_length(record.text.into()).is_ok()
        && by_bits(record) == by_bits(&record_of(record.version, description, record.text, record.length))
        && record.length >= record.header
        && file.is_none_or(|file| file.len() as u64 == record.length);
    check(!sound, 14)
}

/// Where an entry stands in the file.
pub fn entry_offset(record: &Record, entry: u32) -> usize {
    (record.header - 8 * u64::from(record.bricks) + 8 * u64::from(entry)) as usize
}

pub fn entry_at(file: &[u8], record: &Record, entry: u32) -> Entry {
    let value = u64_at(file, entry_offset(record, entry));
    let end = u128::from(value) + u128::from(brick_bytes(&record.description));
    match value {
        0 => Entry::Missing,
        1 => Entry::Constant([0; 4]),
        TOP_BIT.. => Entry::Constant(array(&value.to_le_bytes(), 0)),
        _ if value < record.header || end > u128::from(record.length) => Entry::OutOfRange,
        _ => Entry::Stored(value),
    }
}

/// Check 13: the lowest entry whose stored brick has bytes of one before it.
fn first_overlap(file: &[u8], record: &Record) -> Option<u32> {
    let reach = brick_bytes(&record.description) - 1;
    let mut before = BTreeSet::new();
    (0..record.bricks).find(|&entry| match entry_at(file, record, entry) {
        Entry::Stored(offset) => {
            let overlaps = before.range(offset.saturating_sub(reach)..=offset + reach).next().is_some();
            before.insert(offset);
            overlaps
        }
        _ => false,
    })
}

pub fn open(file: &[u8]) -> Answer<Record> {
    check(file.len() < 346, 1)?;
    check(file[..4] != *b"VBS\0", 2)?;
    let version = u32_at(file, at::VERSION);
    check(![2, 3].contains(&version), 3)?;
    let description = described(file);
    judge_description(&description)?;
    let text = u32_at(file, at::TEXT_LENGTH);
    judge_text_length(text.into())?;
    let record = record_of(version, description, text, file.len() as u64);
    check(record.length < record.header, 10)?;
    judge_text(text_of(file, &record))?;
    check_none((0..record.bricks).find(|&entry| entry_at(file, &record, entry) == Entry::OutOfRange), 12)?;
    check_none(first_overlap(file, &record), 13)?;
    Ok(record)
}

fn text_of<'a>(file: &'a [u8], record: &Record) -> &'a [u8] {
    &file[at::TEXT..at::TEXT + record.text as usize]
}

/// Checks 14, 16, 12 of a call that names an entry.
fn judge_entry(file: &[u8], record: &Record, entry: u32) -> Answer<Entry> {
    judge_record(record, Some(file))?;
    check(entry >= record.bricks, 16)?;
    let found = entry_at(file, record, entry);
    check_none((found == Entry::OutOfRange).then_some(entry), 12)?;
    Ok(found)
}

/// A storage value, unscaled.
pub fn storage_value(datatype: u8, bytes: [u8; 4]) -> f64 {
    match datatype {
        0 => f64::from(bytes[0] as i8),
        2 => f64::from(i16::from_le_bytes(array(&bytes, 0))),
        _ => match f32::from_le_bytes(bytes) {
            value if value.is_nan() => f64::from_bits(ONE_NAN),
            value => f64::from(value),
        },
    }
}

/// The float rules, for storage bytes of a brick that is not missing.
pub fn float_value(record: &Record, bytes: [u8; 4]) -> f64 {
    let stored = storage_value(record.description.datatype, bytes);
    let (lo, hi) = match record.description.datatype {
        0 => (-128.0, 127.0),
        2 => (-32_768.0, 32_767.0),
        _ => return stored,
    };
    let (min, max) = (f64::from(record.grid.min), f64::from(record.grid.max));
    let spread = max - min;
    let scaled = spread * (stored - lo);
    let portion = scaled / (hi - lo);
    portion + min
}

/// A sample as a float read gives it.
pub fn sample_value(record: &Record, sample: Sample) -> f64 {
    sample.map_or(0.0, |bytes| float_value(record, bytes))
}

pub fn brick_kind(file: &[u8], record: &Record, entry: u32) -> Answer<Brick> {
    Ok(match judge_entry(file, record, entry)? {
        Entry::Missing => Brick::Missing,
        Entry::Constant(bytes) => Brick::Constant(storage_value(record.description.datatype, bytes)),
        Entry::Stored(offset) => Brick::Stored(offset),
        Entry::OutOfRange => unreachable!("check 12 refuses it"),
    })
}

pub fn brick_view(file: &[u8], record: &Record, filler: &[u8], entry: u32) -> Answer<Shown> {
    let found = judge_entry(file, record, entry)?;
    let length = brick_bytes(&record.description) as usize;
    let value = match found {
        Entry::Stored(offset) => return Ok(Shown::File(offset as usize..offset as usize + length)),
        Entry::Constant(bytes) => bytes,
        _ => [0; 4],
    };
    check(filler.len() < length, 18)?;
    let width = item_bytes(record.description.datatype);
    check(filler[..length].chunks(width).any(|item| *item != value[..width]), 17)?;
    Ok(Shown::Filler(0..length))
}

/// All samples of a level, given with its number.
pub fn whole(number: usize, level: &Level) -> Region {
    Region { level: number as u32, start: [0; 3], count: level.extent }
}

/// How many samples a region has.
pub fn samples(region: Region) -> u128 {
    region.count.iter().map(|&count| u128::from(count)).product()
}

/// The places of a region in a raw read's order: vertical fastest, inline slowest.
pub fn places(region: Region) -> impl Iterator<Item = [u32; 3]> {
    let [i, j, k]: [Range<u32>; 3] = std::array::from_fn(|d| region.start[d]..region.start[d] + region.count[d]);
    i.flat_map(move |i| {
        let k = k.clone();
        j.clone().flat_map(move |j| k.clone().map(move |k| [i, j, k]))
    })
}

/// The brick of a place, as its entry, and the place's item number inside the brick. Inside a level inline runs fastest and
/// vertical slowest; inside a brick it is the other way round.
pub fn place(description: &Description, level: &Level, at: [u32; 3]) -> (u32, u64) {
    let brick: [u64; 3] = std::array::from_fn(|d| u64::from(at[d] / description.side[d]));
    let inside: [u64; 3] = std::array::from_fn(|d| u64::from(at[d] % description.side[d]));
    let side = description.side.map(u64::from);
    let entry = level.first + (brick[2] * level.bricks[1] + brick[1]) * level.bricks[0] + brick[0];
    (entry as u32, (inside[0] * side[1] + inside[1]) * side[2] + inside[2])
}

/// The entries of the bricks that a region touches, ascending.
pub fn touched(description: &Description, level: &Level, region: Region) -> Vec<u32> {
    let bricks: [Range<u32>; 3] = std::array::from_fn(|d| {
        let side = description.side[d];
        region.start[d] / side..(region.start[d] + region.count[d] - 1) / side + 1
    });
    let mut entries = Vec::new();
    for k in bricks[2].clone() {
        for j in bricks[1].clone() {
            for i in bricks[0].clone() {
                let corner = [i * description.side[0], j * description.side[1], k * description.side[2]];
                entries.push(place(description, level, corner).0);
            }
        }
    }
    entries
}

/// Checks 14, 15, 16, 18, 12 of a region call whose buffer has room for that many items of `unit` each.
fn judge_region(file: &[u8], record: &Record, region: Region, room: usize, unit: usize) -> Answer<Level> {
    judge_record(record, Some(file))?;
    check(region.level >= record.levels, 15)?;
    let level = levels(&record.description).swap_remove(region.level as usize);
    let outside = |d: usize| u64::from(region.start[d]) + u64::from(region.count[d]) > u64::from(level.extent[d]);
    check((0..3).any(|d| region.count[d] == 0 || outside(d)), 16)?;
    check((room as u128) < samples(region) * unit as u128, 18)?;
    let entries = touched(&record.description, &level, region);
    check_none(entries.into_iter().find(|&entry| entry_at(file, record, entry) == Entry::OutOfRange), 12)?;
    Ok(level)
}

/// Where a stored sample's bytes are in the file.
pub fn sample_bytes(description: &Description, offset: u64, item: u64) -> Range<usize> {
    let width = item_bytes(description.datatype);
    let start = offset as usize + item as usize * width;
    start..start + width
}

/// One sample, of a region that the checks let pass.
pub fn sample(file: &[u8], record: &Record, level: &Level, at: [u32; 3]) -> Sample {
    let (entry, item) = place(&record.description, level, at);
    let mut sample = [0; 4];
    match entry_at(file, record, entry) {
        Entry::Missing => return None,
        Entry::Constant(bytes) => put(&mut sample, 0, &bytes[..item_bytes(record.description.datatype)]),
        Entry::Stored(offset) => put(&mut sample, 0, &file[sample_bytes(&record.description, offset, item)]),
        Entry::OutOfRange => unreachable!("check 12 refuses it"),
    }
    Some(sample)
}

pub fn read_raw(out: &mut [u8], file: &[u8], record: &Record, region: Region) -> Answer<usize> {
    let width = item_bytes_or_none(record);
    let level = judge_region(file, record, region, out.len(), width)?;
    for (n, at) in places(region).enumerate() {
        let bytes = sample(file, record, &level, at).unwrap_or_default();
        put(out, n * width, &bytes[..width]);
    }
    Ok(samples(region) as usize * width)
}

/// The width of a record that check 14 may still refuse.
fn item_bytes_or_none(record: &Record) -> usize {
    match record.description.datatype {
        datatype @ (0 | 2 | 6) => item_bytes(datatype),
        _ => 0,
    }
}

/// The floats are given as bits.
pub fn read_float(out: &mut [u64], file: &[u8], record: &Record, region: Region) -> Answer<usize> {
    let level = judge_region(file, record, region, out.len(), 1)?;
    for (n, at) in places(region).enumerate() {
        out[n] = sample_value(record, sample(file, record, &level, at)).to_bits();
    }
    Ok(samples(region) as usize)
}

pub fn write(file: &mut [u8], record: &Record, region: Region, input: &[u8]) -> Answer<usize> {
    let width = item_bytes_or_none(record);
    let level = judge_region(file, record, region, input.len(), width)?;
    let entries = touched(&record.description, &level, region);
    check_none(entries.into_iter().find(|&entry| !matches!(entry_at(file, record, entry), Entry::Stored(_))), 19)?;
    for (at, bytes) in places(region).zip(input.chunks(width)) {
        let (entry, item) = place(&record.description, &level, at);
        if let Entry::Stored(offset) = entry_at(file, record, entry) {
            put(file, sample_bytes(&record.description, offset, item).start, bytes);
        }
    }
    Ok(samples(region) as usize * width)
}

/// The bytes of the bricks that a write touches, where two of these bricks overlap. That cannot be in a cube that opened, but in
/// one whose table was changed since; FORMAT does not say then which of two samples on one byte is written last.
pub fn unsettled(file: &[u8], record: &Record, region: Region) -> Vec<Range<usize>> {
    let level = &levels(&record.description)[region.level as usize];
    let brick = brick_bytes(&record.description) as usize;
    let stored = |entry| match entry_at(file, record, entry) {
        Entry::Stored(offset) => Some(offset as usize..offset as usize + brick),
        _ => None,
    };
    let mut bricks: Vec<Range<usize>> = touched(&record.description, level, region).into_iter().filter_map(stored).collect();
    bricks.sort_by_key(|range| range.start);
    match bricks.windows(2).any(|pair| pair[0].end > pair[1].start) {
        true => bricks,
        false => Vec::new(),
    }
}

pub fn position(record: &Record, dimension: u32, index: u32) -> Answer<f64> {
    judge_record(record, None)?;
    check(dimension > 2 || index >= record.description.size[dimension as usize], 16)?;
    let product = f64::from(index) * f64::from(record.grid.inc[dimension as usize]);
    Ok(f64::from(record.grid.orig[dimension as usize]) + product)
}

/// Where a string of the text lies in the file, or none after the fifth.
pub fn string(file: &[u8], record: &Record, number: u32) -> Answer<Option<Range<usize>>> {
    judge_record(record, Some(file))?;
    let text = text_of(file, record);
    judge_text(text)?;
    let mut start = at::TEXT;
    let mut strings = Vec::new();
    for piece in text.split_inclusive(|&byte| byte == 0) {
        strings.push(start..start + piece.len() - 1);
        start += piece.len();
    }
    Ok(strings.get(number as usize).cloned())
}

/// The file that making gives, where `room` is enough for it.
pub fn make(room: usize, description: &Description, text: &[u8], fill: Fill) -> Answer<Vec<u8>> {
    judge_description(description)?;
    judge_text_length(text.len() as u64)?;
    judge_text(text)?;
    let headers = record_of(3, *description, text.len() as u32, 0);
    let brick = brick_bytes(description);
    let first = headers.header.next_multiple_of(brick);
    let length = match fill {
        Fill::Constant => headers.header,
        Fill::Stored => first + u64::from(headers.bricks) * brick,
    };
    check((room as u64) < length, 18)?;
    let mut file = vec![0; length as usize];
    put_made_header(&mut file, description, text);
    for entry in 0..headers.bricks {
        let value = match fill {
            Fill::Constant => TOP_BIT,
            Fill::Stored => first + u64::from(entry) * brick,
        };
        put(&mut file, entry_offset(&headers, entry), &value.to_le_bytes());
    }
    Ok(file)
}

fn put_made_header(file: &mut [u8], description: &Description, text: &[u8]) {
    put(file, 0, b"VBS\0");
    put_words(file, at::VERSION, &[3]);
    put_description(file, description);
    put_words(file, at::CURSIZE, &description.size);
    put_words(file, at::SRVORIG, &description.orig);
    let srvsize: [f32; 3] = std::array::from_fn(|d| f32::from_bits(description.inc[d]) * description.size[d] as f32);
    put_words(file, at::SRVSIZE, &srvsize.map(f32::to_bits));
    file[at::GDEF] = 3;
    put_words(file, at::TEXT_LENGTH, &[text.len() as u32]);
    put(file, at::TEXT, text);
}

/// Which way a version 1 brick is moved.
#[derive(Clone, Copy, Debug, PartialEq, Eq)]
pub enum Way {
    ToPlain,
    ToSubtiled,
}

pub fn subtiled_item([i, j, k]: [usize; 3], side: [usize; 3]) -> usize {
    (i / 8) * 8 * side[1] * side[2] + (j / 8) * 64 * side[2] + (i % 8) * 8 * side[2] + (j % 8) * side[2] + k
}

pub fn plain_item([i, j, k]: [usize; 3], side: [usize; 3]) -> usize {
    (i * side[1] + j) * side[2] + k
}

pub fn permute(out: &mut [u8], brick: &[u8], side: [u32; 3], width: u32, way: Way) -> Answer<usize> {
    let sides_known = [8, 16, 32, 64].contains(&side[0]) && [8, 16, 32, 64].contains(&side[1]);
    check(!sides_known || ![4, 8, 16, 32, 64].contains(&side[2]) || ![1, 2, 4].contains(&width), 20)?;
    let (whole, width) = (Region { level: 0, start: [0; 3], count: side }, width as usize);
    let length = samples(whole) as usize * width;
    check(out.len() < length || brick.len() < length, 18)?;
    let side = side.map(|n| n as usize);
    for at in places(whole) {
        let at = at.map(|n| n as usize);
        let (plain, subtiled) = (plain_item(at, side) * width, subtiled_item(at, side) * width);
        match way {
            Way::ToPlain => put(out, plain, &brick[subtiled..subtiled + width]),
            Way::ToSubtiled => put(out, subtiled, &brick[plain..plain + width]),
        }
    }
    Ok(length)
}
