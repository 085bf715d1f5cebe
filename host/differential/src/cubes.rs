//! Random cubes that open: an encoder of its own, with arbitrary bytes wherever FORMAT ignores them.

use crate::random::Random;
use crate::reader::{self, at};
use zgy::{Description, Record};

/// A file that opens, and its record.
#[derive(Clone)]
pub struct Sound {
    pub file: Vec<u8>,
    pub record: Record,
}

/// What a random cube may be.
#[derive(Clone, Copy)]
pub struct Limits {
    /// Sides to choose from, for each direction apart.
    pub sides: &'static [u32],
    /// Bricks in the longest direction.
    pub longest: u32,
    /// Bricks in all levels.
    pub bricks: u64,
    /// Bytes for stored bricks; those that find no room are constant or missing.
    pub bytes: u64,
}

pub const SMALL: Limits = Limits { sides: &[4, 4, 4, 8], longest: 3, bricks: 60, bytes: 12_000 };
pub const ANY_SIDES: Limits = Limits { sides: &[4, 8, 16, 32, 64], longest: 4, bricks: 40, bytes: 60_000 };
pub const LONG: Limits = Limits { sides: &[4, 4, 8], longest: 150, bricks: 700, bytes: 60_000 };
pub const BIG: Limits = Limits { sides: &[16, 32, 64], longest: 3, bricks: 20, bytes: 3_000_000 };

/// Mostly small cubes, with some of all other sorts among them.
pub fn any_limits(random: &mut Random) -> Limits {
    match random.below(20) {
        0..=3 => ANY_SIDES,
        4..=5 => LONG,
        _ => SMALL,
    }
}

const NOT_FINITE: [u32; 8] =
    [0x7F80_0000, 0xFF80_0000, 0x7FC0_0000, 0xFFC0_0000, 0x7F80_0001, 0xFF80_0001, 0x7FFF_FFFF, 0xFFBF_FFFF];
const EDGE_FLOATS: [u32; 10] =
    [0, 0x8000_0000, 1, 0x8000_0001, 0x007F_FFFF, 0x0080_0000, 0x7F7F_FFFF, 0xFF7F_FFFF, 0x3F80_0000, 0x4B80_0000];

/// Bits of a 32-bit float that is not finite.
pub fn not_finite(random: &mut Random) -> u32 {
    random.pick(&NOT_FINITE)
}

/// Bits of a finite 32-bit float: round numbers, edges of the format, or any bits.
pub fn finite(random: &mut Random) -> u32 {
    match random.below(3) {
        0 => (random.between(0, 4000) as f32 / 4.0 - 500.0).to_bits(),
        1 => random.pick(&EDGE_FLOATS),
        _ => match random.word() as u32 {
            bits if f32::from_bits(bits).is_finite() => bits,
            bits => bits & 0x807F_FFFF,
        },
    }
}

/// A coding range that check 7 lets pass for all types.
pub fn coding_range(random: &mut Random) -> [u32; 2] {
    loop {
        let range = [finite(random), finite(random)];
        let [min, max] = range.map(f32::from_bits);
        if min < max {
            return range;
        }
    }
}

fn id(random: &mut Random) -> [u8; 16] {
    random.bytes(16).try_into().unwrap()
}

/// Sizes up to so many bricks: mostly in any order, at times an exact multiple of the sides or a single sample.
fn sizes(random: &mut Random, side: [u32; 3], longest: u32) -> [u32; 3] {
    let long = random.below(3);
    std::array::from_fn(|d| {
        let bricks = if d == long { longest } else { longest.min(3) };
        match random.below(5) {
            0 => side[d] * random.between(1, bricks),
            1 => random.between(1, side[d]),
            _ => random.between(1, side[d] * bricks),
        }
    })
}

pub fn description(random: &mut Random, limits: Limits) -> Description {
    loop {
        let side = random.triple(|random| random.pick(limits.sides));
        let datatype = random.pick(&[0, 2, 6]);
        // The range of floats is ignored, so it may be anything.
        let any_range = datatype == 6 && random.one_in(2);
        let range = if any_range { [random.word() as u32, not_finite(random)] } else { coding_range(random) };
        let description = Description {
            side,
            datatype,
            range,
            dataid: id(random),
            verid: id(random),
            previd: id(random),
            srctype: random.word() as u8,
            orig: random.triple(finite),
            inc: random.triple(finite),
            size: sizes(random, side, limits.longest),
            hdim: random.word() as u8,
            hfactor: random.word(),
            vdim: random.word() as u8,
            vfactor: random.word(),
        };
        if reader::brick_count(&reader::levels(&description)) <= limits.bricks {
            return description;
        }
    }
}

/// Five strings of bytes other than zero, each ended by a zero byte.
pub fn text(random: &mut Random, longest: usize) -> Vec<u8> {
    let mut text = Vec::new();
    for _ in 0..5 {
        let length = random.below(longest + 1);
        text.extend(random.bytes(length).iter().map(|&byte| byte.max(1)));
        text.push(0);
    }
    text
}

/// A text of exactly so many bytes, at least five.
pub fn text_of(random: &mut Random, length: usize) -> Vec<u8> {
    let mut text: Vec<u8> = random.bytes(length).iter().map(|&byte| byte.max(1)).collect();
    text[length - 1] = 0;
    for n in 0..4 {
        text[n * (length - 1) / 4] = 0;
    }
    text
}

/// An entry of a missing or constant brick.
pub fn unstored_entry(random: &mut Random) -> u64 {
    let junk = random.word();
    let top = 1 << 63;
    random.pick(&[0, 0, 1, 1, top, top | 0xFF, u64::MAX, top | junk, top | junk, top | (junk & 0xFFFF_FFFF)])
}

/// How stored bricks follow each other.
fn next_offset(random: &mut Random, style: usize, at: u64, brick: u64) -> u64 {
    match style {
        0 => at.next_multiple_of(brick),
        1 => at,
        _ => at + random.below(8) as u64,
    }
}

/// Entries with stored bricks in a shuffled order after the headers, and the length of the file.
fn entries(random: &mut Random, record: &Record, bytes: u64) -> (Vec<u64>, u64) {
    let brick = reader::brick_bytes(&record.description);
    let (style, share) = (random.below(3), random.pick(&[0, 1, 2, 3, 4, 4, 4]));
    let mut entries: Vec<u64> = (0..record.bricks).map(|_| unstored_entry(random)).collect();
    let mut stored: Vec<usize> = (0..entries.len()).filter(|_| random.below(4) < share).collect();
    if random.one_in(2) {
        random.shuffle(&mut stored);
    }
    let mut end = record.header;
    for entry in stored {
        let offset = next_offset(random, style, end, brick);
        if offset + brick <= record.header + bytes {
            entries[entry] = offset;
            end = offset + brick;
        }
    }
    (entries, end + random.pick(&[0, 0, 0, 1, 9]))
}

/// The file of a record, with arbitrary bytes wherever FORMAT ignores them.
pub fn encode(random: &mut Random, record: &Record, text: &[u8], entries: &[u64]) -> Vec<u8> {
    let mut file = random.bytes(record.length as usize);
    reader::put(&mut file, 0, b"VBS\0");
    reader::put_words(&mut file, at::VERSION, &[record.version]);
    reader::put_description(&mut file, &record.description);
    reader::put_words(&mut file, at::TEXT_LENGTH, &[record.text]);
    reader::put(&mut file, at::TEXT, text);
    for (entry, value) in entries.iter().enumerate() {
        reader::put(&mut file, reader::entry_offset(record, entry as u32), &value.to_le_bytes());
    }
    file
}

/// A cube of that description and text with bricks of all kinds.
pub fn sound_of(random: &mut Random, description: Description, text: &[u8], bytes: u64) -> Sound {
    let version = random.pick(&[2, 3]);
    let headers = reader::record_of(version, description, text.len() as u32, 0);
    let (entries, length) = entries(random, &headers, bytes);
    let record = Record { length, ..headers };
    Sound { file: encode(random, &record, text, &entries), record }
}

pub fn sound(random: &mut Random, limits: Limits) -> Sound {
    let description = description(random, limits);
    let longest = if random.one_in(30) { 600 } else { 12 };
    let text = text(random, longest);
    sound_of(random, description, &text, limits.bytes)
}

/// A cube of that description with every brick stored, one after the other from the end of the headers.
pub fn all_stored(random: &mut Random, description: Description) -> Sound {
    let headers = reader::record_of(3, description, 5, 0);
    let brick = reader::brick_bytes(&description);
    let entries: Vec<u64> = (0..headers.bricks.into()).map(|entry: u64| headers.header + entry * brick).collect();
    let record = Record { length: headers.header + entries.len() as u64 * brick, ..headers };
    Sound { file: encode(random, &record, &[0; 5], &entries), record }
}

/// The entries of a sound cube that are stored.
pub fn stored_entries(cube: &Sound) -> Vec<u32> {
    let stored = |&entry: &u32| matches!(reader::entry_at(&cube.file, &cube.record, entry), reader::Entry::Stored(_));
    (0..cube.record.bricks).filter(stored).collect()
}
