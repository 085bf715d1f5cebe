//! Arguments of calls, mostly taken ones, and hostile ones of every kind.

use crate::cubes::{self, finite, not_finite};
use crate::damage::hostile_entry;
use crate::random::Random;
use crate::reader::{self, Entry};
use zgy::{Record, Region};

const HIGH_LEVELS: [u32; 8] = [20, 31, 32, 33, 63, 64, 1 << 31, u32::MAX];

/// Flips one of the low bits, which makes the smallest change, or any bit.
fn flipped(random: &mut Random, bits: u32) -> u32 {
    let any = random.below(32);
    bits ^ 1 << random.pick(&[0, 0, any, 31])
}

/// Changes one of the words by a bit.
fn flip(random: &mut Random, words: &mut [u32]) {
    let word = &mut words[random.below(words.len())];
    *word = flipped(random, *word);
}

/// Changes one of the floats by a bit.
fn flip_float(random: &mut Random, floats: &mut [f32]) {
    let float = &mut floats[random.below(floats.len())];
    *float = f32::from_bits(flipped(random, float.to_bits()));
}

/// A number beside the true one, or far from it.
fn beside(random: &mut Random, number: u32) -> u32 {
    random.pick(&[number.wrapping_add(1), number.wrapping_sub(1), 0, u32::MAX, number ^ 0x8000_0000])
}

fn beside_wide(random: &mut Random, number: u64) -> u64 {
    random.pick(&[number + 1, number.wrapping_sub(1), number + 8, 0, u64::MAX, number ^ 1 << 32])
}

/// One change of a record's field each. Some leave a record that is still sound, of the same cube or of another.
pub const CHANGES: [fn(&mut Random, &mut Record); 31] = [
    |random, record| record.version = random.pick(&[0, 1, 2, 3, 4, u32::MAX]),
    |random, record| record.description.side[random.below(3)] = random.pick(&[0, 1, 2, 3, 4, 5, 8, 16, 64, 128, u32::MAX]),
    |random, record| record.description.datatype = random.pick(&[0, 1, 2, 3, 6, 7, 255]),
    |random, record| record.description.size[random.below(3)] = random.pick(&[0, 1, 4, 9, 1_048_576, 1_048_577, u32::MAX]),
    |random, record| {
        let size = &mut record.description.size[random.below(3)];
        *size = beside(random, *size);
    },
    |random, record| flip(random, &mut record.description.range),
    |random, record| flip(random, &mut record.description.orig),
    |random, record| flip(random, &mut record.description.inc),
    |random, record| record.description.dataid[random.below(16)] ^= 1,
    |random, record| record.description.verid[random.below(16)] ^= 1,
    |random, record| record.description.previd[random.below(16)] ^= 1,
    |random, record| record.description.srctype = random.word() as u8,
    |random, record| record.description.hdim = random.word() as u8,
    |random, record| record.description.vdim = random.word() as u8,
    |random, record| record.description.hfactor = random.word(),
    |random, record| record.description.vfactor = random.word(),
    |random, record| record.text = beside(random, record.text),
    |random, record| record.text = random.pick(&[4, 5, 65_536, 65_537]),
    |random, record| flip_float(random, &mut record.grid.orig),
    |random, record| flip_float(random, &mut record.grid.inc),
    |random, record| flip_float(random, std::slice::from_mut(&mut record.grid.min)),
    |random, record| flip_float(random, std::slice::from_mut(&mut record.grid.max)),
    |random, record| record.header = beside_wide(random, record.header),
    |random, record| record.levels = beside(random, record.levels),
    |random, record| record.bricks = beside(random, record.bricks),
    |random, record| record.alphas = beside(random, record.alphas),
    |random, record| record.length = beside_wide(random, record.length),
    |random, record| record.length = record.header - random.below(2) as u64,
    |random, record| {
        // Description and grid agree, so that only check 7 can see it.
        let (d, bits) = (random.below(3), if random.one_in(2) { finite(random) } else { not_finite(random) });
        record.description.orig[d] = bits;
        record.grid.orig[d] = f32::from_bits(bits);
    },
    |random, record| {
        let broken = not_finite(random);
        let range = random.pick(&[[0, 0x8000_0000], [0x8000_0000, 0], [0, 0], [0, broken], [1, 2], [2, 1]]);
        record.description.range = range;
        [record.grid.min, record.grid.max] = range.map(f32::from_bits);
    },
    |random, record| {
        // The sound record of another cube of the same length: calls with it look for its table in this file.
        let other = cubes::sound(random, cubes::SMALL).record;
        *record = Record { length: record.length, ..other };
    },
];

/// The record, with one of its fields changed.
pub fn changed(random: &mut Random, record: &Record, change: usize) -> Record {
    let mut changed = *record;
    CHANGES[change](random, &mut changed);
    changed
}

/// The good record, or at times a hostile one.
pub fn record(random: &mut Random, good: &Record) -> Record {
    match random.below(10) {
        0 => {
            let change = random.below(CHANGES.len());
            changed(random, good, change)
        }
        _ => *good,
    }
}

/// An entry number.
pub fn entry(random: &mut Random, good: &Record) -> u32 {
    match random.below(10) {
        0 => random.pick(&[good.bricks, good.bricks + 1, u32::MAX, 1 << 31, 16_384]),
        _ => random.below(good.bricks as usize) as u32,
    }
}

/// Where a region starts in one direction and how many it has, inside an extent: one sample, all, a part, or up to its end.
fn inside(random: &mut Random, extent: u32) -> (u32, u32) {
    let start = random.between(0, extent - 1);
    match random.below(5) {
        0 => (start, 1),
        1 => (0, extent),
        2 => (start, extent - start),
        _ => (start, random.between(1, extent - start)),
    }
}

/// The same outside of it: none, one too many, past the end, or past what 32 bits hold.
fn outside(random: &mut Random, extent: u32) -> (u32, u32) {
    let start = random.between(0, extent);
    random.pick(&[
        (start, 0),
        (start, extent - start + 1),
        (extent, 1),
        (extent, 0),
        (0, u32::MAX),
        (1, u32::MAX),
        (u32::MAX, 1),
        (u32::MAX, u32::MAX),
        (u32::MAX - start, start + 1),
        (1 << 31, 1 << 31),
        (u32::MAX - 1, 3),
    ])
}

/// A region inside its level's extent.
pub fn region_inside(random: &mut Random, good: &Record) -> Region {
    let levels = reader::levels(&good.description);
    let level = random.below(levels.len());
    let spans = levels[level].extent.map(|extent| inside(random, extent));
    Region { level: level as u32, start: spans.map(|span| span.0), count: spans.map(|span| span.1) }
}

/// A region, at times of no level or outside the extent.
pub fn region(random: &mut Random, good: &Record) -> Region {
    let mut region = region_inside(random, good);
    let direction = random.below(3);
    match random.below(12) {
        0 => region.level = random.pick(&HIGH_LEVELS).max(good.levels),
        1 => region.level = good.levels + random.between(0, 1),
        2 | 3 => {
            let extent = reader::levels(&good.description)[region.level as usize].extent[direction];
            (region.start[direction], region.count[direction]) = outside(random, extent);
        }
        _ => {}
    }
    region
}

/// The most items that a lent buffer gets: no test needs more for a region that is taken.
const MOST_ITEMS: u128 = 1 << 20;

/// Items for a region: mostly just enough, at times one too few, none, or some more.
pub fn room(random: &mut Random, needed: u128) -> usize {
    let needed = if needed > MOST_ITEMS { random.below(100) } else { needed as usize };
    match random.below(10) {
        0 => needed.saturating_sub(1),
        1 => random.below(needed + 1),
        2 => 0,
        3 | 4 => needed + random.below(40),
        _ => needed,
    }
}

/// A filler for an entry: mostly its value again and again, at times too short, with more after it, or one byte wrong.
pub fn filler(random: &mut Random, file: &[u8], good: &Record, entry: u32) -> Vec<u8> {
    let brick = reader::brick_bytes(&good.description) as usize;
    let value = match entry < good.bricks && file.len() as u64 == good.length {
        true => reader::entry_at(file, good, entry),
        false => Entry::Missing,
    };
    let item = match value {
        Entry::Constant(bytes) => bytes,
        _ => [0; 4],
    };
    let width = reader::item_bytes(good.description.datatype);
    let mut filler: Vec<u8> = item[..width].iter().copied().cycle().take(brick).collect();
    match random.below(8) {
        0 => filler.truncate(brick - 1),
        1 => filler.truncate(random.below(brick)),
        2 => filler[random.below(brick)] ^= 1 << random.below(8),
        3 => filler[brick - 1] ^= 0x80,
        4 => filler.extend(random.bytes(9)),
        _ => {}
    }
    filler
}

/// What a host may do to the brick table after opening: regions have to judge their entries again.
pub fn edit_table(random: &mut Random, file: &mut [u8], record: &Record) {
    for _ in 0..1 + random.below(4) {
        let entry = random.below(record.bricks as usize) as u32;
        let value = hostile_entry(random, record);
        reader::put(file, reader::entry_offset(record, entry), &value.to_le_bytes());
    }
}
