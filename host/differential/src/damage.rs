//! Ways to damage a cube so that opening refuses it, or only just does not.

use crate::cubes::{finite, not_finite, stored_entries, unstored_entry, Sound};
use crate::random::Random;
use crate::reader::{self, at};
use zgy::Record;

const TOP: u64 = 1 << 63;

/// Applies one damage of a random sort to the file of a sound cube; others may have been applied before.
pub fn damage(random: &mut Random, cube: &Sound, file: &mut Vec<u8>) {
    match random.below(19) {
        0 => cut(random, cube, file),
        1 => flip(random, file, 0, 4),
        2 => hostile_word(random, file, at::VERSION, 1, &[0, 1, 4, 0x0300, 0x0300_0000, u32::MAX, 2, 3]),
        3 => hostile_word(random, file, at::SIDE, 3, &[0, 1, 2, 3, 5, 12, 63, 65, 128, 256, 0x400, 0x8000_0004, u32::MAX, 4, 64]),
        4 => hostile_type(random, file),
        5 => hostile_word(random, file, at::SIZE, 3, &[0, u32::MAX, 0x8000_0000, 0x8000_0001, 0x7FFF_FFFF, 1_048_577, 1, 5]),
        6 => hostile_floats(random, file),
        7 => hostile_range(random, file),
        8 => hostile_word(random, file, at::SIZE, 3, &[1_048_576, 1_048_575, 65_536, 65_537, 32_768]),
        9 => hostile_word(random, file, at::TEXT_LENGTH, 1, &[0, 4, 5, 6, 65_535, 65_536, 65_537, u32::MAX, 0x8000_0005]),
        10 => hostile_text(random, cube, file),
        11 | 12 => hostile_entry_in(random, cube, file),
        13 | 14 => overlap(random, cube, file),
        15 => flip(random, file, 0, at::TEXT),
        16 => flip(random, file, at::TEXT, usize::MAX),
        17 => file.push(random.word() as u8),
        _ => hostile_text_length(random, cube, file),
    }
}

/// The length to cut a file to: each edge of its parts, one byte to either side, or anywhere.
fn cut(random: &mut Random, cube: &Sound, file: &mut Vec<u8>) {
    let record = &cube.record;
    let text_end = at::TEXT + record.text as usize;
    let (header, table) = (record.header as usize, reader::entry_offset(record, 0));
    let edges = [1, 4, 8, 9, 346, 346, text_end, text_end + 2064, table, header, header, cube.file.len()];
    let length = match random.below(4) {
        0 => random.below(file.len() + 1),
        _ => random.pick(&edges) + 1 - random.below(3),
    };
    file.truncate(length);
}

/// Flips one bit between two places of the file.
fn flip(random: &mut Random, file: &mut [u8], from: usize, to: usize) {
    let to = to.min(file.len());
    if from < to {
        file[from + random.below(to - from)] ^= 1 << random.below(8);
    }
}

/// Where the file still has those bytes: an earlier damage may have cut it.
fn put_if_there(file: &mut [u8], at: usize, bytes: &[u8]) {
    if at + bytes.len() <= file.len() {
        reader::put(file, at, bytes);
    }
}

/// Puts one of the values into one of `fields` words that start there.
fn hostile_word(random: &mut Random, file: &mut [u8], at: usize, fields: usize, values: &[u32]) {
    put_if_there(file, at + 4 * random.below(fields), &random.pick(values).to_le_bytes());
}

fn hostile_type(random: &mut Random, file: &mut [u8]) {
    let datatype = random.pick(&[0, 1, 2, 3, 4, 5, 6, 7, 8, 128, 134, 255]);
    put_if_there(file, at::TYPE, &[datatype]);
}

fn hostile_floats(random: &mut Random, file: &mut [u8]) {
    let value = if random.one_in(4) { finite(random) } else { not_finite(random) };
    hostile_word(random, file, at::ORIG, 6, &[value]);
}

/// Ranges at the edge of check 7: not finite, empty, two zeros, reversed.
fn hostile_range(random: &mut Random, file: &mut [u8]) {
    let (one, zero, minus_zero) = (1.0f32.to_bits(), 0, 0x8000_0000);
    let (broken, number) = (not_finite(random), finite(random));
    let ranges = [
        [zero, broken],
        [broken, one],
        [broken, broken],
        [number, number],
        [minus_zero, zero],
        [zero, minus_zero],
        [one, zero],
        [zero, 1],
        [1, zero],
        [finite(random), number],
    ];
    for (n, word) in random.pick(&ranges).iter().enumerate() {
        put_if_there(file, at::RANGE + 4 * n, &word.to_le_bytes());
    }
}

/// One zero more or less, or a text that does not end with one.
fn hostile_text(random: &mut Random, cube: &Sound, file: &mut [u8]) {
    let length = cube.record.text as usize;
    match random.below(3) {
        0 => put_if_there(file, at::TEXT + length - 1, &[7]),
        1 => put_if_there(file, at::TEXT + random.below(length), &[0]),
        _ => put_if_there(file, at::TEXT + random.below(length), &[255]),
    }
}

/// A text length near the true one moves the tables, and shows another end of the text.
fn hostile_text_length(random: &mut Random, cube: &Sound, file: &mut [u8]) {
    let length = cube.record.text;
    hostile_word(random, file, at::TEXT_LENGTH, 1, &[length - 1, length + 1, length + 8, length + 64]);
}

/// An entry at each edge of what check 12 lets pass.
pub fn hostile_entry(random: &mut Random, record: &Record) -> u64 {
    let brick = reader::brick_bytes(&record.description);
    let (header, last) = (record.header, record.length.saturating_sub(brick));
    let any = random.word() >> 1;
    match random.below(3) {
        0 => random.pick(&[2, 3, header - 8, header.saturating_sub(brick), record.length, TOP - 1, TOP - brick, any]),
        1 => random.pick(&[header - 1, header, header + 1, last, last + 1, last.saturating_sub(1)]),
        _ => unstored_entry(random),
    }
}

fn hostile_entry_in(random: &mut Random, cube: &Sound, file: &mut [u8]) {
    for _ in 0..1 + random.below(3) {
        let entry = random.below(cube.record.bricks as usize) as u32;
        let value = hostile_entry(random, &cube.record);
        put_entry(cube, file, entry, value);
    }
}

pub fn put_entry(cube: &Sound, file: &mut [u8], entry: u32, value: u64) {
    put_if_there(file, reader::entry_offset(&cube.record, entry), &value.to_le_bytes());
}

/// Moves stored bricks onto others: the same offset, one common byte at either end, or exactly touching.
fn overlap(random: &mut Random, cube: &Sound, file: &mut [u8]) {
    let stored = stored_entries(cube);
    if stored.is_empty() {
        return;
    }
    let brick = reader::brick_bytes(&cube.record.description);
    for _ in 0..1 + random.below(3) {
        let (moved, onto) = (random.pick(&stored), random.pick(&stored));
        let offset = reader::u64_at(&cube.file, reader::entry_offset(&cube.record, onto));
        let places = [offset, offset + 1, offset - 1, offset + brick - 1, offset - (brick - 1).min(offset), offset + brick];
        put_entry(cube, file, moved, random.pick(&places));
    }
}

/// The one fault that a check is for, in a cube with at least four stored bricks; all checks before it still pass.
pub fn fault(number: u32, cube: &Sound, file: &mut Vec<u8>) {
    let stored = stored_entries(cube);
    let words = |at: usize, value: u32, file: &mut [u8]| put_if_there(file, at, &value.to_le_bytes());
    match number {
        1 => file.truncate(345),
        2 => file[3] = 1,
        3 => words(at::VERSION, 1, file),
        4 => words(at::SIDE + 8, 2, file),
        5 => file[at::TYPE] = 1,
        6 => words(at::SIZE + 4, 0, file),
        7 => words(at::INC + 8, f32::NAN.to_bits(), file),
        8 => words(at::SIZE, 1_048_576, file),
        9 => words(at::TEXT_LENGTH, 4, file),
        10 => file.truncate(cube.record.header as usize - 1),
        11 => put_if_there(file, at::TEXT + cube.record.text as usize - 1, &[1]),
        12 => put_entry(cube, file, stored[3], cube.record.header - 1),
        13 => put_entry(cube, file, stored[1], reader::u64_at(&cube.file, reader::entry_offset(&cube.record, stored[0]))),
        _ => panic!("opening has no check {number}"),
    }
}
