//! The order of the brick table: the highest level's brick is entry 0 and level 0 comes last; inside a level inline runs fastest
//! and vertical slowest. Expected entries are counted by hand from that rule, for the library and the independent reader alike.

use differential::cubes::{self, Limits};
use differential::numbered::{described, numbered, put_entry};
use differential::reader;
use differential::tally::Call;
use differential::trial::{run, Trial};
use zgy::{Brick, Description, Fill, Record, Refusal, Region};

/// A brick by its level and its place among the level's bricks.
type Named = (u32, [u32; 3]);

/// Size (112, 64, 176), side 64: 1 brick, 1 x 1 x 2 and 2 x 1 x 3, each at the place of its entry.
const CASE_1: [Named; 9] = [
    (2, [0, 0, 0]),
    (1, [0, 0, 0]),
    (1, [0, 0, 1]),
    (0, [0, 0, 0]),
    (0, [1, 0, 0]),
    (0, [0, 0, 1]),
    (0, [1, 0, 1]),
    (0, [0, 0, 2]),
    (0, [1, 0, 2]),
];

/// Size (5, 9, 5), side 4: 1 brick, 1 x 2 x 1 and 2 x 3 x 2, each at the place of its entry.
const ALL_WAYS: [Named; 15] = [
    (2, [0, 0, 0]),
    (1, [0, 0, 0]),
    (1, [0, 1, 0]),
    (0, [0, 0, 0]),
    (0, [1, 0, 0]),
    (0, [0, 1, 0]),
    (0, [1, 1, 0]),
    (0, [0, 2, 0]),
    (0, [1, 2, 0]),
    (0, [0, 0, 1]),
    (0, [1, 0, 1]),
    (0, [0, 1, 1]),
    (0, [1, 1, 1]),
    (0, [0, 2, 1]),
    (0, [1, 2, 1]),
];

/// Headers of that size: 346 + 5 of text + 2,064 + 8 x (6 + 2 + 1) alpha tiles + 8 x 15 bricks. Bricks of 64 bytes follow.
const ALL_WAYS_HEADERS: usize = 2607;
const ALL_WAYS_FIRST: usize = 2624;

fn refused(number: u32, entry: u32) -> Refusal {
    Refusal { number, entry }
}

/// The first sample of a brick.
fn corner((level, brick): Named, side: u32) -> Region {
    Region { level, start: brick.map(|n| n * side), count: [1; 3] }
}

/// Reads show which entry each brick is, and a write or a read that is refused names it.
fn assert_entries(trial: &mut Trial, size: [u32; 3], side: u32, bricks: &[Named]) {
    let description = described(size, [side; 3], 0);
    let (mut file, record) = numbered(trial, &description);
    assert_eq!(record.bricks as usize, bricks.len());
    let levels = reader::levels(&description);
    for (entry, &brick) in bricks.iter().enumerate() {
        let (sample, entry) = (corner(brick, side), entry as u32);
        assert_eq!(reader::place(&description, &levels[brick.0 as usize], sample.start), (entry, 0), "reader's {brick:?}");
        assert_eq!(trial.read_raw(&record, &file, sample, 1), Ok(vec![entry as u8]), "{brick:?}");
        assert_eq!(trial.write(&record, &mut file, sample, &[77]), Err(refused(19, entry)), "{brick:?}");
        put_entry(&mut file, &record, entry, record.header - 1);
        assert_eq!(trial.read_raw(&record, &file, sample, 1), Err(refused(12, entry)), "{brick:?}");
        put_entry(&mut file, &record, entry, 1 << 63 | u64::from(entry));
    }
}

#[test]
fn worked_number_3() {
    run(1201, 1, |trial, _| {
        let (file, record) = numbered(trial, &described([112, 64, 176], [64; 3], 0));
        assert_eq!((record.levels, record.bricks, record.header), (3, 9, 2519));
        assert_eq!(trial.read_raw(&record, &file, corner((0, [1, 0, 2]), 64), 1), Ok(vec![8]));
        assert_eq!(trial.read_raw(&record, &file, corner((1, [0, 0, 1]), 64), 1), Ok(vec![2]));
        assert_entries(trial, [112, 64, 176], 64, &CASE_1);
    });
}

#[test]
fn inline_runs_fastest_and_vertical_slowest() {
    run(1202, 1, |trial, _| assert_entries(trial, [5, 9, 5], 4, &ALL_WAYS));
}

/// A made cube's bricks are stored in entry order, and a write of each brick's first sample lands in its own.
#[test]
fn made_bricks_are_stored_in_this_order() {
    run(1203, 1, |trial, _| {
        let length = ALL_WAYS_FIRST + 15 * 64;
        let mut file = trial.make(&described([5, 9, 5], [4; 3], 0), &[0; 5], Fill::Stored, length).unwrap();
        let record = trial.open(&file).unwrap();
        assert_eq!((record.header as usize, file.len()), (ALL_WAYS_HEADERS, length));
        for (entry, &brick) in ALL_WAYS.iter().enumerate() {
            let at = ALL_WAYS_FIRST + 64 * entry;
            assert_eq!(trial.brick_kind(&record, &file, entry as u32), Ok(Brick::Stored(at as u64)));
            trial.write(&record, &mut file, corner(brick, 4), &[100 + entry as u8]).unwrap();
            assert_eq!(file[at], 100 + entry as u8, "{brick:?}");
        }
        let written = file[ALL_WAYS_FIRST..].iter().filter(|&&byte| byte != 0).count();
        assert_eq!(written, 15);
    });
}

/// The entries that the samples of a level are in, for a numbered cube of int16.
fn entries_of(trial: &mut Trial, file: &[u8], record: &Record, level: u32) -> Vec<u32> {
    let whole = Region::whole(record, level);
    let raw = trial.read_raw(record, file, whole, 2 * whole.samples() as usize).unwrap();
    raw.chunks(2).map(|bytes| u32::from(u16::from_le_bytes([bytes[0], bytes[1]]))).collect()
}

/// From the highest level down each level's entries follow those of the level above it, first brick to last brick.
#[test]
fn higher_levels_come_first() {
    const LIMITS: Limits = Limits { sides: &[4, 4, 8], longest: 20, bricks: 300, bytes: 0 };
    let trial = run(1204, 600, |trial, _| {
        let Description { side, size, .. } = cubes::description(&mut trial.random, LIMITS);
        let (file, record) = numbered(trial, &described(size, side, 2));
        assert!(entries_of(trial, &file, &record, record.levels - 1).iter().all(|&entry| entry == 0), "the highest level's brick");
        let mut next = 0;
        for level in (0..record.levels).rev() {
            let entries = entries_of(trial, &file, &record, level);
            let (lowest, highest) = (entries.iter().min(), entries.iter().max());
            assert_eq!(lowest, Some(&next), "level {level} starts where the level above it ends");
            assert_eq!((entries.first(), entries.last()), (lowest, highest), "first and last brick of level {level}");
            next = highest.unwrap() + 1;
        }
        assert_eq!(next, record.bricks, "the last brick of level 0 is the last entry");
    });
    // Three levels a cube in the mean, and the highest once more.
    trial.assert_numbers_met(&[Call::ReadRaw], &[0], 2_400);
}

/// Size (3, 4, 2), side 4: one level has one brick, entry 0, and there is no other.
const ONE_LEVEL: [u32; 3] = [3, 4, 2];
const ONE_LEVEL_SAMPLE: Region = Region { level: 0, start: [1, 2, 1], count: [1; 3] };

/// The brick is at the first multiple of 64 after headers of 2,431 bytes.
#[test]
fn the_stored_brick_of_one_level() {
    run(1205, 1, |trial, _| {
        let mut file = trial.make(&described(ONE_LEVEL, [4; 3], 0), &[0; 5], Fill::Stored, 2496).unwrap();
        let record = trial.open(&file).unwrap();
        assert_eq!((record.levels, record.bricks, record.alphas, record.header), (1, 1, 1, 2431));
        assert_eq!(trial.brick_kind(&record, &file, 0), Ok(Brick::Stored(2432)));
        assert_eq!(trial.brick_kind(&record, &file, 1), Err(refused(16, 0)));
        assert_eq!(trial.write(&record, &mut file, ONE_LEVEL_SAMPLE, &[99]), Ok(1));
        assert_eq!(file[2432 + (4 + 2) * 4 + 1], 99);
        assert_eq!(trial.read_raw(&record, &file, ONE_LEVEL_SAMPLE, 1), Ok(vec![99]));
        assert_eq!(trial.read_raw(&record, &file, Region { level: 1, start: [0; 3], count: [1; 3] }, 1), Err(refused(15, 0)));
    });
}

/// Its entry is at byte 2,423, and the file ends with it.
#[test]
fn the_constant_brick_of_one_level() {
    run(1206, 1, |trial, _| {
        let mut file = trial.make(&described(ONE_LEVEL, [4; 3], 0), &[0; 5], Fill::Constant, 2431).unwrap();
        file[2423] = 5;
        let record = trial.open(&file).unwrap();
        assert_eq!(trial.brick_kind(&record, &file, 0), Ok(Brick::Constant(5.0)));
        assert_eq!(trial.read_raw(&record, &file, ONE_LEVEL_SAMPLE, 1), Ok(vec![5]));
        assert_eq!(trial.write(&record, &mut file, ONE_LEVEL_SAMPLE, &[99]), Err(refused(19, 0)));
        put_entry(&mut file, &record, 0, 2430);
        assert_eq!(trial.read_raw(&record, &file, ONE_LEVEL_SAMPLE, 1), Err(refused(12, 0)));
    });
}
