//! Brick kinds, views, raw and float reads, writes and positions, with arguments that are taken and refused.

use differential::arguments;
use differential::cubes::{self, any_limits};
use differential::reader::{self, Shown};
use differential::tally::Call;
use differential::trial::{run, Trial};
use differential::{Least, CALLS};
use zgy::{Brick, Description, Record, Refusal, Region};

const REGION_CALLS_AND_BRICKS: [Call; 5] = [Call::BrickKind, Call::BrickView, Call::ReadRaw, Call::ReadFloat, Call::Write];

/// One call of a random sort. The file changes by taken writes alone.
fn one_call(trial: &mut Trial, good: &Record, file: &mut Vec<u8>) {
    let random = &mut trial.random;
    let record = arguments::record(random, good);
    // Arguments that suit the record lent, where it is sound.
    let shape = if reader::judge_record(&record, Some(file)).is_ok() { record } else { *good };
    let entry = arguments::entry(random, &shape);
    let region = arguments::region(random, &shape);
    let samples = reader::samples(region);
    let bytes = samples * reader::item_bytes(shape.description.datatype) as u128;
    match random.below(9) {
        0 | 1 => drop(trial.brick_kind(&record, file, entry)),
        2 => {
            let filler = arguments::filler(random, file, &shape, entry);
            let _ = trial.brick_view(&record, file, &filler, entry);
        }
        3 | 4 => {
            let room = arguments::room(random, bytes);
            let _ = trial.read_raw(&record, file, region, room);
        }
        5 => {
            let room = arguments::room(random, samples);
            let _ = trial.read_float(&record, file, region, room);
        }
        6 | 7 => {
            let room = arguments::room(random, bytes);
            let input = random.bytes(room);
            let _ = trial.write(&record, file, region, &input);
        }
        _ => {
            let (dimension, index) = (random.between(0, 3), random.between(0, 20));
            let _ = trial.position(&record, dimension, index);
        }
    }
}

#[test]
fn random_calls_agree() {
    let trial = run(201, CALLS.cubes, |trial, case| {
        let limits = if case % 400 == 0 { cubes::BIG } else { any_limits(&mut trial.random) };
        let cube = cubes::sound(&mut trial.random, limits);
        let good = trial.open(&cube.file).expect("a sound cube opens");
        let mut file = cube.file;
        let calls = if file.len() > 200_000 { 6 } else { CALLS.calls / CALLS.cubes + 1 };
        for call in 0..calls {
            if call == calls / 2 && trial.random.one_in(2) {
                arguments::edit_table(&mut trial.random, &mut file, &good);
            }
            one_call(trial, &good, &mut file);
        }
    });
    trial.assert_met(CALLS, &REGION_CALLS_AND_BRICKS, 100);
}

/// Files that are no cubes, with the sound record of some cube: calls believe the record, and judge each entry that they meet.
#[test]
fn any_bytes_with_a_sound_record() {
    let trial = run(206, 3_000, |trial, _| {
        let cube = cubes::sound(&mut trial.random, cubes::SMALL);
        let good = cube.record;
        let mut file = trial.random.bytes(cube.file.len());
        for _ in 0..trial.random.below(9) {
            arguments::edit_table(&mut trial.random, &mut file, &good);
        }
        for _ in 0..12 {
            one_call(trial, &good, &mut file);
        }
    });
    trial.assert_met(Least { cubes: 0, calls: 30_000 }, &REGION_CALLS_AND_BRICKS, 10);
}

/// Regions of 2^32 bytes and more, in a cube of constants: no buffer here has the room, and no 32-bit product may say it has.
#[test]
fn regions_of_gigabytes() {
    let trial = run(207, 3, |trial, case| {
        let datatype = [0, 2, 6][case as usize];
        let description = Description { size: [1536; 3], datatype, range: [0, 1], ..Description::default() };
        let cube = cubes::sound_of(&mut trial.random, description, &[0; 5], 0);
        let record = trial.open(&cube.file).unwrap();
        for count in [[1024; 3], [1536; 3], [1024, 1024, 1025], [1024, 1536, 512], [512, 1024, 1024], [1536, 1, 1536]] {
            let region = Region { level: 0, start: [0; 3], count };
            for room in [0, 1, 4096] {
                let refused = Some(Refusal { number: 18, entry: 0 });
                assert_eq!(trial.read_raw(&record, &cube.file, region, room).err(), refused);
                assert_eq!(trial.read_float(&record, &cube.file, region, room).err(), refused);
                let input = trial.random.bytes(room);
                assert_eq!(trial.write(&record, &mut cube.file.clone(), region, &input).err(), refused);
            }
        }
    });
    trial.assert_met(Least { cubes: 3, calls: 150 }, &[], 0);
}

/// Every side in every direction, every type, and every level: the whole of a level, and one sample beyond each brick's edge.
#[test]
fn all_sides_and_levels() {
    let sides = [4, 8, 16, 32, 64];
    run(202, 125, |trial, case| {
        let n = case as usize;
        let side = [sides[n % 5], sides[n / 5 % 5], sides[n / 25]];
        let datatype = [0, 2, 6][n % 3];
        let size = std::array::from_fn(|d| side[d] + 1 + (n + d) as u32 % 3);
        let range = cubes::coding_range(&mut trial.random);
        let description = Description { side, size, datatype, range, ..Description::default() };
        let cube = cubes::sound_of(&mut trial.random, description, &[0; 5], 1_500_000);
        let record = trial.open(&cube.file).unwrap();
        for (number, level) in reader::levels(&description).iter().enumerate() {
            let corner = std::array::from_fn(|d| side[d].min(level.extent[d]) - 1);
            let across =
                Region { level: number as u32, start: corner, count: std::array::from_fn(|d| level.extent[d] - corner[d]) };
            let room = reader::samples(across) as usize;
            trial.read_raw(&record, &cube.file, across, 4 * room).unwrap();
            trial.read_float(&record, &cube.file, across, room).unwrap();
            let column = Region { count: [1, 1, level.extent[2]], start: [corner[0], corner[1], 0], ..across };
            trial.read_raw(&record, &cube.file, column, 4 * level.extent[2] as usize).unwrap();
        }
    });
}

/// All sets of faults that a region call can have: the first in the order of checks refuses.
#[test]
fn of_several_faults_the_first_refuses() {
    const ORDER: [u32; 6] = [14, 15, 16, 18, 12, 19];
    run(208, 64, |trial, set| {
        let has = |number: u32| ORDER.iter().position(|&other| other == number).is_some_and(|n| set >> n & 1 == 1);
        let description = Description { side: [4; 3], size: [8; 3], datatype: 2, range: [0, 1], ..Description::default() };
        let cube = cubes::all_stored(&mut trial.random, description);
        let (mut record, mut file) = (cube.record, cube.file);
        let mut region = Region { level: 0, start: [0; 3], count: [8; 3] };
        record.alphas += u32::from(has(14));
        region.level += if has(15) { record.levels } else { 0 };
        region.start[1] += u32::from(has(16));
        let samples = if has(18) { 511 } else { 512 };
        for (number, entry, value) in [(12, 5, cube.record.header - 1), (19, 2, 1)] {
            if has(number) {
                reader::put(&mut file, reader::entry_offset(&cube.record, entry), &value.to_le_bytes());
            }
        }
        let first = |order: &[u32]| order.iter().copied().find(|&number| has(number));
        let number = |refusal: Option<Refusal>| refusal.map(|refusal| refusal.number);
        assert_eq!(number(trial.read_raw(&record, &file, region, 2 * samples).err()), first(&ORDER[..5]));
        assert_eq!(number(trial.read_float(&record, &file, region, samples).err()), first(&ORDER[..5]));
        let input = trial.random.bytes(2 * samples);
        assert_eq!(number(trial.write(&record, &mut file, region, &input).err()), first(&ORDER));
    });
}

/// Several entries at fault at once, inside and outside the region: the lowest one inside is named.
#[test]
fn the_lowest_touched_entry_is_named() {
    let trial = run(203, 2_000, |trial, _| {
        let description = Description {
            size: [trial.random.between(5, 16), trial.random.between(5, 16), trial.random.between(5, 16)],
            range: [0, 1],
            side: [4; 3],
            ..Description::default()
        };
        let cube = cubes::all_stored(&mut trial.random, description);
        let mut file = cube.file;
        for _ in 0..2 + trial.random.below(5) {
            let entry = trial.random.below(cube.record.bricks as usize) as u32;
            let value = trial.random.pick(&[0, 1, 1 << 63, cube.record.header - 1, cube.record.length - 63, u64::MAX >> 1]);
            reader::put(&mut file, reader::entry_offset(&cube.record, entry), &value.to_le_bytes());
        }
        for _ in 0..6 {
            let region = arguments::region_inside(&mut trial.random, &cube.record);
            let room = reader::samples(region) as usize;
            let _ = trial.read_raw(&cube.record, &file, region, room);
            let _ = trial.read_float(&cube.record, &file, region, room);
            let input = trial.random.bytes(room);
            let _ = trial.write(&cube.record, &mut file, region, &input);
        }
    });
    trial.assert_met(Least { cubes: 0, calls: 36_000 }, &[], 0);
}

#[test]
fn worked_numbers_3_and_4() {
    run(204, 1, |trial, _| {
        let description =
            Description { side: [64; 3], size: [112, 64, 176], datatype: 2, range: [0, 1], ..Description::default() };
        let mut cube = cubes::all_stored(&mut trial.random, description);
        let record = trial.open(&cube.file).unwrap();
        let brick = 64 * 64 * 64 * 2;
        let sample = |level, start| Region { level, start, count: [1; 3] };
        trial.write(&record, &mut cube.file, sample(0, [70, 5, 130]), &[0x12, 0x34]).unwrap();
        let at = 2519 + 8 * brick + 49_796;
        assert_eq!(cube.file[at..at + 2], [0x12, 0x34]);
        trial.write(&record, &mut cube.file, sample(1, [0, 0, 64]), &[0x56, 0x78]).unwrap();
        let at = 2519 + 2 * brick;
        assert_eq!(cube.file[at..at + 2], [0x56, 0x78]);
    });
}

#[test]
fn worked_number_8_and_views_of_it() {
    run(205, 1, |trial, _| {
        let description = Description { side: [4; 3], size: [1; 3], range: [0, 1], ..Description::default() };
        let cube = cubes::all_stored(&mut trial.random, description);
        let (record, mut file) = (cube.record, cube.file);
        reader::put(&mut file, reader::entry_offset(&record, 0), &0x8000_0000_0000_00FFu64.to_le_bytes());
        assert_eq!(trial.brick_kind(&record, &file, 0), Ok(Brick::Constant(-1.0)));
        assert_eq!(trial.brick_view(&record, &file, &[0xFF; 64], 0), Ok(Shown::Filler(0..64)));
        assert_eq!(trial.brick_view(&record, &file, &[0xFF; 63], 0), Err(Refusal { number: 18, entry: 0 }));
        assert_eq!(trial.brick_view(&record, &file, &[0; 64], 0), Err(Refusal { number: 17, entry: 0 }));
    });
}
