//! Every call with records that no opening gave: each field changed, one after the other.

use differential::arguments::{changed, CHANGES};
use differential::cubes;
use differential::reader;
use differential::trial::{run, Trial};
use differential::{Least, RECORDS};
use zgy::{Description, Record, Region};

/// All calls that take a record, but strings, with arguments that the good record takes.
fn all_calls(trial: &mut Trial, record: &Record, file: &mut Vec<u8>) {
    let one = Region { level: 0, start: [0; 3], count: [1; 3] };
    let _ = trial.brick_kind(record, file, 0);
    let _ = trial.brick_view(record, file, &[0; 2048], 0);
    let _ = trial.read_raw(record, file, one, 4);
    let _ = trial.read_float(record, file, one, 1);
    let _ = trial.write(record, file, one, &[1, 2, 3, 4]);
    let _ = trial.position(record, 0, 0);
}

#[test]
fn every_field_changed() {
    let trial = run(301, 250, |trial, _| {
        let cube = cubes::sound(&mut trial.random, cubes::SMALL);
        let good = trial.open(&cube.file).unwrap();
        let mut file = cube.file;
        for change in 0..CHANGES.len() {
            let record = changed(&mut trial.random, &good, change);
            all_calls(trial, &record, &mut file);
        }
    });
    trial.assert_met(RECORDS, &[], 0);
}

/// Records whose derived numbers all agree, and that break a single rule of 3 to 9.
fn broken_by_one_rule() -> Vec<Record> {
    let sound = Description { side: [4; 3], size: [9, 4, 4], range: [0, 1], ..Description::default() };
    let (nan, infinite) = (f32::NAN.to_bits(), f32::INFINITY.to_bits());
    let mut broken: Vec<(u32, Description, u32)> = vec![(0, sound, 5), (1, sound, 5), (4, sound, 5)];
    for side in [1, 2, 3, 5, 6, 7, 12, 65, 128, 256] {
        broken.push((3, Description { side: [4, side, 4], ..sound }, 5));
    }
    for datatype in [1, 3, 4, 5, 7, 8, 128, 255] {
        broken.push((3, Description { datatype, ..sound }, 5));
    }
    for range in [[0, 0], [0, 1 << 31], [1 << 31, 0], [1, 0], [0, infinite], [nan, 0], [0, nan], [infinite | 1 << 31, 0]] {
        broken.push((3, Description { range, ..sound }, 5));
    }
    for float in [nan, infinite, infinite | 1 << 31, 0xFF80_0001] {
        broken.push((3, Description { orig: [0, 0, float], ..sound }, 5));
        broken.push((3, Description { inc: [float, 0, 0], ..sound }, 5));
    }
    for size in [[4 * 8193, 1, 1], [4 * 100, 4 * 100, 5], [4 * 32, 4 * 32, 4 * 16]] {
        broken.push((3, Description { size, ..sound }, 5));
    }
    broken.extend([0, 4, 65_537, 1 << 20].map(|text| (3, sound, text)));
    broken.into_iter().map(|(version, description, text)| reader::record_of(version, description, text, 0)).collect()
}

#[test]
fn one_rule_broken() {
    run(304, 3, |trial, _| {
        for headers in broken_by_one_rule() {
            let record = Record { length: headers.header + 600, ..headers };
            let mut file = trial.random.bytes(record.length as usize);
            assert!(reader::judge_record(&record, Some(&file)).is_err(), "{record:?}");
            all_calls(trial, &record, &mut file);
        }
    });
}

/// A file that ends with its headers is a cube; with a byte less, no record of it is sound.
#[test]
fn a_length_below_the_headers() {
    run(305, 3, |trial, _| {
        let description = Description { side: [4; 3], size: [9, 4, 4], range: [0, 1], ..Description::default() };
        let header = reader::record_of(3, description, 5, 0).header;
        for length in [header, header - 1] {
            let record = reader::record_of(3, description, 5, length);
            let mut file = trial.random.bytes(length as usize);
            assert_eq!(reader::judge_record(&record, Some(&file)).is_ok(), length == header);
            all_calls(trial, &record, &mut file);
        }
    });
}

#[test]
fn files_of_another_length() {
    run(302, 300, |trial, _| {
        let cube = cubes::sound(&mut trial.random, cubes::SMALL);
        let length = cube.file.len();
        for other in [0, 1, 345, 346, cube.record.header as usize - 1, length - 1, length + 1] {
            let mut file = cube.file.clone();
            file.resize(other, 0);
            all_calls(trial, &cube.record, &mut file);
        }
    });
}

/// A record at the limit of bricks is sound, and calls with it look for the last entries of a long table.
#[test]
fn records_at_the_limits() {
    let trial = run(303, 40, |trial, _| {
        let side = trial.random.triple(|random| random.pick(&[4, 8]));
        let bricks = trial.random.pick(&[[8192, 1, 1], [1, 8192, 1], [1, 1, 8192], [127, 96, 1], [20, 20, 35], [24, 24, 24]]);
        let size = std::array::from_fn(|d| side[d] * bricks[d]);
        let description = Description { side, size, range: [0, 1], ..Description::default() };
        let cube = cubes::sound_of(&mut trial.random, description, &[0; 5], 9000);
        let Ok(record) = trial.open(&cube.file) else { return };
        for entry in [record.bricks - 1, record.bricks / 2, record.bricks] {
            let _ = trial.brick_kind(&record, &cube.file, entry);
        }
        for (number, level) in reader::levels(&description).iter().enumerate() {
            let last = Region { level: number as u32, start: level.extent.map(|n| n - 1), count: [1; 3] };
            let _ = trial.read_raw(&record, &cube.file, last, 1);
        }
    });
    trial.assert_met(Least { cubes: 40, calls: 400 }, &[], 0);
}
