//! Opening: sound cubes, and cubes damaged in every way. The library's record or refusal is the independent reader's.

use differential::cubes::{self, any_limits, Limits, Sound};
use differential::damage::{damage, fault, put_entry};
use differential::reader::{self, at};
use differential::tally::Call;
use differential::trial::{run, Trial};
use differential::{DAMAGED_OPENINGS, SOUND_OPENINGS};
use zgy::{Description, Record, Refusal, Region};

#[test]
fn sound_cubes_open() {
    let trial = run(101, SOUND_OPENINGS.cubes, |trial, case| {
        let limits = if case % 1000 == 0 { cubes::BIG } else { any_limits(&mut trial.random) };
        let cube = cubes::sound(&mut trial.random, limits);
        let opened = trial.open(&cube.file).expect("a sound cube opens");
        assert_eq!(reader::by_bits(&opened), reader::by_bits(&cube.record), "what was encoded");
        assert_helpers(&opened);
    });
    trial.assert_met(SOUND_OPENINGS, &[], 0);
}

/// What the wrapper works out of a record by itself.
fn assert_helpers(record: &Record) {
    assert_eq!(record.item_bytes(), reader::item_bytes(record.description.datatype));
    for (number, level) in reader::levels(&record.description).iter().enumerate() {
        let whole = Region::whole(record, number as u32);
        assert_eq!(whole, reader::whole(number, level));
        assert_eq!(whole.samples(), reader::samples(whole));
    }
}

#[test]
fn damaged_cubes_are_refused_by_the_first_check() {
    let trial = run(102, DAMAGED_OPENINGS.cubes, |trial, _| {
        let limits = any_limits(&mut trial.random);
        let cube = cubes::sound(&mut trial.random, limits);
        let mut file = cube.file.clone();
        for _ in 0..1 + trial.random.below(3) {
            damage(&mut trial.random, &cube, &mut file);
        }
        let _ = trial.open(&file);
    });
    trial.assert_met(DAMAGED_OPENINGS, &[Call::Open], 300);
}

/// A cube with at least four stored bricks.
fn well_stored(trial: &mut Trial) -> Sound {
    loop {
        let cube = cubes::sound(&mut trial.random, Limits { sides: &[4], longest: 2, bricks: 12, bytes: 4000 });
        if cubes::stored_entries(&cube).len() >= 4 {
            return cube;
        }
    }
}

#[test]
fn every_length_of_a_file() {
    run(103, 4, |trial, _| {
        let cube = well_stored(trial);
        for length in 0..=cube.file.len() {
            let _ = trial.open(&cube.file[..length]);
        }
    });
}

#[test]
fn every_bit_of_the_headers() {
    run(104, 6, |trial, _| {
        let cube = well_stored(trial);
        let tables = reader::entry_offset(&cube.record, 0)..cube.record.header as usize;
        for byte in (0..at::TEXT + cube.record.text as usize).chain(tables) {
            for bit in 0..8 {
                let mut file = cube.file.clone();
                file[byte] ^= 1 << bit;
                let _ = trial.open(&file);
            }
        }
    });
}

#[test]
fn of_three_faults_the_first_check_refuses() {
    run(105, 10, |trial, _| {
        let cube = well_stored(trial);
        for first in 1..=13 {
            for second in first..=13 {
                for third in second..=13 {
                    let mut file = cube.file.clone();
                    // The later fault goes in first: an earlier one may cut the file.
                    [third, second, first].iter().for_each(|&number| fault(number, &cube, &mut file));
                    let number = trial.open(&file).map_err(|refusal| refusal.number);
                    assert_eq!(number, Err(first), "faults {first}, {second}, {third}");
                }
            }
        }
    });
}

#[test]
fn all_values_of_a_header_byte() {
    run(106, 3, |trial, _| {
        let cube = well_stored(trial);
        let fields = [4..9, at::SIDE..at::RANGE, at::RANGE..at::DATAID, at::ORIG..at::CURSIZE, at::TEXT_LENGTH..at::TEXT];
        for byte in fields.into_iter().flatten() {
            for value in 0..=255 {
                let mut file = cube.file.clone();
                file[byte] = value;
                let _ = trial.open(&file);
            }
        }
    });
}

/// A cube of constants alone, so that many bricks need little room.
fn headers_only(trial: &mut Trial, side: [u32; 3], size: [u32; 3], text: usize) -> Vec<u8> {
    let description = Description { side, size, range: [0, 1], ..Description::default() };
    let headers = reader::record_of(2, description, text as u32, 0);
    let record = Record { length: headers.header, ..headers };
    let text = cubes::text_of(&mut trial.random, text);
    let entries: Vec<u64> = (0..record.bricks).map(|_| cubes::unstored_entry(&mut trial.random)).collect();
    cubes::encode(&mut trial.random, &record, &text, &entries)
}

/// Bricks in each direction whose levels have so many bricks together.
fn shapes_with(bricks: u64) -> Vec<[u32; 3]> {
    let side = [4; 3];
    let shapes = (1..8192).flat_map(|i| (1..9).flat_map(move |j| (1..4).map(move |k| [i, j, k])));
    let count = |shape: [u32; 3]| {
        let size = shape.map(|n| n * 4);
        reader::brick_count(&reader::levels(&Description { side, size, ..Description::default() }))
    };
    shapes.filter(|&shape| count(shape) == bricks).collect()
}

#[test]
fn the_limit_of_bricks() {
    let around = [16_383, 16_384, 16_385, 16_386].map(|bricks| (bricks, shapes_with(bricks)));
    assert!(around.iter().all(|(_, shapes)| !shapes.is_empty()));
    run(107, 1, |trial, _| {
        for (bricks, shapes) in &around {
            for shape in shapes.iter().take(6) {
                let [a, b, c] = *shape;
                for shape in [[a, b, c], [c, a, b], [b, c, a]] {
                    let file = headers_only(trial, [4; 3], shape.map(|n| n * 4 - 3), 5);
                    let number = trial.open(&file).map(|record| record.bricks).map_err(|refusal| refusal.number);
                    assert_eq!(number, if *bricks <= 16_384 { Ok(*bricks as u32) } else { Err(8) }, "{shape:?}");
                }
            }
        }
    });
}

/// The longest tables, all stored, in ascending, descending and shuffled order, with one to three bricks moved onto others.
#[test]
fn overlaps_in_long_tables() {
    let trial = run(113, 60, |trial, case| {
        let description = Description { side: [4; 3], size: [96, 96, 92], range: [0, 1], ..Description::default() };
        let cube = cubes::all_stored(&mut trial.random, description);
        let offset = |slot: u64| cube.record.header + 64 * slot;
        let mut slots: Vec<u64> = (0..cube.record.bricks.into()).collect();
        match case % 3 {
            0 => {}
            1 => slots.reverse(),
            _ => trial.random.shuffle(&mut slots),
        }
        let mut offsets: Vec<u64> = slots.into_iter().map(offset).collect();
        for _ in 0..trial.random.below(4) {
            let (moved, onto) = (trial.random.below(offsets.len()), trial.random.below(offsets.len()));
            offsets[moved] = (offsets[onto] + trial.random.pick(&[0, 1, 63])).min(cube.record.length - 64);
        }
        let mut file = cube.file.clone();
        for (entry, &offset) in offsets.iter().enumerate() {
            put_entry(&cube, &mut file, entry as u32, offset);
        }
        let _ = trial.open(&file);
    });
    trial.assert_numbers_met(&[Call::Open], &[0, 13], 1);
}

#[test]
fn the_limits_of_sizes_and_text() {
    run(108, 1, |trial, _| {
        for size in [[1_048_576, 1, 1], [1, 1_048_577, 1], [1, 1, 524_288], [524_289, 1, 1], [1; 3], [64; 3], [65; 3]] {
            let file = headers_only(trial, [64; 3], size, 5);
            let _ = trial.open(&file);
        }
        for text in [5, 6, 65_535, 65_536, 65_537] {
            let file = headers_only(trial, [4; 3], [9, 4, 4], text);
            assert_eq!(trial.open(&file).is_ok(), text <= 65_536);
        }
    });
}

#[test]
fn worked_numbers_1_2_5_6() {
    run(109, 1, |trial, _| {
        let mut counts = |size, side| {
            let file = headers_only(trial, [side; 3], size, 5);
            let record = trial.open(&file).expect("a worked number opens");
            (record.levels, record.bricks, record.alphas, record.header)
        };
        assert_eq!(counts([112, 64, 176], 64), (3, 9, 4, 2519));
        assert_eq!(counts([9, 4, 4], 4).1, 6);
        assert_eq!(counts([64; 3], 64).1, 1);
        assert_eq!(counts([65; 3], 64).1, 9);
    });
}

#[test]
fn worked_number_9() {
    run(111, 3, |trial, case| {
        let datatype = [0, 2, 6][case as usize];
        let description = Description { side: [4; 3], size: [4; 3], datatype, range: [0, 1], ..Description::default() };
        let mut cube = cubes::all_stored(&mut trial.random, description);
        assert!(trial.open(&cube.file).is_ok());
        let outside = Err(Refusal { number: 12, entry: 0 });
        let short = cube.file.len() - 1;
        assert_eq!(trial.open(&cube.file[..short]), outside);
        let mut file = std::mem::take(&mut cube.file);
        put_entry(&cube, &mut file, 0, cube.record.header - 1);
        assert_eq!(trial.open(&file), outside);
    });
}

#[test]
fn worked_number_10() {
    run(112, 1, |trial, _| {
        let mut file = headers_only(trial, [4; 3], [1; 3], 5);
        for at in [at::DATAID, at::VERID, at::PREVID] {
            reader::put(&mut file, at, &[3, 2, 1, 0, 5, 4, 7, 6, 8, 9, 10, 11, 12, 13, 14, 15]);
        }
        let Description { dataid, verid, previd, .. } = trial.open(&file).unwrap().description;
        assert_eq!([dataid, verid, previd], [std::array::from_fn(|n| n as u8); 3]);
    });
}
