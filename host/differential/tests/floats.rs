//! Samples as 64-bit floats, by bits: the float rules (FORMAT 11) for every stored value, and for every sort of 32-bit float.

use differential::cubes::{self, Sound};
use differential::reader;
use differential::trial::{run, Trial};
use zgy::{Brick, Description, Region};

const ONE_NAN: u64 = 0x7FF8_0000_0000_0000;

/// Quiet and signalling NaNs of both signs, with low, high and mixed payloads.
const NANS: [u32; 12] = [
    0x7FC0_0000,
    0xFFC0_0000,
    0x7F80_0001,
    0xFF80_0001,
    0x7FBF_FFFF,
    0xFFBF_FFFF,
    0x7FFF_FFFF,
    0xFFFF_FFFF,
    0x7FA0_0000,
    0xFFA5_A5A5,
    0x7FC0_0001,
    0xFFD1_2345,
];

/// Zeros, subnormals, the smallest and largest normal floats, and infinities, of both signs.
const OTHERS: [u32; 16] = [
    0,
    0x8000_0000,
    1,
    0x8000_0001,
    0x007F_FFFF,
    0x807F_FFFF,
    0x0040_0000,
    0x0080_0000,
    0x8080_0000,
    0x7F7F_FFFF,
    0xFF7F_FFFF,
    0x7F80_0000,
    0xFF80_0000,
    0x3F80_0000,
    0xBF80_0000,
    0x3F80_0001,
];

/// A 32-bit float widened by its fields alone, without the machine's conversion.
fn widened(bits: u32) -> u64 {
    let sign = u64::from(bits >> 31) << 63;
    let (exponent, fraction) = (u64::from(bits >> 23 & 0xFF), u64::from(bits & 0x007F_FFFF));
    match (exponent, fraction) {
        (255, 0) => sign | 0x7FF << 52,
        (255, _) => ONE_NAN,
        (0, 0) => sign,
        (0, _) => {
            // A subnormal: its highest bit becomes the hidden one.
            let high = u64::from(63 - fraction.leading_zeros());
            sign | (high + 1023 - 149) << 52 | (fraction << (52 - high)) & ((1 << 52) - 1)
        }
        _ => sign | (exponent + 1023 - 127) << 52 | fraction << 29,
    }
}

/// A cube of one inline and one crossline, every brick stored.
fn trace(trial: &mut Trial, datatype: u8, range: [u32; 2], samples: u32) -> Sound {
    let (side, size) = ([4, 4, 64], [1, 1, samples]);
    cubes::all_stored(&mut trial.random, Description { side, size, datatype, range, ..Description::default() })
}

fn run_of(start: u32, count: u32) -> Region {
    Region { level: 0, start: [0, 0, start], count: [1, 1, count] }
}

/// Puts samples into the trace, reads them as floats, and asserts that each is widened by the rule.
fn assert_widened(trial: &mut Trial, cube: &mut Sound, start: u32, samples: &[u32]) {
    let region = run_of(start, samples.len() as u32);
    let input: Vec<u8> = samples.iter().flat_map(|bits| bits.to_le_bytes()).collect();
    trial.write(&cube.record, &mut cube.file, region, &input).unwrap();
    let floats = trial.read_float(&cube.record, &cube.file, region, samples.len()).unwrap();
    let expected: Vec<u64> = samples.iter().map(|&bits| widened(bits)).collect();
    assert_eq!(floats, expected, "{samples:08x?}");
}

/// One special float among ordinary ones, at each place of runs of each length: vector bodies and scalar tails both meet it.
#[test]
fn special_floats_at_each_place_of_a_run() {
    let trial = run(601, 64, |trial, case| {
        let length = case as usize + 1;
        let mut cube = trace(trial, 6, [0; 2], 64);
        for special in NANS.into_iter().chain(OTHERS) {
            for place in 0..length {
                let start = trial.random.between(0, 64 - length as u32);
                let mut samples: Vec<u32> = (0..length).map(|_| cubes::finite(&mut trial.random)).collect();
                samples[place] = special;
                assert_widened(trial, &mut cube, start, &samples);
            }
        }
    });
    trial.assert_met(differential::Least { cubes: 0, calls: 100_000 }, &[], 0);
}

/// Runs full of NaNs, and long runs over several bricks that mix all sorts.
#[test]
fn runs_of_special_floats() {
    let trial = run(602, 400, |trial, _| {
        let mut cube = trace(trial, 6, [0; 2], 300);
        let special: Vec<u32> = NANS.into_iter().chain(OTHERS).collect();
        for list in [&NANS[..], &special] {
            let (start, length) = (trial.random.between(0, 40), trial.random.between(1, 260));
            let samples: Vec<u32> = (0..length).map(|_| trial.random.pick(list)).collect();
            assert_widened(trial, &mut cube, start, &samples);
        }
    });
    trial.assert_met(differential::Least { cubes: 0, calls: 1_600 }, &[], 0);
}

/// Any bits: more than a million 32-bit floats, half of them with the exponent of NaNs and infinities, or of subnormals.
#[test]
fn a_million_floats() {
    run(603, 40, |trial, _| {
        let (side, size) = ([32; 3], [32; 3]);
        let description = Description { side, size, datatype: 6, ..Description::default() };
        let mut cube = cubes::all_stored(&mut trial.random, description);
        let offset = cube.record.header as usize;
        for n in (0..32 * 32 * 32).step_by(2) {
            let bits = trial.random.word() as u32;
            let edge = trial.random.pick(&[bits | 0x7F80_0000, bits & 0x807F_FFFF]);
            reader::put(&mut cube.file, offset + 4 * n, &edge.to_le_bytes());
        }
        let whole = Region { level: 0, start: [0; 3], count: size };
        let floats = trial.read_float(&cube.record, &cube.file, whole, 32 * 32 * 32).unwrap();
        for (n, &float) in floats.iter().enumerate() {
            let bits = reader::u32_at(&cube.file, offset + 4 * n);
            assert_eq!(float, widened(bits), "{bits:08x}");
        }
    });
}

/// Constant float bricks: their kind and their samples have the one NaN too.
#[test]
fn constant_floats() {
    run(604, 1, |trial, _| {
        let mut cube = trace(trial, 6, [0; 2], 64);
        for bits in NANS.into_iter().chain(OTHERS) {
            let entry = 1 << 63 | u64::from(bits) | 0x00AB_CDEF << 32;
            reader::put(&mut cube.file, reader::entry_offset(&cube.record, 0), &entry.to_le_bytes());
            let Ok(Brick::Constant(value)) = trial.brick_kind(&cube.record, &cube.file, 0) else { panic!("{bits:08x}") };
            assert_eq!(value.to_bits(), widened(bits));
            for count in 1..=64 {
                let floats = trial.read_float(&cube.record, &cube.file, run_of(64 - count, count), 64).unwrap();
                assert!(floats.iter().all(|&float| float == widened(bits)), "{bits:08x}");
            }
        }
    });
}

/// Coding ranges with small, huge and lopsided spreads: some overflow 32-bit floats, none 64-bit ones.
fn ranges(trial: &mut Trial, count: usize) -> Vec<[u32; 2]> {
    let known: [[f32; 2]; 8] = [
        [-1280.0, 1270.0],
        [f32::MIN, f32::MAX],
        [0.0, f32::from_bits(1)],
        [-f32::MIN_POSITIVE, f32::MIN_POSITIVE],
        [-0.0, 1.0],
        [0.1, 0.3],
        [16_777_216.0, 16_777_218.0],
        [-3.0e38, 3.4e38],
    ];
    let random = (known.len()..count).map(|_| cubes::coding_range(&mut trial.random));
    known.into_iter().map(|range| range.map(f32::to_bits)).chain(random).collect()
}

/// The order of operations of FORMAT 11.3, for a stored value between the type's lowest and highest.
fn scaled(stored: f64, lo: f64, hi: f64, range: [u32; 2]) -> u64 {
    let [min, max] = range.map(|bits| f64::from(f32::from_bits(bits)));
    ((max - min) * (stored - lo) / (hi - lo) + min).to_bits()
}

/// Every value of an integer type, in one brick, read with each of the coding ranges.
fn assert_scaled(trial: &mut Trial, datatype: u8, side: [u32; 3], ranges: &[[u32; 2]], stored: &[i16]) {
    let (lo, hi) = (f64::from(stored[0]), f64::from(stored[stored.len() - 1]));
    for &range in ranges {
        let description = Description { side, size: side, datatype, range, ..Description::default() };
        let mut cube = cubes::all_stored(&mut trial.random, description);
        let width = reader::item_bytes(datatype);
        let input: Vec<u8> = stored.iter().flat_map(|value| value.to_le_bytes().into_iter().take(width)).collect();
        let whole = Region { level: 0, start: [0; 3], count: side };
        let record = trial.open(&cube.file).unwrap();
        trial.write(&record, &mut cube.file, whole, &input).unwrap();
        let floats = trial.read_float(&record, &cube.file, whole, stored.len()).unwrap();
        let expected: Vec<u64> = stored.iter().map(|&value| scaled(f64::from(value), lo, hi, range)).collect();
        assert_eq!(floats, expected, "type {datatype}, range {range:08x?}");
    }
}

#[test]
fn all_values_of_int8() {
    run(605, 1, |trial, _| {
        let stored: Vec<i16> = (-128..=127).collect();
        let ranges = ranges(trial, 3_000);
        assert_scaled(trial, 0, [4, 8, 8], &ranges, &stored);
    });
}

#[test]
fn all_values_of_int16() {
    run(606, 1, |trial, _| {
        let stored: Vec<i16> = (i16::MIN..=i16::MAX).collect();
        let ranges = ranges(trial, 60);
        assert_scaled(trial, 2, [64, 16, 64], &ranges, &stored);
    });
}

/// Integers in runs of each length, from any start: vector bodies and scalar tails give the same bits.
#[test]
fn integers_in_runs_of_each_length() {
    run(607, 40, |trial, _| {
        for datatype in [0, 2] {
            let range = cubes::coding_range(&mut trial.random);
            let cube = trace(trial, datatype, range, 200);
            for count in 1..=70 {
                let start = trial.random.between(0, 130);
                trial.read_float(&cube.record, &cube.file, run_of(start, count), count as usize).unwrap();
            }
        }
    });
}

#[test]
fn worked_number_11() {
    run(608, 1, |trial, _| {
        let range = [(-1280.0f32).to_bits(), 1270.0f32.to_bits()];
        let mut cube = trace(trial, 0, range, 4);
        trial.write(&cube.record, &mut cube.file, run_of(0, 4), &[128, 0, 1, 127]).unwrap();
        let floats = trial.read_float(&cube.record, &cube.file, run_of(0, 4), 4).unwrap();
        assert_eq!(floats, [-1280.0f64, 0.0, 10.0, 1270.0].map(f64::to_bits));
    });
}

/// A missing brick is +0.0 whatever the range; a constant zero is scaled as a sample is.
#[test]
fn missing_is_not_constant_zero() {
    run(609, 1, |trial, _| {
        let range = [10.0f32.to_bits(), 20.0f32.to_bits()];
        for (datatype, lo, hi) in [(0, -128.0, 127.0), (2, -32_768.0, 32_767.0)] {
            let mut cube = trace(trial, datatype, range, 64);
            for (entry, value) in [(0, 0), (1, scaled(0.0, lo, hi, range)), (1 << 63, scaled(0.0, lo, hi, range))] {
                reader::put(&mut cube.file, reader::entry_offset(&cube.record, 0), &u64::to_le_bytes(entry));
                assert_eq!(trial.read_float(&cube.record, &cube.file, run_of(3, 2), 2), Ok(vec![value; 2]));
                assert_eq!(trial.read_raw(&cube.record, &cube.file, run_of(3, 1), 4).map(|raw| raw[0]), Ok(0));
            }
        }
    });
}
