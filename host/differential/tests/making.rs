//! Making: the made bytes are those of the independent reader, and they open again with the same description.

use differential::cubes::{self, any_limits, finite, not_finite};
use differential::random::Random;
use differential::reader;
use differential::tally::Call;
use differential::trial::{run, Trial};
use differential::MAKING;
use zgy::{Description, Fill};

/// Made files longer than this are only asked for in a buffer that is too short.
const LONGEST: usize = 400_000;

/// Breaks one of the fields that making judges, or only just does not.
fn spoil(random: &mut Random, description: &mut Description) {
    let d = random.below(3);
    match random.below(7) {
        0 => description.side[d] = random.pick(&[0, 1, 2, 3, 5, 12, 65, 128, u32::MAX, 16]),
        1 => description.datatype = random.pick(&[1, 3, 4, 5, 7, 255, 0, 2, 6]),
        2 => description.size[d] = random.pick(&[0, 1_048_577, u32::MAX, 1 << 31, 1]),
        3 => description.orig[d] = if random.one_in(3) { finite(random) } else { not_finite(random) },
        4 => description.inc[d] = if random.one_in(3) { finite(random) } else { not_finite(random) },
        5 => description.size[d] = random.pick(&[1_048_576, 1_000_000, 300_000]),
        _ => {
            let (number, broken) = (finite(random), not_finite(random));
            description.range =
                random.pick(&[[number, number], [0, 0x8000_0000], [0x8000_0000, 0], [0, broken], [broken, 0], [1, 0]]);
        }
    }
}

fn spoil_text(random: &mut Random, text: &mut Vec<u8>) {
    let place = random.below(text.len());
    match random.below(6) {
        0 => text.push(1),
        1 => text.push(0),
        2 => text[place] ^= 1,
        3 => text.truncate(place),
        4 => *text = cubes::text_of(random, 65_537),
        _ => *text = vec![0; random.pick(&[0, 1, 4, 6])],
    }
}

/// A buffer: exactly long enough, one byte short, longer, or any length below.
fn room(random: &mut Random, length: usize) -> usize {
    let below = random.below(length.min(LONGEST));
    match random.below(6) {
        _ if length > LONGEST => below,
        0 => length - 1,
        1 => below,
        2 => length + 1 + random.below(300),
        _ => length,
    }
}

/// Makes a cube, and opens what was made.
fn make_and_open(trial: &mut Trial, description: &Description, text: &[u8], fill: Fill) {
    let length = made_length(description, text, fill);
    let room = room(&mut trial.random, length);
    let Ok(file) = trial.make(description, text, fill, room) else { return };
    let record = trial.open(&file).expect("a made cube opens");
    assert_eq!((record.version, record.description, record.text as usize), (3, *description, text.len()));
}

/// How long the file gets, or an arbitrary length where making is refused.
fn made_length(description: &Description, text: &[u8], fill: Fill) -> usize {
    match reader::make(0, description, text, fill) {
        Err(refusal) if refusal.number == 18 => {
            let headers = reader::record_of(3, *description, text.len() as u32, 0);
            let brick = reader::brick_bytes(description);
            let bricks = u64::from(headers.bricks) * brick;
            let length = if fill == Fill::Stored { headers.header.next_multiple_of(brick) + bricks } else { headers.header };
            length as usize
        }
        _ => 3000,
    }
}

#[test]
fn made_cubes_agree() {
    let trial = run(701, MAKING.calls, |trial, case| {
        let random = &mut trial.random;
        let limits = any_limits(random);
        let mut description = cubes::description(random, limits);
        let mut text = if case % 400 == 0 { cubes::text_of(random, 65_536) } else { cubes::text(random, 9) };
        let spoiled = case % 2 == 0;
        for _ in 0..random.below(if spoiled { 3 } else { 1 }) {
            spoil(random, &mut description);
        }
        if spoiled && random.one_in(3) {
            spoil_text(random, &mut text);
        }
        let fill = random.pick(&[Fill::Constant, Fill::Stored]);
        make_and_open(trial, &description, &text, fill);
    });
    trial.assert_met(MAKING, &[Call::Make], 100);
}

/// All sets of faults that making can have: the first in the order of checks refuses.
#[test]
fn of_several_faults_the_first_refuses() {
    const ORDER: [u32; 8] = [4, 5, 6, 7, 8, 9, 11, 18];
    run(704, 256, |trial, set| {
        let faults: Vec<u32> = (0..8).filter(|n| set >> n & 1 == 1).map(|n| ORDER[n]).collect();
        let mut description = Description { side: [4; 3], size: [5; 3], range: [0, 1], ..Description::default() };
        let (mut text, mut room) = (vec![0; 5], 4096);
        for fault in &faults {
            match fault {
                4 => description.side[2] = 2,
                5 => description.datatype = 1,
                6 => description.size[1] = 0,
                7 => description.range = [1, 1],
                8 => description.size[0] = 1_048_576,
                9 => text.truncate(4),
                11 => text[0] = 65,
                _ => room = 300,
            }
        }
        for fill in [Fill::Constant, Fill::Stored] {
            let refused = trial.make(&description, &text, fill, room).map_err(|refusal| refusal.number).err();
            assert_eq!(refused, faults.first().copied(), "{faults:?}");
        }
    });
}

/// Every field that making writes beside the described ones, at its place in the file; all else is zero.
#[test]
fn what_is_not_described() {
    run(702, 1, |trial, _| {
        let description = Description {
            side: [4; 3],
            size: [3, 4, 2],
            range: [0, 1],
            orig: [1.5f32, -2.0, 0.25].map(f32::to_bits),
            inc: [0.1f32, f32::MAX, -3.0].map(f32::to_bits),
            ..Description::default()
        };
        let file = trial.make(&description, &[0; 5], Fill::Constant, 2431).unwrap();
        assert_eq!(file.len(), 2431);
        let words = |at: usize| -> [u32; 3] { std::array::from_fn(|d| reader::u32_at(&file, 9 + at + 4 * d)) };
        assert_eq!(words(106), [0; 3], "curorig");
        assert_eq!(words(118), [3, 4, 2], "cursize");
        assert_eq!(words(162), description.orig, "srvorig");
        assert_eq!(words(174), [0.1f32 * 3.0, f32::INFINITY, -6.0].map(f32::to_bits), "srvsize");
        assert_eq!(file[9 + 186], 3, "gdef");
        assert!(file[9 + 187..9 + 315].iter().all(|&byte| byte == 0), "control points");
        assert!(file[351..2423].iter().all(|&byte| byte == 0), "histogram and alpha table");
        assert_eq!(reader::u64_at(&file, 2423), 1 << 63);
    });
}

/// The limit of bricks, and the longest text.
#[test]
fn the_limits() {
    run(703, 1, |trial, _| {
        for size in [[8192 * 64, 1, 1], [1, 8192 * 64 + 1, 1], [1, 1, 8193 * 64], [1_048_576, 1, 1]] {
            let description = Description { side: [64; 3], size, range: [0, 1], ..Description::default() };
            let taken = trial.make(&description, &[0; 5], Fill::Constant, LONGEST);
            assert_eq!(
                taken.map(|file| file.len() % 8).map_err(|refusal| refusal.number),
                if size[0] == 8192 * 64 { Ok(7) } else { Err(8) }
            );
            // A file of gigabytes that no buffer here has room for.
            let _ = trial.make(&description, &[0; 5], Fill::Stored, 5000);
        }
        let description = Description { side: [4; 3], size: [5; 3], range: [0, 1], ..Description::default() };
        for length in [5, 6, 65_536, 65_537] {
            let text = cubes::text_of(&mut trial.random, length);
            for fill in [Fill::Constant, Fill::Stored] {
                make_and_open(trial, &description, &text, fill);
            }
        }
    });
}
