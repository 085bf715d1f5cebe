//! The bricks of a level in a direction, which are one number three ways: size / (side x 2^level), rounded up; those of the level
//! below, halved and rounded up; and the level's extent / side, rounded up. Reads show what the library makes of it: in a cube whose
//! entry n is the constant n, the last sample of a level reads as the level's last entry.

use differential::numbered::{described, numbered};
use differential::random::Random;
use differential::tally::Call;
use differential::trial::{run, Trial};
use zgy::{Description, Fill, Refusal, Region};

const SIDES: [u32; 5] = [4, 8, 16, 32, 64];

/// A size and a side, and the bricks of each level from 0 on, counted by hand.
const BY_HAND: [(u32, u32, &[u32]); 12] = [
    (1, 4, &[1]),
    (4, 4, &[1]),
    (5, 4, &[2, 1]),
    (9, 4, &[3, 2, 1]),
    (64, 4, &[16, 8, 4, 2, 1]),
    (65, 4, &[17, 9, 5, 3, 2, 1]),
    (129, 8, &[17, 9, 5, 3, 2, 1]),
    (1000, 16, &[63, 32, 16, 8, 4, 2, 1]),
    (96, 32, &[3, 2, 1]),
    (65, 64, &[2, 1]),
    (448, 64, &[7, 4, 2, 1]),
    (524_225, 64, &[8192, 4096, 2048, 1024, 512, 256, 128, 64, 32, 16, 8, 4, 2, 1]),
];

fn refused(number: u32) -> Refusal {
    Refusal { number, entry: 0 }
}

/// The bricks of the levels, each the level below's halved, up to and with the first that has one brick.
fn halved(mut bricks: [u32; 3]) -> Vec<[u32; 3]> {
    let mut levels = vec![bricks];
    while bricks != [1; 3] {
        bricks = bricks.map(|n| n.div_ceil(2));
        levels.push(bricks);
    }
    levels
}

/// Of a level's bricks in each direction: the last sample of the level reads as the level's last entry, and next to it there is none.
fn assert_levels(trial: &mut Trial, description: &Description, levels: &[[u32; 3]]) {
    let (file, record) = numbered(trial, description);
    assert_eq!(record.levels as usize, levels.len());
    let mut entries = 0;
    for (level, bricks) in levels.iter().enumerate().rev() {
        entries += bricks.iter().product::<u32>();
        let extent = description.size.map(|size| size.div_ceil(1 << level));
        let last = Region { level: level as u32, start: extent.map(|n| n - 1), count: [1; 3] };
        let entry = (entries - 1) as u16;
        assert_eq!(trial.read_raw(&record, &file, last, 2), Ok(entry.to_le_bytes().to_vec()), "level {level}");
        for direction in 0..3 {
            let mut past = last;
            past.start[direction] += 1;
            assert_eq!(trial.read_raw(&record, &file, past, 2), Err(refused(16)), "level {level}, direction {direction}");
        }
    }
    let alphas: u32 = levels.iter().map(|[inline, crossline, _]| inline * crossline).sum();
    assert_eq!((record.bricks, record.alphas), (entries, alphas));
}

/// In each direction, with one sample in the two others.
#[test]
fn counted_by_hand() {
    run(1301, 1, |trial, _| {
        for (size, side, bricks) in BY_HAND {
            for direction in 0..3 {
                let along = |n| std::array::from_fn(|d| if d == direction { n } else { 1 });
                let levels: Vec<_> = bricks.iter().map(|&n| along(n)).collect();
                let sides = std::array::from_fn(|d| if d == direction { side } else { 4 });
                assert_levels(trial, &described(along(size), sides, 2), &levels);
            }
        }
    });
}

/// One sample more than 8,192 bricks of side 64 makes 8,193 + 4,097 + 2,049 + 1,025 + 513 + 257 + 129 + 65 + 33 + 17 + 9 + 5 + 3 + 2 + 1
/// bricks, which are 16,398; one fewer makes 16,383.
#[test]
fn one_sample_past_the_brick_limit() {
    run(1302, 1, |trial, _| {
        let headers = 346 + 5 + 2064 + 8 * (16_383 + 16_383);
        let made = trial.make(&described([524_288, 1, 1], [64, 4, 4], 0), &[0; 5], Fill::Constant, headers);
        assert_eq!(made.map(|file| file.len()), Ok(headers));
        let too_many = trial.make(&described([524_289, 1, 1], [64, 4, 4], 0), &[0; 5], Fill::Constant, headers);
        assert_eq!(too_many, Err(refused(8)));
    });
}

/// A size at or beside a multiple of the side at some level.
fn size_at_an_edge(random: &mut Random, side: u32) -> u32 {
    let block = side << random.below(4);
    let edge = block * random.between(1, 5);
    edge - 1 + random.below(3) as u32
}

/// The three ways, worked out here, agree at each level, and the library's levels are these.
#[test]
fn three_ways_are_one_number() {
    let trial = run(1303, 1_500, |trial, _| {
        let side: [u32; 3] = trial.random.triple(|random| random.pick(&SIDES));
        let long = trial.random.below(3);
        let size = std::array::from_fn(|d| match d == long {
            true => size_at_an_edge(&mut trial.random, side[d]),
            false => trial.random.between(1, 3 * side[d]),
        });
        let levels = halved(std::array::from_fn(|d| size[d].div_ceil(side[d])));
        for (level, bricks) in levels.iter().enumerate() {
            for d in 0..3 {
                let doubled = side[d] << level;
                assert_eq!(bricks[d], (size[d] + doubled - 1) / doubled, "of the size, {size:?} by {side:?} at level {level}");
                assert_eq!(bricks[d], size[d].div_ceil(1 << level).div_ceil(side[d]), "of the extent, {size:?} by {side:?} at level {level}");
            }
        }
        assert_levels(trial, &described(size, side, 2), &levels);
    });
    trial.assert_numbers_met(&[Call::ReadRaw], &[0, 16], 4_000);
}
