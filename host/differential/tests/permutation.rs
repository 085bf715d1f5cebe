//! The version 1 brick order: every legal brick both ways, and illegal ones.

use differential::reader::{self, Way};
use differential::tally::Call;
use differential::trial::{run, Trial};
use differential::{Least, PERMUTATION};

const WAYS: [Way; 2] = [Way::ToPlain, Way::ToSubtiled];

fn back(way: Way) -> Way {
    match way {
        Way::ToPlain => Way::ToSubtiled,
        Way::ToSubtiled => Way::ToPlain,
    }
}

/// There and back, with exact and longer buffers, and refused with ones that are too short by a byte.
fn both_ways(trial: &mut Trial, side: [u32; 3], width: u32) {
    let length = (side.iter().product::<u32>() * width) as usize;
    let brick = trial.random.bytes(length + 5);
    for way in WAYS {
        let moved = trial.permute(&brick[..length], side, width, way, length).unwrap();
        let again = trial.permute(&brick, side, width, way, length + 7).unwrap();
        assert_eq!(moved, again, "bytes past the brick do not matter");
        let returned = trial.permute(&moved, side, width, back(way), length).unwrap();
        assert_eq!(returned, brick[..length], "there and back");
        let _ = trial.permute(&brick[..length - 1], side, width, way, length);
        let _ = trial.permute(&brick, side, width, way, length - 1);
        let _ = trial.permute(&[], side, width, way, 0);
    }
}

#[test]
fn all_legal_bricks() {
    let sides = [8, 16, 32, 64];
    let trial = run(801, 80, |trial, case| {
        let n = case as usize;
        let side = [sides[n % 4], sides[n / 4 % 4], [4, 8, 16, 32, 64][n / 16]];
        for width in [1, 2, 4] {
            both_ways(trial, side, width);
        }
    });
    trial.assert_met(Least { cubes: 0, calls: 2_880 }, &[], 0);
}

/// All of these sides and widths together, with buffers that suit small bricks: refused by 20, or 18, or taken.
#[test]
fn illegal_bricks() {
    const SIDES: [u32; 17] = [0, 1, 2, 3, 4, 5, 7, 8, 9, 12, 16, 32, 64, 65, 128, 1 << 31, u32::MAX];
    let trial = run(802, SIDES.len() as u64, |trial, case| {
        let brick = trial.random.bytes(4096);
        for second in SIDES {
            for third in SIDES {
                for width in [0, 1, 2, 3, 4, 5, 8, u32::MAX] {
                    for way in WAYS {
                        let room = trial.random.pick(&[0, 255, 256, 511, 512, 1024, 4096, 4096, 4096]);
                        let lent = trial.random.pick(&[0, 255, 256, 4096, 4096, 4096]);
                        let _ = trial.permute(&brick[..lent], [SIDES[case as usize], second, third], width, way, room);
                    }
                }
            }
        }
    });
    trial.assert_met(PERMUTATION, &[Call::ToPlain, Call::ToSubtiled], 5);
}

#[test]
fn worked_number_7() {
    let (side, place) = ([16, 16, 4], [9, 3, 2]);
    assert_eq!((reader::subtiled_item(place, side), reader::plain_item(place, side)), (558, 590));
    run(803, 1, |trial, _| {
        let mut brick = vec![0; 1024];
        brick[558] = 77;
        let plain = trial.permute(&brick, [16, 16, 4], 1, Way::ToPlain, 1024).unwrap();
        assert_eq!((plain[590], plain.iter().filter(|&&byte| byte != 0).count()), (77, 1));
    });
}
