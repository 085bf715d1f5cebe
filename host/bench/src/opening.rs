//! Opening, whose cost is the brick table's: by how many bricks there are, and how they lie in the file.

use crate::cubes::{self, Bits, TEXT};
use crate::plain::{layout, open};
use crate::table::{Goal, Report, Row};
use std::hint::black_box;
use zgy::{Cube, Fill};

/// Bricks of 4 x 4 x 4 int8: the smallest there are.
const BRICK: usize = 64;

/// How the bricks of a file lie.
struct Layout {
    name: &'static str,
    goal: Option<f64>,
    /// How far apart bricks are, in bricks' lengths: more than 1 leaves gaps.
    apart: usize,
    arrange: fn(&mut [u64]),
}

const LAYOUTS: [Layout; 6] = [
    Layout { name: "sorted", goal: None, apart: 1, arrange: |_| {} },
    Layout { name: "reversed", goal: None, apart: 1, arrange: |offsets| offsets.reverse() },
    Layout { name: "shuffled", goal: Some(2.0), apart: 1, arrange: shuffle },
    Layout { name: "shuffled, last overlaps", goal: None, apart: 1, arrange: overlap_last },
    Layout { name: "shuffled, 100 bricks apart", goal: None, apart: 100, arrange: shuffle },
    Layout { name: "shuffled, 1000 bricks apart", goal: None, apart: 1000, arrange: shuffle },
];

fn shuffle(offsets: &mut [u64]) {
    let mut bits = Bits(2);
    for n in (1..offsets.len()).rev() {
        offsets.swap(n, bits.below(n + 1));
    }
}

/// Refused by check 13, at the last entry.
fn overlap_last(offsets: &mut [u64]) {
    shuffle(offsets);
    if let [first, .., last] = offsets {
        *last = *first;
    }
}

/// A cube of so many bricks in its lowest level, in one row; the levels above have about as many again.
fn cube(bricks: u32, layout: &Layout) -> Vec<u8> {
    let description = cubes::description(4, [4 * bricks, 4, 4], 0);
    let counts = layout::counts(&description);
    let table = layout::table_at(TEXT.len() as u64, counts.alphas) as usize;
    let first = cubes::room(&description, TEXT) - counts.bricks as usize * BRICK;
    // Memory that is never touched takes no room, so gaps cost nothing.
    let mut file = vec![0; first + counts.bricks as usize * BRICK * layout.apart];
    Cube::make(&mut file, &description, TEXT, Fill::Stored).expect("a cube is made");
    let mut offsets: Vec<_> = (0..counts.bricks as usize).map(|n| (first + n * BRICK * layout.apart) as u64).collect();
    (layout.arrange)(&mut offsets);
    for (entry, offset) in file[table..].chunks_exact_mut(8).zip(offsets) {
        entry.copy_from_slice(&offset.to_le_bytes());
    }
    file
}

pub fn run(report: &mut Report) {
    report.title("opening: bricks of 4x4x4 int8, by how they lie in the file", "plain Rust");
    for (bricks, layouts) in [(1, &LAYOUTS[..1]), (512, &LAYOUTS[..3]), (8192, &LAYOUTS[..])] {
        for layout in layouts {
            let mut file = cube(bricks, layout);
            let name = format!("{} bricks {}", 2 * bricks - 1, layout.name);
            let same = Cube::open(&file) == open::open(&file);
            let library = |file: &mut Vec<u8>| _ = black_box(Cube::open(black_box(file)));
            let plain = |file: &mut Vec<u8>| _ = black_box(open::open(black_box(file)));
            let goal = Goal { plain: layout.goal, memcpy: None };
            report.row(
                Row { name: &name, same, library: &library, plain: &[&plain], memcpy: None, goal, samples: None },
                &mut file,
            );
        }
    }
}
