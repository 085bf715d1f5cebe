//! The library against an independent reader, on many cubes and calls.
//!
//! Each test runs numbered cases of a fixed seed. A failing test says which;
//! `ZGY_CASE=<case> cargo test --release -p differential --test <file> <name>` runs that case alone. The buffers that a
//! [`trial::Trial`] lends to the library touch a page that nobody may touch.

pub mod arguments;
pub mod cubes;
pub mod damage;
pub mod guard;
pub mod ledger;
pub mod numbered;
pub mod random;
pub mod reader;
pub mod tally;
pub mod trial;

/// The least cubes opened and other calls made by a topic's tests. Each topic asserts its own.
#[derive(Clone, Copy, Debug)]
pub struct Least {
    pub cubes: u64,
    pub calls: u64,
}

pub const SOUND_OPENINGS: Least = Least { cubes: 60_000, calls: 0 };
pub const DAMAGED_OPENINGS: Least = Least { cubes: 300_000, calls: 0 };
pub const CALLS: Least = Least { cubes: 16_000, calls: 350_000 };
pub const RECORDS: Least = Least { cubes: 100, calls: 40_000 };
pub const POSITIONS: Least = Least { cubes: 10_000, calls: 100_000 };
pub const STRINGS: Least = Least { cubes: 5_000, calls: 40_000 };
pub const MAKING: Least = Least { cubes: 4_000, calls: 20_000 };
pub const PERMUTATION: Least = Least { cubes: 0, calls: 20_000 };
pub const LISTS: Least = Least { cubes: 4_000, calls: 100_000 };

const ALL: [Least; 9] = [SOUND_OPENINGS, DAMAGED_OPENINGS, CALLS, RECORDS, POSITIONS, STRINGS, MAKING, PERMUTATION, LISTS];

/// What all topics together promise.
const fn total() -> Least {
    let mut sum = Least { cubes: 0, calls: 0 };
    let mut n = 0;
    while n < ALL.len() {
        sum = Least { cubes: sum.cubes + ALL[n].cubes, calls: sum.calls + ALL[n].calls };
        n += 1;
    }
    sum
}

const _: () = assert!(total().cubes >= 100_000 && total().calls >= 100_000);
