//! Reads and writes of regions: sections, slices, bricks and odd boxes, in each type.

use crate::cubes::{self, Type, TYPES};
use crate::plain::regions::{self as plain, Order, ORDERS};
use crate::table::{Goal, Report, Row, Times};
use std::hint::black_box;
use zgy::{Record, Region};

/// Which call is measured.
#[derive(Clone, Copy, PartialEq)]
pub enum Call {
    Raw,
    Float,
    Write,
}

/// A box of samples that people ask for.
struct Shape {
    name: &'static str,
    start: [u32; 3],
    count: [u32; 3],
    whole_bricks: bool,
}

/// A cube with the buffers of its calls, all touched before they are timed.
struct Bench {
    file: Vec<u8>,
    cube: Record,
    bytes: Vec<u8>,
    floats: Vec<f64>,
}

/// Bricks of this side in a cube of this many samples each way, which has to exceed 3 bricks.
const CUBES: [(u32, u32); 2] = [(64, 256), (8, 128)];

const SHAPES: usize = 10;

fn shapes(side: u32, n: u32) -> [Shape; SHAPES] {
    let (middle, face) = (n / 2 + side / 4, side - 2);
    let shape = |name, start, count| Shape { name, start, count, whole_bricks: false };
    let bricks = |name, count| Shape { name, start: [side; 3], count: [count; 3], whole_bricks: true };
    [
        shape("one sample", [middle; 3], [1; 3]),
        shape("3x3x3 in a brick", [middle; 3], [3; 3]),
        shape("3x3x3 over 8 bricks", [face; 3], [3; 3]),
        shape("one trace", [middle, middle, 0], [1, 1, n]),
        shape("inline section", [middle, 0, 0], [1, n, n]),
        shape("crossline section", [0, middle, 0], [n, 1, n]),
        shape("vertical slice", [0, 0, middle], [n, n, 1]),
        bricks("one brick", side),
        bricks("2x2x2 bricks", 2 * side),
        shape("unaligned box", [5, 3, 7], [97, 101, 103]),
    ]
}

impl Call {
    fn name(self) -> &'static str {
        match self {
            Call::Raw => "raw read",
            Call::Float => "float read",
            Call::Write => "write",
        }
    }

    fn goal(self, shape: &Shape) -> Goal {
        match self {
            Call::Raw => Goal { plain: Some(1.1), memcpy: shape.whole_bricks.then_some(1.25) },
            Call::Float => Goal { plain: Some(1.1), memcpy: None },
            Call::Write => Goal::default(),
        }
    }
}

impl Bench {
    fn new(side: u32, n: u32, datatype: u8, most: usize) -> Self {
        let (file, cube) = cubes::stored(side, [n; 3], datatype);
        let mut bytes = vec![1; most * cube.item_bytes()];
        cubes::fill_with_noise(&mut bytes, datatype);
        Bench { file, cube, bytes, floats: vec![1.0; most] }
    }

    fn library(&mut self, call: Call, region: Region) {
        let Bench { file, cube, bytes, floats } = black_box(self);
        let region = black_box(region);
        let done = match call {
            Call::Raw => cube.read_raw(bytes, file, region),
            Call::Float => cube.read_float(floats, file, region),
            Call::Write => cube.write(file, region, bytes),
        };
        black_box(done.expect("the library takes the region"));
    }

    fn plain(&mut self, call: Call, region: Region, order: Order) {
        let Bench { file, cube, bytes, floats } = black_box(self);
        let region = black_box(region);
        let done = match call {
            Call::Raw => plain::read_raw(bytes, file, cube, &region, order),
            Call::Float => plain::read_float(floats, file, cube, &region, order),
            Call::Write => plain::write(file, bytes, cube, &region, order),
        };
        black_box(done.expect("plain Rust takes the region"));
    }

    /// As many bytes as the region has, from the first brick on.
    fn memcpy(&mut self, call: Call, region: Region) {
        let Bench { file, cube, bytes, .. } = black_box(self);
        let n = region.samples() as usize * cube.item_bytes();
        let bytes = &mut bytes[..n];
        let bricks = &mut file[cubes::first_brick(cube)..][..n];
        match call {
            Call::Write => bricks.copy_from_slice(bytes),
            _ => bytes.copy_from_slice(bricks),
        }
        black_box(bytes);
    }

    /// Both leave the same bytes and floats, in the buffers and in the file.
    fn agree(&mut self, call: Call, region: Region) -> bool {
        self.clear(call);
        self.library(call, region);
        let results = self.results(call);
        ORDERS.into_iter().all(|order| {
            self.clear(call);
            self.plain(call, region, order);
            results == self.results(call)
        })
    }

    /// Forgets what an earlier call left where this one puts its results.
    fn clear(&mut self, call: Call) {
        match call {
            Call::Raw => self.bytes.fill(0xAA),
            Call::Float => self.floats.fill(-1.0),
            Call::Write => self.file[self.cube.header as usize..].fill(0xAA),
        }
    }

    fn results(&self, call: Call) -> Vec<u64> {
        let words = |bytes: &[u8]| bytes.chunks(8).map(|b| b.iter().fold(0, |sum, &b| sum << 8 | u64::from(b))).collect();
        match call {
            Call::Raw => words(&self.bytes),
            Call::Float => self.floats.iter().map(|sample| sample.to_bits()).collect(),
            Call::Write => words(&self.file),
        }
    }
}

/// One table for each side: all shapes in all types.
pub fn run(report: &mut Report, call: Call) {
    for (side, n) in CUBES {
        report.title(&format!("{}: bricks of {side}, cube of {n}x{n}x{n}", call.name()), "plain Rust");
        for kind in TYPES {
            run_type(report, call, side, n, kind);
        }
    }
    growing_regions(report, call);
    growing_cubes(report, call);
    each_level(report, call);
}

fn run_type(report: &mut Report, call: Call, side: u32, n: u32, kind: Type) {
    let shapes = shapes(side, n);
    let samples = |shape: &Shape| shape.count.iter().map(|&n| n as usize).product();
    let mut bench = Bench::new(side, n, kind.datatype, shapes.iter().map(samples).max().unwrap_or(0));
    for shape in &shapes {
        let region = Region { level: 0, start: shape.start, count: shape.count };
        let name = format!("{} {}", kind.name, shape.name);
        measure(report, &mut bench, &name, call, region, Some(call.goal(shape)));
    }
}

/// One row of a call on a region; with a goal, or as one of regions that grow.
fn measure(report: &mut Report, bench: &mut Bench, name: &str, call: Call, region: Region, goal: Option<Goal>) -> Option<Times> {
    let plain = ORDERS.map(|order| move |bench: &mut Bench| bench.plain(call, region, order));
    let [by_bricks, by_inlines, by_runs] = &plain;
    let memcpy = |bench: &mut Bench| bench.memcpy(call, region);
    let row = Row {
        name,
        same: bench.agree(call, region),
        library: &|bench: &mut Bench| bench.library(call, region),
        plain: &[by_bricks, by_inlines, by_runs],
        // Floats are converted, so there are no same bytes to copy.
        memcpy: if call == Call::Float { None } else { Some(&memcpy) },
        goal: goal.unwrap_or_default(),
        samples: goal.is_none().then(|| region.samples()),
    };
    report.row(row, bench)
}

/// Times of things that grow, each divided by what it may grow with.
#[derive(Default)]
struct Growth {
    library: Vec<f64>,
    plain: Vec<f64>,
}

impl Growth {
    fn push(&mut self, times: Option<Times>, by: f64) {
        self.library.extend(times.map(|times| times.library / by));
        self.plain.extend(times.map(|times| times.plain / by));
    }

    /// The library's last is at most a quarter above its first or above plain Rust's last. The latter allows for caches that end,
    /// which both feel.
    fn is_sound(&self) -> bool {
        let Some(((first, last), plain)) = self.library.first().zip(self.library.last()).zip(self.plain.last()) else { return true };
        *last <= 1.25 * first.max(*plain)
    }
}

/// Regions that double: the time of a sample stays.
fn growing_regions(report: &mut Report, call: Call) {
    const FIRST: u32 = 16;
    const DOUBLINGS: usize = 12;
    report.title(&format!("{}: float32 regions that double, bricks of 64", call.name()), "plain Rust");
    let mut bench = Bench::new(64, 256, 6, 256 * 256 * 256);
    let mut growth = Growth::default();
    for doubling in 0..=DOUBLINGS {
        let count = [2, 1, 0].map(|first| FIRST << ((doubling + first) / 3));
        let region = Region { level: 0, start: [0; 3], count };
        let [a, b, c] = count;
        let times = measure(report, &mut bench, &format!("{a}x{b}x{c}"), call, region, None);
        growth.push(times, region.samples() as f64);
    }
    report.goal("time per sample grows no more than plain Rust's", growth.is_sound());
}

/// One small region in cubes that grow: its time stays, but for the levels, which the checks go through.
fn growing_cubes(report: &mut Report, call: Call) {
    report.title(&format!("{}: 3x3x3 of int8 in cubes that grow, bricks of 4", call.name()), "plain Rust");
    let region = Region { level: 0, start: [0; 3], count: [3; 3] };
    let mut growth = Growth::default();
    for n in [4, 8, 16, 32, 64, 80] {
        let mut bench = Bench::new(4, n, 0, 27);
        let name = format!("cube of {n}x{n}x{n}, {} bricks", bench.cube.bricks);
        growth.push(measure(report, &mut bench, &name, call, region, None), 1.0);
    }
    report.goal("time of a region grows with the cube no more than plain Rust's", growth.is_sound());
}

/// One small region at each level: its time stays, but for the levels below, whose bricks the call takes off the table's.
fn each_level(report: &mut Report, call: Call) {
    report.title(&format!("{}: 3x3x3 of int8 at each level, bricks of 8, cube of 128x128x128", call.name()), "plain Rust");
    let mut bench = Bench::new(8, 128, 0, 27);
    let mut growth = Growth::default();
    for level in 0..bench.cube.levels {
        let region = Region { level, start: [0; 3], count: [3; 3] };
        growth.push(measure(report, &mut bench, &format!("level {level}"), call, region, None), 1.0);
    }
    report.goal("time of a region grows with its level no more than plain Rust's", growth.is_sound());
}
