//! The calls that move no region: brick kind and view, position, strings, making, and the version 1 brick order.

use crate::cubes::{self, Type, TEXT, TYPES};
use crate::plain::layout;
use crate::plain::others::{self as plain, Way};
use crate::table::{Goal, Job, Report, Row};
use std::hint::black_box;
use zgy::{Cube, Fill, Record};

/// A cube of two levels in bricks of 64, whose entry 1, the first brick of level 0, is constant; and a filler for that one.
struct Bench {
    file: Vec<u8>,
    cube: Record,
    filler: Vec<u8>,
}

const STORED: u32 = 0;
const CONSTANT: u32 = 1;

impl Bench {
    fn new(kind: Type) -> Self {
        let (mut file, _) = cubes::stored(64, [128, 64, 64], kind.datatype);
        let cube = Cube::open(&file).expect("a made cube opens");
        let entry = layout::table_at(cube.text.into(), cube.alphas.into()) as usize + 8 * CONSTANT as usize;
        let item = &[0x11, 0x22, 0x33, 0x44][..cube.item_bytes()];
        file[entry..entry + 8].copy_from_slice(&(1u64 << 63).to_le_bytes());
        file[entry..entry + item.len()].copy_from_slice(item);
        Bench { file, cube, filler: item.repeat(64 * 64 * 64) }
    }
}

/// A row without a goal.
fn row<S>(report: &mut Report, name: &str, same: bool, state: &mut S, library: Job<S>, plain: Job<S>) {
    report.row(Row { name, same, library, plain: &[plain], memcpy: None, goal: Goal::default(), samples: None }, state);
}

/// A row of two answers, which are compared first.
fn answers<A: PartialEq>(
    report: &mut Report,
    name: &str,
    bench: &mut Bench,
    library: impl Fn(&Bench) -> A,
    plain: impl Fn(&Bench) -> A,
) {
    let same = library(bench) == plain(bench);
    let library = |bench: &mut Bench| _ = black_box(library(black_box(bench)));
    let plain = |bench: &mut Bench| _ = black_box(plain(black_box(bench)));
    row(report, name, same, bench, &library, &plain);
}

pub fn run(report: &mut Report) {
    report.title("brick kind and view, position and strings: bricks of 64", "plain Rust");
    for kind in TYPES {
        lookups(report, kind);
    }
    report.title("make", "plain Rust");
    make(report);
    report.title("version 1 brick order: a brick of 64x64x64", "plain Rust");
    for kind in TYPES {
        permutation(report, kind, Way::ToPlain);
        permutation(report, kind, Way::ToSubtiled);
    }
}

fn lookups(report: &mut Report, kind: Type) {
    let bench = &mut Bench::new(kind);
    for (what, entry) in [("stored", STORED), ("constant", CONSTANT)] {
        let entry = black_box(entry);
        let library = |b: &Bench| b.cube.brick_kind(&b.file, entry);
        let plain = |b: &Bench| plain::brick_kind(&b.cube, &b.file, entry);
        answers(report, &format!("{} brick kind, {what}", kind.name), bench, library, plain);
        // A view is compared by where it is: it has to be the same part of the same buffer.
        let library = |b: &Bench| b.cube.brick_view(&b.file, &b.filler, entry).map(<[u8]>::as_ptr_range);
        let plain = |b: &Bench| plain::brick_view(&b.cube, &b.file, &b.filler, entry).map(<[u8]>::as_ptr_range);
        answers(report, &format!("{} brick view, {what}", kind.name), bench, library, plain);
    }
    let (dimension, index) = black_box((1, 3));
    let library = |b: &Bench| b.cube.position(dimension, index);
    let plain = |b: &Bench| plain::position(&b.cube, dimension, index);
    answers(report, &format!("{} position", kind.name), bench, library, plain);
    for number in [0, 4] {
        let number = black_box(number);
        let library = |b: &Bench| b.cube.string(&b.file, number).map(|found| found.map(<[u8]>::as_ptr_range));
        let plain = |b: &Bench| plain::string(&b.cube, &b.file, number).map(|found| found.map(<[u8]>::as_ptr_range));
        answers(report, &format!("{} string {number}", kind.name), bench, library, plain);
    }
}

fn make(report: &mut Report) {
    for (side, size) in [(64, [64; 3]), (64, [256; 3]), (4, [32768, 4, 4])] {
        for fill in [Fill::Constant, Fill::Stored] {
            let description = cubes::description(side, size, 0);
            let out = &mut vec![0xAA; cubes::room(&description, TEXT)];
            let name = format!("int8 {fill:?}, bricks of {side}, {}x{}x{}", size[0], size[1], size[2]);
            let library = |out: &mut Vec<u8>| _ = black_box(Cube::make(black_box(out), &description, TEXT, fill));
            let plain = |out: &mut Vec<u8>| _ = black_box(plain::make(black_box(out), &description, TEXT, fill));
            let same = same_bytes(out, &library, &plain);
            row(report, &name, same, out, &library, &plain);
        }
    }
}

fn permutation(report: &mut Report, kind: Type, way: Way) {
    const SIDE: [u32; 3] = [64; 3];
    let (file, cube) = cubes::stored(64, SIDE, kind.datatype);
    let brick = &file[file.len() - layout::brick_bytes(&cube.description) as usize..];
    let width = cube.item_bytes() as u32;
    let out = &mut vec![0; brick.len()];
    let (name, call) = match way {
        Way::ToPlain => ("to plain", zgy::to_plain as fn(&mut [u8], &[u8], [u32; 3], u32) -> _),
        Way::ToSubtiled => ("to subtiled", zgy::to_subtiled as _),
    };
    let name = format!("{} {name}", kind.name);
    let library = |out: &mut Vec<u8>| _ = black_box(call(black_box(out), black_box(brick), SIDE, width));
    let plain = |out: &mut Vec<u8>, together| {
        _ = black_box(plain::permute(black_box(out), black_box(brick), SIDE, width, way, together));
    };
    let runs = |out: &mut Vec<u8>| plain(out, 1);
    let eights = |out: &mut Vec<u8>| plain(out, 8);
    let memcpy = |out: &mut Vec<u8>| black_box(out).copy_from_slice(black_box(brick));
    let same = same_bytes(out, &library, &runs) && same_bytes(out, &library, &eights);
    let plain: &[Job<Vec<u8>>] = &[&runs, &eights];
    let row = Row { name: &name, same, library: &library, plain, memcpy: Some(&memcpy), goal: Goal::default(), samples: None };
    report.row(row, out);
}

/// Both jobs leave the same bytes.
fn same_bytes(out: &mut Vec<u8>, library: Job<Vec<u8>>, plain: Job<Vec<u8>>) -> bool {
    let mut left = |job: Job<Vec<u8>>| {
        out.fill(0xAA);
        job(out);
        out.clone()
    };
    left(library) == left(plain)
}
