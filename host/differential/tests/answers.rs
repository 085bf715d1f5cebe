//! The answers as a C host sees them: where a call is refused, all fields but its two numbers are zero.
//!
//! The wrapper does not show these fields, so the calls are declared here once more, in the header's words.

use differential::arguments;
use differential::cubes;
use differential::reader;
use differential::trial::run;
use zgy::{Description, Record, Region};

#[repr(C)]
struct Opened {
    number: u32,
    entry: u32,
    cube: Record,
}

#[repr(C)]
struct Kind {
    number: u32,
    entry: u32,
    kind: u32,
    value: f64,
    offset: u64,
}

#[repr(C)]
struct View {
    number: u32,
    entry: u32,
    source: u32,
    offset: u64,
    length: u64,
}

#[repr(C)]
struct Str {
    number: u32,
    entry: u32,
    found: u32,
    offset: u64,
    length: u64,
}

#[repr(C)]
struct Done {
    number: u32,
    entry: u32,
    count: u64,
}

#[repr(C)]
struct Position {
    number: u32,
    entry: u32,
    value: f64,
}

extern "C" {
    fn zgy_open(file: *const u8, length: usize) -> Opened;
    fn zgy_brick_kind(file: *const u8, length: usize, cube: Record, entry: u32) -> Kind;
    fn zgy_brick_view(file: *const u8, length: usize, filler: *const u8, room: usize, cube: Record, entry: u32) -> View;
    fn zgy_read_raw(out: *mut u8, room: usize, file: *const u8, length: usize, cube: Record, region: Region) -> Done;
    fn zgy_read_float(out: *mut f64, room: usize, file: *const u8, length: usize, cube: Record, region: Region) -> Done;
    fn zgy_write(file: *mut u8, length: usize, input: *const u8, room: usize, cube: Record, region: Region) -> Done;
    fn zgy_position(cube: Record, dimension: u32, index: u32) -> Position;
    fn zgy_string(file: *const u8, length: usize, cube: Record, number: u32) -> Str;
    fn zgy_make(out: *mut u8, room: usize, description: Description, text: *const u8, length: usize, fill: u32) -> Done;
    fn zgy_to_plain(out: *mut u8, room: usize, brick: *const u8, length: usize, a: u32, b: u32, c: u32, width: u32) -> Done;
    fn zgy_to_subtiled(out: *mut u8, room: usize, brick: *const u8, length: usize, a: u32, b: u32, c: u32, width: u32) -> Done;
}

/// The second number belongs to refusals 12, 13 and 19 alone.
fn assert_numbers(number: u32, entry: u32) {
    assert!(number <= 20, "there is no number {number}");
    assert!(entry == 0 || [12, 13, 19].contains(&number), "{number} names entry {entry}");
}

fn assert_done(done: Done) {
    assert_numbers(done.number, done.entry);
    assert_eq!(done.number == 0, done.count > 0, "a count exactly where the call is taken");
}

/// Each kind of brick fills its own field and leaves the other zero.
fn assert_kind(kind: Kind) {
    assert_numbers(kind.number, kind.entry);
    match (kind.number, kind.kind) {
        (0, 1) => assert_eq!(kind.offset, 0),
        (0, 2) => assert_eq!(kind.value.to_bits(), 0),
        (_, 0) => assert_eq!((kind.value.to_bits(), kind.offset), (0, 0)),
        (number, kind) => panic!("{number} with kind {kind}"),
    }
}

fn assert_view(view: View) {
    assert_numbers(view.number, view.entry);
    match (view.number, view.source) {
        (0, 1) => assert!(view.offset >= 346 && view.length > 0),
        (0, 2) => assert!(view.offset == 0 && view.length > 0),
        (0, source) => panic!("taken with source {source}"),
        (_, source) => assert_eq!((source, view.offset, view.length), (0, 0, 0)),
    }
}

/// Refused, and after the fifth, there is no string.
fn assert_string(string: Str, place: u32) {
    assert_numbers(string.number, string.entry);
    assert_eq!(string.found, u32::from(string.number == 0 && place < 5));
    if string.found == 0 {
        assert_eq!((string.offset, string.length), (0, 0));
    }
}

fn assert_opened(opened: &Opened) {
    assert_numbers(opened.number, opened.entry);
    if opened.number != 0 {
        let nothing: Record = unsafe { std::mem::zeroed() };
        assert_eq!(reader::by_bits(&opened.cube), reader::by_bits(&nothing), "refused {}", opened.number);
    }
}

#[test]
fn refused_openings_hold_no_record() {
    run(1101, 20_000, |trial, _| {
        let cube = cubes::sound(&mut trial.random, cubes::SMALL);
        let mut file = cube.file.clone();
        differential::damage::damage(&mut trial.random, &cube, &mut file);
        assert_opened(&unsafe { zgy_open(file.as_ptr(), file.len()) });
    });
}

#[test]
fn refused_calls_hold_nothing() {
    run(1102, 6_000, |trial, _| {
        let random = &mut trial.random;
        let cube = cubes::sound(random, cubes::SMALL);
        let mut file = cube.file;
        arguments::edit_table(random, &mut file, &cube.record);
        let (mut out, mut floats) = (vec![0; 20_000], vec![0.0; 5_000]);
        for _ in 0..4 {
            let (record, region) = (arguments::record(random, &cube.record), arguments::region(random, &cube.record));
            let entry = arguments::entry(random, &cube.record);
            let filler = arguments::filler(random, &file, &cube.record, entry);
            let (bytes, length, room) = (file.as_mut_ptr(), file.len(), random.below(5_000));
            unsafe {
                assert_kind(zgy_brick_kind(bytes, length, record, entry));
                assert_view(zgy_brick_view(bytes, length, filler.as_ptr(), filler.len(), record, entry));
                assert_done(zgy_read_raw(out.as_mut_ptr(), room, bytes, length, record, region));
                assert_done(zgy_read_float(floats.as_mut_ptr(), room, bytes, length, record, region));
                assert_done(zgy_write(bytes, length, out.as_ptr(), room, record, region));
                let place = random.between(0, 6);
                assert_string(zgy_string(bytes, length, record, place), place);
                let position = zgy_position(record, random.between(0, 3), random.between(0, 20));
                assert_numbers(position.number, position.entry);
                assert!(position.number == 0 || position.value.to_bits() == 0);
            }
        }
    });
}

#[test]
fn refused_makings_and_moves_hold_nothing() {
    run(1104, 3_000, |trial, _| {
        let random = &mut trial.random;
        let mut description = cubes::description(random, cubes::SMALL);
        description.datatype = random.pick(&[0, 1, 2, 6]);
        let (mut out, text, brick) = (vec![0; 4_096], vec![0; 6], vec![0; 4_096]);
        let (room, length) = (random.below(4_096), random.pick(&[4, 5, 6]));
        let (side, width) = (random.pick(&[4, 8, 16]), random.pick(&[1, 2, 3]));
        unsafe {
            assert_done(zgy_make(out.as_mut_ptr(), room, description, text.as_ptr(), length, 0));
            assert_done(zgy_to_plain(out.as_mut_ptr(), room, brick.as_ptr(), brick.len(), side, 8, 4, width));
            assert_done(zgy_to_subtiled(out.as_mut_ptr(), room, brick.as_ptr(), brick.len(), 8, side, 8, width));
        }
    });
}

/// Every fill but 0 is that of stored bricks.
#[test]
fn any_other_fill_is_stored() {
    run(1103, 200, |trial, _| {
        let description = cubes::description(&mut trial.random, cubes::SMALL);
        let made = |fill: u32| {
            let mut out = vec![0xA5; 300_000];
            let done = unsafe { zgy_make(out.as_mut_ptr(), out.len(), description, [0; 5].as_ptr(), 5, fill) };
            out.truncate(done.count as usize);
            assert_done(done);
            out
        };
        let stored = made(1);
        assert!(made(0).len() < stored.len());
        for fill in [2, 255, 256, 1 << 31, u32::MAX] {
            assert!(made(fill) == stored, "fill {fill}");
        }
    });
}
