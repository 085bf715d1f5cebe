//! What `include/zgy.h` declares, for Rust. Nothing compares these declarations with the library but the sizes below, the
//! header's own assertions and the differential tests, so they are kept in the header's order and words.

use std::mem::size_of;

/// What a cube is made from. Arrays of three are inline, crossline, vertical; `range`, `orig` and `inc` are the bits of 32-bit
/// floats, `hfactor` and `vfactor` those of 64-bit floats. Ids are in canonical order.
#[repr(C)]
#[derive(Clone, Copy, Debug, PartialEq, Eq)]
pub struct Description {
    pub side: [u32; 3],
    pub datatype: u8,
    pub range: [u32; 2],
    pub dataid: [u8; 16],
    pub verid: [u8; 16],
    pub previd: [u8; 16],
    pub srctype: u8,
    pub orig: [u32; 3],
    pub inc: [u32; 3],
    pub size: [u32; 3],
    pub hdim: u8,
    pub hfactor: u64,
    pub vdim: u8,
    pub vfactor: u64,
}

/// Orig, inc and coding range as floats; the range of type 6 is 0, 0.
#[repr(C)]
#[derive(Clone, Copy, Debug, PartialEq)]
pub struct Grid {
    pub orig: [f32; 3],
    pub inc: [f32; 3],
    pub min: f32,
    pub max: f32,
}

/// What opening says of a cube. Keep it beside the cube's bytes and pass it with them.
///
/// Entries number the bricks of all levels, as the brick table has them. The highest level's single brick is entry 0, the levels
/// below it follow in turn, and level 0 comes last: the last brick of level 0 is entry `bricks - 1`. Inside a level inline runs
/// fastest and vertical slowest.
#[repr(C)]
#[derive(Clone, Copy, Debug, PartialEq)]
pub struct Record {
    pub version: u32,
    pub description: Description,
    /// Bytes of the text section, which starts at byte 346.
    pub text: u32,
    pub grid: Grid,
    /// Where the headers end.
    pub header: u64,
    pub levels: u32,
    /// Entries of the brick table, over all levels.
    pub bricks: u32,
    /// Entries of the alpha table.
    pub alphas: u32,
    /// Bytes of the file.
    pub length: u64,
}

/// A box of samples of one level: where it starts and how many it has; inline, crossline, vertical.
#[repr(C)]
#[derive(Clone, Copy, Debug, PartialEq, Eq)]
pub struct Region {
    pub level: u32,
    pub start: [u32; 3],
    pub count: [u32; 3],
}

#[repr(C)]
#[derive(Clone, Copy)]
pub(crate) struct ZgyOpened {
    pub number: u32,
    pub entry: u32,
    pub cube: Record,
}

#[repr(C)]
#[derive(Clone, Copy)]
pub(crate) struct ZgyKind {
    pub number: u32,
    pub entry: u32,
    pub kind: u32,
    pub value: f64,
    pub offset: u64,
}

#[repr(C)]
#[derive(Clone, Copy)]
pub(crate) struct ZgyView {
    pub number: u32,
    pub entry: u32,
    pub source: u32,
    pub offset: u64,
    pub length: u64,
}

#[repr(C)]
#[derive(Clone, Copy)]
pub(crate) struct ZgyString {
    pub number: u32,
    pub entry: u32,
    pub found: u32,
    pub offset: u64,
    pub length: u64,
}

#[repr(C)]
#[derive(Clone, Copy)]
pub(crate) struct ZgyDone {
    pub number: u32,
    pub entry: u32,
    pub count: u64,
}

#[repr(C)]
#[derive(Clone, Copy)]
pub(crate) struct ZgyPosition {
    pub number: u32,
    pub entry: u32,
    pub value: f64,
}

// The sizes that the header asserts.
const _: () = assert!(size_of::<Description>() == 144);
const _: () = assert!(size_of::<Grid>() == 32);
const _: () = assert!(size_of::<Record>() == 224);
const _: () = assert!(size_of::<Region>() == 28);
const _: () = assert!(size_of::<ZgyOpened>() == 232);
const _: () = assert!(size_of::<ZgyKind>() == 32);
const _: () = assert!(size_of::<ZgyView>() == 32);
const _: () = assert!(size_of::<ZgyString>() == 32);
const _: () = assert!(size_of::<ZgyDone>() == 16);
const _: () = assert!(size_of::<ZgyPosition>() == 16);

extern "C" {
    pub(crate) fn zgy_open(file: *const u8, file_length: usize) -> ZgyOpened;
    pub(crate) fn zgy_brick_kind(file: *const u8, file_length: usize, cube: Record, entry: u32) -> ZgyKind;
    pub(crate) fn zgy_brick_view(
        file: *const u8,
        file_length: usize,
        filler: *const u8,
        filler_length: usize,
        cube: Record,
        entry: u32,
    ) -> ZgyView;
    pub(crate) fn zgy_read_raw(
        out: *mut u8,
        out_length: usize,
        file: *const u8,
        file_length: usize,
        cube: Record,
        region: Region,
    ) -> ZgyDone;
    pub(crate) fn zgy_read_float(
        out: *mut f64,
        out_length: usize,
        file: *const u8,
        file_length: usize,
        cube: Record,
        region: Region,
    ) -> ZgyDone;
    pub(crate) fn zgy_write(
        file: *mut u8,
        file_length: usize,
        input: *const u8,
        input_length: usize,
        cube: Record,
        region: Region,
    ) -> ZgyDone;
    pub(crate) fn zgy_position(cube: Record, dimension: u32, index: u32) -> ZgyPosition;
    pub(crate) fn zgy_string(file: *const u8, file_length: usize, cube: Record, number: u32) -> ZgyString;
    pub(crate) fn zgy_make(
        out: *mut u8,
        out_length: usize,
        description: Description,
        text: *const u8,
        text_length: usize,
        fill: u32,
    ) -> ZgyDone;
    pub(crate) fn zgy_to_plain(
        out: *mut u8,
        out_length: usize,
        brick: *const u8,
        brick_length: usize,
        side0: u32,
        side1: u32,
        side2: u32,
        width: u32,
    ) -> ZgyDone;
    pub(crate) fn zgy_to_subtiled(
        out: *mut u8,
        out_length: usize,
        brick: *const u8,
        brick_length: usize,
        side0: u32,
        side1: u32,
        side2: u32,
        width: u32,
    ) -> ZgyDone;
}
