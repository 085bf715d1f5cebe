//! Reads and writes of regions. A brick holds a part of the region, and of a part one vertical run after the other is copied.
//! Which order of the parts is fastest depends on the shape and the machine's caches, so there are three to choose from.

use super::layout::{self, check_record, Entry, Level};
use super::{refuse, refuse_at};
use zgy::{Record, Refusal, Region};

/// In which order the samples are moved: one brick after the other, one inline after the other and in it brick by brick, or one
/// vertical run after the other through all its bricks.
#[derive(Clone, Copy, PartialEq)]
pub enum Order {
    Bricks,
    Inlines,
    Runs,
}

pub const ORDERS: [Order; 3] = [Order::Bricks, Order::Inlines, Order::Runs];

/// A region that passed its checks, among the bricks of its level.
struct Plan<'a> {
    table: &'a [u8],
    width: usize,
    /// Sides are powers of two: the power.
    shift: [u32; 3],
    start: [usize; 3],
    count: [usize; 3],
    base: usize,
    bricks: [usize; 3],
    order: Order,
}

/// What one brick holds of a run of samples in one direction, or one of those samples.
#[derive(Clone, Copy)]
struct Cut {
    brick: usize,
    /// The first of its samples, counted in the brick and in the region.
    inside: usize,
    at: usize,
    count: usize,
}

/// What one brick holds of a region: its entry, its first item, that sample's place in the region, and how many samples in each
/// direction.
struct Part {
    entry: usize,
    item: usize,
    at: usize,
    count: [usize; 3],
}

impl<'a> Plan<'a> {
    /// Checks 14, 15, 16 and 18; `item` is what a sample takes of the room.
    fn new(table: &'a [u8], cube: &Record, region: &Region, order: Order, room: usize, item: usize) -> Result<Self, Refusal> {
        let Some(level) = layout::level(cube, region.level) else { return refuse(15) };
        let inside = |d: usize| {
            let extent = (u64::from(cube.description.size[d]) + (1 << region.level) - 1) >> region.level;
            region.count[d] >= 1 && u64::from(region.start[d]) + u64::from(region.count[d]) <= extent
        };
        if !(0..3).all(inside) {
            return refuse(16);
        }
        let plan = Plan::among(table, cube, region, order, level);
        if room < plan.samples() * item {
            return refuse(18);
        }
        Ok(plan)
    }

    fn among(table: &'a [u8], cube: &Record, region: &Region, order: Order, level: Level) -> Self {
        Plan {
            table,
            width: cube.item_bytes(),
            shift: cube.description.side.map(u32::trailing_zeros),
            start: region.start.map(|n| n as usize),
            count: region.count.map(|n| n as usize),
            base: level.base as usize,
            bricks: level.bricks.map(|n| n as usize),
            order,
        }
    }

    fn samples(&self) -> usize {
        self.count.iter().product()
    }

    /// The numbers of the bricks that the region touches in a direction.
    fn touched(&self, d: usize) -> std::ops::RangeInclusive<usize> {
        self.start[d] >> self.shift[d]..=(self.start[d] + self.count[d] - 1) >> self.shift[d]
    }

    /// The region in a direction, cut at the bricks' faces or into single samples.
    fn cuts(&self, d: usize, single: bool) -> impl Iterator<Item = Cut> {
        let (shift, start, end) = (self.shift[d], self.start[d], self.start[d] + self.count[d]);
        let mut from = start;
        std::iter::from_fn(move || {
            let brick = from >> shift;
            let to = if single { from + 1 } else { end.min((brick + 1) << shift) };
            let cut = Cut { brick, inside: from - (brick << shift), at: from - start, count: to - from };
            let more = from < end;
            from = to;
            more.then_some(cut)
        })
    }

    fn entry_of(&self, x: usize, y: usize, z: usize) -> usize {
        self.base + (z * self.bricks[1] + y) * self.bricks[0] + x
    }

    /// The lowest touched entry that fails. Inline runs fastest in the table.
    fn lowest(&self, fails: impl Fn(Entry) -> bool) -> Option<usize> {
        for z in self.touched(2) {
            for y in self.touched(1) {
                for x in self.touched(0) {
                    let n = self.entry_of(x, y, z);
                    if fails(layout::entry(self.table, n, self.width)) {
                        return Some(n);
                    }
                }
            }
        }
        None
    }

    /// Check 12 over the touched entries.
    fn check_range(&self, cube: &Record) -> Result<(), Refusal> {
        let brick = layout::brick_bytes(&cube.description);
        let outside = |entry| matches!(entry, Entry::Stored(at) if at < cube.header || at + brick > cube.length);
        self.lowest(outside).map_or(Ok(()), |entry| refuse_at(12, entry))
    }

    /// Check 19 over the touched entries.
    fn check_stored(&self) -> Result<(), Refusal> {
        self.lowest(|entry| !matches!(entry, Entry::Stored(_))).map_or(Ok(()), |entry| refuse_at(19, entry))
    }

    fn for_each_part(&self, mut work: impl FnMut(Entry, Part)) {
        for x in self.cuts(0, self.order != Order::Bricks) {
            for y in self.cuts(1, self.order == Order::Runs) {
                for z in self.cuts(2, false) {
                    let part = self.part(x, y, z);
                    work(layout::entry(self.table, part.entry, self.width), part);
                }
            }
        }
    }

    fn part(&self, x: Cut, y: Cut, z: Cut) -> Part {
        Part {
            entry: self.entry_of(x.brick, y.brick, z.brick),
            item: (((x.inside << self.shift[1]) + y.inside) << self.shift[2]) + z.inside,
            at: (x.at * self.count[1] + y.at) * self.count[2] + z.at,
            count: [x.count, y.count, z.count],
        }
    }

    /// Each vertical run of a part: its first sample's place in the region, and its first item.
    fn for_each_run(&self, part: &Part, mut work: impl FnMut(usize, usize)) {
        for i in 0..part.count[0] {
            let mut at = part.at + i * self.count[1] * self.count[2];
            let mut item = part.item + (i << (self.shift[1] + self.shift[2]));
            for _ in 0..part.count[1] {
                work(at, item);
                at += self.count[2];
                item += 1 << self.shift[2];
            }
        }
    }
}

fn table<'a>(file: &'a [u8], cube: &Record) -> &'a [u8] {
    &file[layout::table_at(cube.text.into(), cube.alphas.into()) as usize..cube.header as usize]
}

#[inline(never)]
pub fn read_raw(out: &mut [u8], file: &[u8], cube: &Record, region: &Region, order: Order) -> Result<usize, Refusal> {
    check_record(cube, file)?;
    let plan = Plan::new(table(file, cube), cube, region, order, out.len(), cube.item_bytes())?;
    plan.check_range(cube)?;
    let w = plan.width;
    plan.for_each_part(|entry, part| {
        let run = part.count[2] * w;
        match entry {
            Entry::Missing => plan.for_each_run(&part, |at, _| out[at * w..at * w + run].fill(0)),
            Entry::Constant(value) => plan.for_each_run(&part, |at, _| fill_items(&mut out[at * w..at * w + run], value, w)),
            Entry::Stored(offset) => plan.for_each_run(&part, |at, item| {
                let from = offset as usize + item * w;
                out[at * w..at * w + run].copy_from_slice(&file[from..from + run]);
            }),
        }
    });
    Ok(plan.samples() * w)
}

fn fill_items(out: &mut [u8], value: u32, width: usize) {
    let bytes = value.to_le_bytes();
    out.chunks_exact_mut(width).for_each(|item| item.copy_from_slice(&bytes[..width]));
}

#[inline(never)]
pub fn write(file: &mut [u8], input: &[u8], cube: &Record, region: &Region, order: Order) -> Result<usize, Refusal> {
    check_record(cube, file)?;
    // The table is read while bricks are written, so the file is lent in two parts.
    let (headers, bricks) = file.split_at_mut(cube.header as usize);
    let table = &headers[layout::table_at(cube.text.into(), cube.alphas.into()) as usize..];
    let plan = Plan::new(table, cube, region, order, input.len(), cube.item_bytes())?;
    plan.check_range(cube)?;
    plan.check_stored()?;
    let w = plan.width;
    plan.for_each_part(|entry, part| {
        let run = part.count[2] * w;
        let Entry::Stored(offset) = entry else { return };
        let brick = (offset - cube.header) as usize;
        plan.for_each_run(&part, |at, item| {
            let to = brick + item * w;
            bricks[to..to + run].copy_from_slice(&input[at * w..at * w + run]);
        });
    });
    Ok(plan.samples() * w)
}

#[inline(never)]
pub fn read_float(out: &mut [f64], file: &[u8], cube: &Record, region: &Region, order: Order) -> Result<usize, Refusal> {
    check_record(cube, file)?;
    let plan = Plan::new(table(file, cube), cube, region, order, out.len(), 1)?;
    plan.check_range(cube)?;
    let (min, max) = (f64::from(cube.grid.min), f64::from(cube.grid.max));
    // One loop for each type, so that each is compiled with its width and rule inside.
    match plan.width {
        1 => plan.decode(out, file, |item: [u8; 1]| scaled(i8::from_le_bytes(item).into(), 128.0, min, max)),
        2 => plan.decode(out, file, |item: [u8; 2]| scaled(i16::from_le_bytes(item).into(), 32768.0, min, max)),
        _ => plan.decode(out, file, |item: [u8; 4]| widened(f32::from_le_bytes(item))),
    }
    Ok(plan.samples())
}

impl Plan<'_> {
    #[inline(always)]
    fn decode<const W: usize>(&self, out: &mut [f64], file: &[u8], value: impl Fn([u8; W]) -> f64) {
        self.for_each_part(|entry, part| {
            let n = part.count[2];
            match entry {
                Entry::Missing => self.for_each_run(&part, |at, _| out[at..at + n].fill(0.0)),
                Entry::Constant(bits) => {
                    let constant = value(std::array::from_fn(|i| bits.to_le_bytes()[i]));
                    self.for_each_run(&part, |at, _| out[at..at + n].fill(constant));
                }
                Entry::Stored(offset) => self.for_each_run(&part, |at, item| {
                    let from = offset as usize + item * W;
                    let items = file[from..from + n * W].as_chunks::<W>().0;
                    for (sample, item) in out[at..at + n].iter_mut().zip(items) {
                        *sample = value(*item);
                    }
                }),
            }
        });
    }
}

/// The float rule of types 0 and 2: the lowest storage value is -half, the highest half - 1.
#[inline(always)]
pub fn scaled(s: f64, half: f64, min: f64, max: f64) -> f64 {
    (max - min) * (s - -half) / ((half - 1.0) - -half) + min
}

/// The float rule of type 6.
#[inline(always)]
pub fn widened(value: f32) -> f64 {
    if value.is_nan() {
        f64::from_bits(0x7FF8_0000_0000_0000)
    } else {
        f64::from(value)
    }
}
