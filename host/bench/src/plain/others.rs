//! Brick kind and view, positions, strings, making, and the version 1 brick order.

use super::layout::{self, check_numbers, check_record, Counts, Entry, TEXT_AT};
use super::open::check_text;
use super::regions::widened;
use super::{refuse, refuse_at};
use zgy::{Brick, Description, Fill, Record, Refusal};

/// Checks 14, 16 and 12 of an entry, and what it says.
fn entry_of(cube: &Record, file: &[u8], entry: u32) -> Result<Entry, Refusal> {
    check_record(cube, file)?;
    if entry >= cube.bricks {
        return refuse(16);
    }
    let table = &file[layout::table_at(cube.text.into(), cube.alphas.into()) as usize..cube.header as usize];
    let found = layout::entry(table, entry as usize, cube.item_bytes());
    match found {
        Entry::Stored(at) if at < cube.header || at + layout::brick_bytes(&cube.description) > cube.length => {
            refuse_at(12, entry as usize)
        }
        _ => Ok(found),
    }
}

#[inline(never)]
pub fn brick_kind(cube: &Record, file: &[u8], entry: u32) -> Result<Brick, Refusal> {
    Ok(match entry_of(cube, file, entry)? {
        Entry::Missing => Brick::Missing,
        Entry::Stored(offset) => Brick::Stored(offset),
        Entry::Constant(bits) => Brick::Constant(match cube.description.datatype {
            0 => f64::from(bits as i8),
            2 => f64::from(bits as i16),
            _ => widened(f32::from_bits(bits)),
        }),
    })
}

#[inline(never)]
pub fn brick_view<'a>(cube: &Record, file: &'a [u8], filler: &'a [u8], entry: u32) -> Result<&'a [u8], Refusal> {
    let found = entry_of(cube, file, entry)?;
    let bytes = layout::brick_bytes(&cube.description) as usize;
    match found {
        Entry::Stored(offset) => Ok(&file[offset as usize..offset as usize + bytes]),
        Entry::Missing => filled(filler, bytes, &[0]),
        Entry::Constant(value) => filled(filler, bytes, &value.to_le_bytes()[..cube.item_bytes()]),
    }
}

/// Checks 18 and 17. A part that starts with an item and equals itself one item later is that item throughout: one memcmp.
fn filled<'a>(filler: &'a [u8], bytes: usize, item: &[u8]) -> Result<&'a [u8], Refusal> {
    let Some(part) = filler.get(..bytes) else { return refuse(18) };
    if part.starts_with(item) && part[item.len()..] == part[..bytes - item.len()] {
        Ok(part)
    } else {
        refuse(17)
    }
}

#[inline(never)]
pub fn position(cube: &Record, dimension: u32, index: u32) -> Result<f64, Refusal> {
    check_numbers(cube)?;
    let d = dimension as usize;
    match cube.description.size.get(d) {
        Some(&size) if index < size => Ok(f64::from(cube.grid.orig[d]) + f64::from(index) * f64::from(cube.grid.inc[d])),
        _ => refuse(16),
    }
}

#[inline(never)]
pub fn string<'a>(cube: &Record, file: &'a [u8], number: u32) -> Result<Option<&'a [u8]>, Refusal> {
    check_record(cube, file)?;
    let text = &file[TEXT_AT..TEXT_AT + cube.text as usize];
    check_text(text)?;
    let strings = &text[..text.len() - 1];
    Ok(strings.split(|&byte| byte == 0).nth(number as usize))
}

/// Writes fields one after the other.
struct Fields<'a>(&'a mut [u8]);

impl Fields<'_> {
    fn put(&mut self, bytes: &[u8]) {
        let (front, rest) = std::mem::take(&mut self.0).split_at_mut(bytes.len());
        front.copy_from_slice(bytes);
        self.0 = rest;
    }

    fn put_all(&mut self, words: &[u32]) {
        words.iter().for_each(|word| self.put(&word.to_le_bytes()));
    }

    fn put_id(&mut self, mut id: [u8; 16]) {
        id[0..4].reverse();
        id[4..6].reverse();
        id[6..8].reverse();
        self.put(&id);
    }
}

#[inline(never)]
pub fn make(out: &mut [u8], description: &Description, text: &[u8], fill: Fill) -> Result<usize, Refusal> {
    let counts = layout::judge(description, text.len() as u64)?;
    check_text(text)?;
    let header = layout::header_end(text.len() as u64, counts);
    let brick = layout::brick_bytes(description);
    let (first, step, length) = match fill {
        Fill::Constant => (1 << 63, 0, header),
        Fill::Stored => {
            let first = header.next_multiple_of(brick);
            (first, brick, first + counts.bricks * brick)
        }
    };
    let Some(file) = out.get_mut(..length as usize) else { return refuse(18) };
    let (headers, bricks) = file.split_at_mut(header as usize);
    put_headers(headers, description, text, counts);
    let table = &mut headers[layout::table_at(text.len() as u64, counts.alphas) as usize..];
    for (n, entry) in table.as_chunks_mut::<8>().0.iter_mut().enumerate() {
        *entry = (first + n as u64 * step).to_le_bytes();
    }
    bricks.fill(0);
    Ok(length as usize)
}

/// All before the brick table.
fn put_headers(headers: &mut [u8], d: &Description, text: &[u8], counts: Counts) {
    let headers = &mut headers[..layout::table_at(text.len() as u64, counts.alphas) as usize];
    headers.fill(0);
    let mut fields = Fields(headers);
    fields.put(b"VBS\0\x03\0\0\0\0");
    fields.put_all(&d.side);
    fields.put(&[d.datatype]);
    fields.put_all(&d.range);
    [d.dataid, d.verid, d.previd].into_iter().for_each(|id| fields.put_id(id));
    fields.put(&[d.srctype]);
    fields.put_all(&d.orig);
    fields.put_all(&d.inc);
    fields.put_all(&d.size);
    // The current extent is the whole cube, from 0 on; the statistics are zero.
    fields.put(&[0; 12]);
    fields.put_all(&d.size);
    fields.put(&[0; 32]);
    fields.put_all(&d.orig);
    fields.put_all(&std::array::from_fn::<u32, 3, _>(|i| (f32::from_bits(d.inc[i]) * d.size[i] as f32).to_bits()));
    fields.put(&[3]);
    fields.put(&[0; 128]);
    fields.put(&[d.hdim]);
    fields.put(&d.hfactor.to_le_bytes());
    fields.put(&[d.vdim]);
    fields.put(&d.vfactor.to_le_bytes());
    fields.put(&(text.len() as u32).to_le_bytes());
    fields.put(text);
}

/// Which way a version 1 brick is moved.
#[derive(Clone, Copy)]
pub enum Way {
    ToPlain,
    ToSubtiled,
}

/// The permutation. Vertical runs stay whole, and so do `together` of them that are neighbours crossline in a subtile: 1 to 8.
#[inline(never)]
pub fn permute(out: &mut [u8], brick: &[u8], side: [u32; 3], width: u32, way: Way, together: usize) -> Result<usize, Refusal> {
    let subtiled = |side: u32| matches!(side, 8 | 16 | 32 | 64);
    if !subtiled(side[0]) || !subtiled(side[1]) || !(side[2] == 4 || subtiled(side[2])) || !matches!(width, 1 | 2 | 4) {
        return refuse(20);
    }
    let [n0, n1, n2] = side.map(|n| n as usize);
    let bytes = n0 * n1 * n2 * width as usize;
    let (Some(out), Some(brick)) = (out.get_mut(..bytes), brick.get(..bytes)) else { return refuse(18) };
    let run = together * n2 * width as usize;
    let mut tiled = 0;
    for (tile0, tile1) in (0..n0 / 8).flat_map(|i| (0..n1 / 8).map(move |j| (i, j))) {
        for i in 0..8 {
            let row = ((tile0 * 8 + i) * n1 + tile1 * 8) * n2 * width as usize;
            for j in 0..8 / together {
                let plain = row + j * run;
                match way {
                    Way::ToPlain => out[plain..plain + run].copy_from_slice(&brick[tiled..tiled + run]),
                    Way::ToSubtiled => out[tiled..tiled + run].copy_from_slice(&brick[plain..plain + run]),
                }
                tiled += run;
            }
        }
    }
    Ok(bytes)
}
