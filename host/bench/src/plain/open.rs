//! Opening: the header's fields, the checks, and the overlap rule by a sort.

use super::layout::{self, Entry, TEXT_AT};
use super::{refuse, refuse_at};
use zgy::{Description, Record, Refusal};

const INFO_AT: usize = 9;

/// The bytes of a field of InfoHeader.
fn field<const N: usize>(file: &[u8], at: usize) -> [u8; N] {
    file[INFO_AT + at..INFO_AT + at + N].try_into().unwrap()
}

fn word(file: &[u8], at: usize) -> u32 {
    u32::from_le_bytes(field(file, at))
}

fn words<const N: usize>(file: &[u8], at: usize) -> [u32; N] {
    std::array::from_fn(|i| word(file, at + 4 * i))
}

/// An id in canonical order: its first three pieces are stored little-endian.
fn id(file: &[u8], at: usize) -> [u8; 16] {
    let mut id: [u8; 16] = field(file, at);
    id[0..4].reverse();
    id[4..6].reverse();
    id[6..8].reverse();
    id
}

fn description(file: &[u8]) -> Description {
    Description {
        side: words(file, 0),
        datatype: file[INFO_AT + 12],
        range: words(file, 13),
        dataid: id(file, 21),
        verid: id(file, 37),
        previd: id(file, 53),
        srctype: file[INFO_AT + 69],
        orig: words(file, 70),
        inc: words(file, 82),
        size: words(file, 94),
        hdim: file[INFO_AT + 315],
        hfactor: u64::from_le_bytes(field(file, 316)),
        vdim: file[INFO_AT + 324],
        vfactor: u64::from_le_bytes(field(file, 325)),
    }
}

#[inline(never)]
pub fn open(file: &[u8]) -> Result<Record, Refusal> {
    if file.len() < TEXT_AT {
        return refuse(1);
    }
    if &file[..4] != b"VBS\0" {
        return refuse(2);
    }
    let version = u32::from_le_bytes(file[4..8].try_into().unwrap());
    if !matches!(version, 2 | 3) {
        return refuse(3);
    }
    let description = description(file);
    let text = word(file, 333);
    let counts = layout::judge(&description, text.into())?;
    let header = layout::header_end(text.into(), counts);
    let length = file.len() as u64;
    if length < header {
        return refuse(10);
    }
    check_text(&file[TEXT_AT..TEXT_AT + text as usize])?;
    let table = &file[layout::table_at(text.into(), counts.alphas) as usize..header as usize];
    check_entries(table, &description, header, length)?;
    let (bricks, alphas) = (counts.bricks as u32, counts.alphas as u32);
    Ok(Record {
        version,
        text,
        grid: layout::grid(&description),
        description,
        header,
        levels: counts.levels,
        bricks,
        alphas,
        length,
    })
}

/// Check 11.
pub fn check_text(text: &[u8]) -> Result<(), Refusal> {
    let zeros = text.iter().filter(|&&byte| byte == 0).count();
    if zeros == 5 && text.last() == Some(&0) {
        Ok(())
    } else {
        refuse(11)
    }
}

/// Checks 12 and 13.
fn check_entries(table: &[u8], description: &Description, header: u64, length: u64) -> Result<(), Refusal> {
    let brick = layout::brick_bytes(description);
    let mut stored = Vec::with_capacity(table.len() / 8);
    for n in 0..table.len() / 8 {
        let Entry::Stored(offset) = layout::entry(table, n, 1) else { continue };
        if offset < header || offset + brick > length {
            return refuse_at(12, n);
        }
        stored.push((offset, n as u32));
    }
    stored.sort_unstable();
    lowest_overlap(&stored, brick).map_or(Ok(()), |n| refuse_at(13, n as usize))
}

/// The lowest entry that overlaps a lower one, of bricks by their offsets: those that overlap a brick follow it.
fn lowest_overlap(stored: &[(u64, u32)], brick: u64) -> Option<u32> {
    if stored.windows(2).all(|pair| pair[1].0 - pair[0].0 >= brick) {
        return None;
    }
    let overlaps = stored.iter().enumerate().flat_map(|(i, &(offset, entry))| {
        let near = stored[i + 1..].iter().take_while(move |next| next.0 - offset < brick);
        near.map(move |next| entry.max(next.1))
    });
    overlaps.min()
}
