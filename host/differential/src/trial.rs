//! A call of the library beside the same call of the independent reader: answers, and all lent memory after it, have to agree.

use crate::guard::{now_running, Area, Edge};
use crate::random::Random;
use crate::reader::{self, Answer, Shown, Way};
use crate::tally::{Call, Tally};
use crate::Least;
use std::fmt::Debug;
use std::ops::Range;
use zgy::{Brick, Cube, Description, Fill, Record, Region};

/// One topic's cases in their order, with the lent memory that they use again and again.
pub struct Trial {
    pub random: Random,
    pub tally: Tally,
    seed: u64,
    case: u64,
    file: Area,
    out: Area,
    input: Area,
}

/// The one case that the host asks for.
fn asked_case() -> Option<u64> {
    std::env::var("ZGY_CASE").ok().map(|case| case.parse().expect("ZGY_CASE is a case number"))
}

/// Runs the cases of a seed and answers what was met in them.
pub fn run(seed: u64, cases: u64, mut body: impl FnMut(&mut Trial, u64)) -> Trial {
    let mut trial = Trial {
        random: Random::new(seed, 0),
        tally: Tally::default(),
        seed,
        case: 0,
        file: Area::new(),
        out: Area::new(),
        input: Area::new(),
    };
    let asked = asked_case();
    for case in (0..cases).filter(|&case| asked.is_none_or(|asked| asked == case)) {
        trial.case = case;
        trial.random = Random::new(seed, case);
        now_running(seed, case);
        body(&mut trial, case);
    }
    trial
}

impl Drop for Trial {
    /// Says which case failed, or, to those who run with `--nocapture`, what was met.
    fn drop(&mut self) {
        let (seed, case, tally) = (self.seed, self.case, &self.tally);
        match std::thread::panicking() {
            true => eprintln!("this was seed {seed}, case {case}: run it alone with ZGY_CASE={case}"),
            false => println!("seed {seed}: {} cubes, {} other calls: {tally:?}", tally.cubes(), tally.calls()),
        }
    }
}

/// Asserts on bytes or bits, without printing all of them.
#[track_caller]
fn assert_same<T: PartialEq + Debug>(what: &str, library: &[T], reader: &[T]) {
    assert_eq!(library.len(), reader.len(), "length of {what}");
    if let Some(n) = (0..library.len()).find(|&n| library[n] != reader[n]) {
        panic!("{what} differs first at {n} of {}: library {:?}, reader {:?}", library.len(), library[n], reader[n]);
    }
}

/// Bits of an answered float, for comparing.
fn bits(answer: Answer<f64>) -> Answer<u64> {
    answer.map(f64::to_bits)
}

/// A brick kind with the constant as bits, for comparing.
fn kind_bits(answer: Answer<Brick>) -> Answer<(&'static str, u64)> {
    answer.map(|brick| match brick {
        Brick::Missing => ("missing", 0),
        Brick::Constant(value) => ("constant", value.to_bits()),
        Brick::Stored(offset) => ("stored", offset),
    })
}

/// Where a slice that the library answered lies in a lent one, by addresses: equal bytes elsewhere will not do.
fn range_in(part: &[u8], lent: &[u8]) -> Option<Range<usize>> {
    let start = (part.as_ptr() as usize).checked_sub(lent.as_ptr() as usize)?;
    (start + part.len() <= lent.len()).then_some(start..start + part.len())
}

fn number<T>(answer: &Answer<T>) -> u32 {
    answer.as_ref().err().map_or(0, |refusal| refusal.number)
}

impl Trial {
    /// Asserts the topic's least counts, and that all refusals of these calls occurred; not where one case is run alone.
    pub fn assert_met(&self, least: Least, calls: &[Call], times: u64) {
        if asked_case().is_none() {
            assert!(self.tally.cubes() >= least.cubes, "{} cubes of {least:?}", self.tally.cubes());
            assert!(self.tally.calls() >= least.calls, "{} calls of {least:?}", self.tally.calls());
            self.tally.assert_all_met(calls, times);
        }
    }

    /// Asserts that these numbers occurred; not where one case is run alone.
    pub fn assert_numbers_met(&self, calls: &[Call], numbers: &[u32], times: u64) {
        if asked_case().is_none() {
            self.tally.assert_numbers_met(calls, numbers, times);
        }
    }

    fn edge(&mut self) -> Edge {
        self.random.pick(&[Edge::Front, Edge::Back])
    }

    pub fn open(&mut self, cube: &[u8]) -> Answer<Record> {
        let edge = self.edge();
        let file = self.file.lend(cube, edge);
        let answer = Cube::open(file);
        let expected = reader::open(cube);
        self.tally.count(Call::Open, number(&answer));
        assert_eq!(answer.map(|record| reader::by_bits(&record)), expected.map(|record| reader::by_bits(&record)), "open");
        assert_same("file", file, cube);
        answer
    }

    pub fn brick_kind(&mut self, record: &Record, cube: &[u8], entry: u32) -> Answer<Brick> {
        let edge = self.edge();
        let file = self.file.lend(cube, edge);
        let answer = record.brick_kind(file, entry);
        let expected = reader::brick_kind(cube, record, entry);
        self.tally.count(Call::BrickKind, number(&answer));
        assert_eq!(kind_bits(answer), kind_bits(expected), "brick kind of entry {entry} in {record:?}");
        assert_same("file", file, cube);
        answer
    }

    pub fn brick_view(&mut self, record: &Record, cube: &[u8], filler: &[u8], entry: u32) -> Answer<Shown> {
        let edge = self.edge();
        let (file, lent) = (&*self.file.lend(cube, edge), &*self.input.lend(filler, edge));
        let answer = record.brick_view(file, lent, entry).map(|part| match range_in(part, lent) {
            Some(range) => Shown::Filler(range),
            None => Shown::File(range_in(part, file).expect("the view is a part of a lent slice")),
        });
        let expected = reader::brick_view(cube, record, filler, entry);
        self.tally.count(Call::BrickView, number(&answer));
        assert_eq!(answer, expected, "view of entry {entry} with a filler of {} in {record:?}", filler.len());
        assert_same("file", file, cube);
        assert_same("filler", lent, filler);
        answer
    }

    /// Reads into a buffer of `room` bytes and answers the bytes of the region.
    pub fn read_raw(&mut self, record: &Record, cube: &[u8], region: Region, room: usize) -> Answer<Vec<u8>> {
        let (edge, mut before) = (self.edge(), self.random.bytes(room));
        let (file, out) = (&*self.file.lend(cube, edge), self.out.lend(&before, edge));
        let answer = record.read_raw(out, file, region);
        let expected = reader::read_raw(&mut before, cube, record, region);
        self.tally.count(Call::ReadRaw, number(&answer));
        assert_eq!(answer, expected, "raw read of {region:?} into {room} bytes in {record:?}");
        assert_same("out", out, &before);
        assert_same("file", file, cube);
        answer.map(|length| before[..length].to_vec())
    }

    /// Reads into a buffer of `room` floats and answers the bits of the region's.
    pub fn read_float(&mut self, record: &Record, cube: &[u8], region: Region, room: usize) -> Answer<Vec<u64>> {
        let mut before: Vec<u64> = (0..room).map(|_| self.random.word()).collect();
        let edge = self.edge();
        let (file, out) = (&*self.file.lend(cube, edge), self.out.lend_floats(&before, edge));
        let answer = record.read_float(out, file, region);
        let expected = reader::read_float(&mut before, cube, record, region);
        self.tally.count(Call::ReadFloat, number(&answer));
        assert_eq!(answer, expected, "float read of {region:?} into {room} floats in {record:?}");
        let out: Vec<u64> = out.iter().map(|value| value.to_bits()).collect();
        assert_same("out", &out, &before);
        assert_same("file", file, cube);
        answer.map(|count| before[..count].to_vec())
    }

    /// Writes, and leaves the cube as the library left it.
    pub fn write(&mut self, record: &Record, cube: &mut Vec<u8>, region: Region, input: &[u8]) -> Answer<usize> {
        let edge = self.edge();
        let (file, lent) = (self.file.lend(cube, edge), &*self.input.lend(input, edge));
        let answer = record.write(file, region, lent);
        let mut after = cube.clone();
        let expected = reader::write(&mut after, record, region, input);
        self.tally.count(Call::Write, number(&answer));
        assert_eq!(answer, expected, "write of {region:?} from {} bytes in {record:?}", input.len());
        if answer.is_ok() {
            for range in reader::unsettled(cube, record, region) {
                after[range.clone()].copy_from_slice(&file[range]);
            }
        }
        assert_same("file", file, &after);
        assert_same("input", lent, input);
        *cube = after;
        answer
    }

    pub fn position(&mut self, record: &Record, dimension: u32, index: u32) -> Answer<f64> {
        let answer = record.position(dimension, index);
        let expected = reader::position(record, dimension, index);
        self.tally.count(Call::Position, number(&answer));
        assert_eq!(bits(answer), bits(expected), "position of {index} along {dimension} in {record:?}");
        answer
    }

    pub fn string(&mut self, record: &Record, cube: &[u8], place: u32) -> Answer<Option<Range<usize>>> {
        let edge = self.edge();
        let file = &*self.file.lend(cube, edge);
        let answer = record
            .string(file, place)
            .map(|found| found.map(|string| range_in(string, file).expect("the string is a part of the file")));
        let expected = reader::string(cube, record, place);
        self.tally.count(Call::String, number(&answer));
        assert_eq!(answer, expected, "string {place} in {record:?}");
        assert_same("file", file, cube);
        answer
    }

    /// Makes a cube in a buffer of `room` bytes and answers its file.
    pub fn make(&mut self, description: &Description, text: &[u8], fill: Fill, room: usize) -> Answer<Vec<u8>> {
        let (edge, mut before) = (self.edge(), self.random.bytes(room));
        let (out, lent) = (self.out.lend(&before, edge), &*self.input.lend(text, edge));
        let answer = Cube::make(out, description, lent, fill);
        let expected = reader::make(room, description, text, fill);
        self.tally.count(Call::Make, number(&answer));
        assert_eq!(answer, expected.as_ref().map(Vec::len).map_err(|refusal| *refusal), "making {description:?} as {fill:?}");
        if let Ok(file) = &expected {
            reader::put(&mut before, 0, file);
        }
        assert_same("out", out, &before);
        assert_same("text", lent, text);
        expected
    }

    /// Moves a version 1 brick into a buffer of `room` bytes and answers the moved bytes.
    pub fn permute(&mut self, brick: &[u8], side: [u32; 3], width: u32, way: Way, room: usize) -> Answer<Vec<u8>> {
        let (edge, mut before) = (self.edge(), self.random.bytes(room));
        let (out, lent) = (self.out.lend(&before, edge), &*self.input.lend(brick, edge));
        let (call, answer) = match way {
            Way::ToPlain => (Call::ToPlain, zgy::to_plain(out, lent, side, width)),
            Way::ToSubtiled => (Call::ToSubtiled, zgy::to_subtiled(out, lent, side, width)),
        };
        let expected = reader::permute(&mut before, brick, side, width, way);
        self.tally.count(call, number(&answer));
        assert_eq!(answer, expected, "{way:?} of sides {side:?}, width {width}, {} bytes into {room}", brick.len());
        assert_same("out", out, &before);
        assert_same("brick", lent, brick);
        answer.map(|length| before[..length].to_vec())
    }
}
