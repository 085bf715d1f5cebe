//! The ledger of demand 3 (FORMAT 12.4), kept as a table: what every sample of a cube has to be after any list of calls.

use crate::reader::{self, Level, Sample};
use zgy::{Record, Region};

/// One row for each sample place within its level's extent. It is fed the calls' arguments, and whether they were refused.
pub struct Ledger {
    record: Record,
    levels: Vec<Level>,
    rows: Vec<Vec<Sample>>,
}

impl Ledger {
    /// The rows at opening.
    pub fn new(file: &[u8], record: &Record) -> Ledger {
        let levels = reader::levels(&record.description);
        let rows = levels.iter().enumerate().map(|(n, level)| {
            reader::places(reader::whole(n, level)).map(|at| reader::sample(file, record, level, at)).collect()
        });
        Ledger { record: *record, rows: rows.collect(), levels }
    }

    /// All samples of each level.
    pub fn whole_levels(&self) -> Vec<Region> {
        self.levels.iter().enumerate().map(|(n, level)| reader::whole(n, level)).collect()
    }

    fn row(&self, level: u32, [i, j, k]: [u32; 3]) -> usize {
        let [_, crosslines, verticals] = self.levels[level as usize].extent.map(|n| n as usize);
        (i as usize * crosslines + j as usize) * verticals + k as usize
    }

    /// A taken write puts the bytes lent for each place of its region. Refused calls, and reads, change no row.
    pub fn wrote(&mut self, region: Region, input: &[u8]) {
        let width = reader::item_bytes(self.record.description.datatype);
        for (at, bytes) in reader::places(region).zip(input.chunks(width)) {
            let row = self.row(region.level, at);
            let mut sample = [0; 4];
            sample[..width].copy_from_slice(bytes);
            self.rows[region.level as usize][row] = Some(sample);
        }
    }

    fn samples(&self, region: Region) -> impl Iterator<Item = Sample> + '_ {
        reader::places(region).map(move |at| self.rows[region.level as usize][self.row(region.level, at)])
    }

    /// What a raw read has to give.
    pub fn raw(&self, region: Region) -> Vec<u8> {
        let width = reader::item_bytes(self.record.description.datatype);
        self.samples(region).flat_map(|sample| sample.unwrap_or_default().into_iter().take(width)).collect()
    }

    /// What a float read has to give, as bits.
    pub fn floats(&self, region: Region) -> Vec<u64> {
        self.samples(region).map(|sample| reader::sample_value(&self.record, sample).to_bits()).collect()
    }
}
