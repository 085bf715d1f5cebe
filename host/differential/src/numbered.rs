//! Cubes whose entry n is the constant n: a read shows which entry its sample is in.

use crate::reader;
use crate::trial::Trial;
use zgy::{Description, Fill, Record};

/// A description in which all but sizes, sides and type is of no matter.
pub fn described(size: [u32; 3], side: [u32; 3], datatype: u8) -> Description {
    Description { side, size, datatype, range: [0, 1], ..Description::default() }
}

/// Puts a number into an entry of the table that ends with the headers.
pub fn put_entry(file: &mut [u8], record: &Record, entry: u32, number: u64) {
    let at = record.header as usize - 8 * (record.bricks - entry) as usize;
    file[at..at + 8].copy_from_slice(&number.to_le_bytes());
}

/// A made cube whose entry n is the constant n, and its record.
pub fn numbered(trial: &mut Trial, description: &Description) -> (Vec<u8>, Record) {
    let length = reader::record_of(3, *description, 5, 0).header as usize;
    let mut file = trial.make(description, &[0; 5], Fill::Constant, length).unwrap();
    let record = trial.open(&file).unwrap();
    for entry in 0..record.bricks {
        put_entry(&mut file, &record, entry, 1 << 63 | u64::from(entry));
    }
    assert_eq!(trial.open(&file), Ok(record));
    (file, record)
}
