//! A refusal, with the sentence of the table for its number.

use std::error::Error;
use std::fmt;

/// Why a call was not carried out. Nothing lent has changed.
#[derive(Clone, Copy, Debug, PartialEq, Eq)]
pub struct Refusal {
    /// The number of the table: 1 to 20.
    pub number: u32,
    /// The lowest such entry of the brick table for 12, 13 and 19, else 0.
    pub entry: u32,
}

impl Refusal {
    /// The table's sentence.
    pub fn sentence(&self) -> &'static str {
        match self.number {
            1 => "the file has fewer than 346 bytes",
            2 => "the file does not start with VBS and a zero byte",
            3 => "the version is not 2 or 3",
            4 => "a brick side is not 4, 8, 16, 32 or 64",
            5 => "the type is not int8 (0), int16 (2) or float32 (6)",
            6 => "a size is below 1 or above 1,048,576",
            7 => "orig or inc is not finite, or the coding range is not finite with min below max",
            8 => "there are over 16,384 bricks in all levels",
            9 => "the text length is not 5 to 65,536",
            10 => "the file ends before its headers do",
            11 => "the text is not exactly five strings, each ended by a zero byte",
            12 => "a brick of the table lies outside the file or in its headers",
            13 => "a stored brick overlaps one of a lower entry",
            14 => "the record is not that of this file",
            15 => "there is no such level",
            16 => "a count is 0, the region lies outside the extent, or there is no such dimension, index or entry",
            17 => "the filler is not the brick's value throughout",
            18 => "the lent buffer is too short",
            19 => "the write touches a brick that is not stored",
            20 => "the version 1 brick order has no such sides or item width",
            _ => "the library answered a number that is not in its table",
        }
    }
}

impl fmt::Display for Refusal {
    fn fmt(&self, f: &mut fmt::Formatter<'_>) -> fmt::Result {
        write!(f, "refused {}: {}", self.number, self.sentence())?;
        match self.number {
            12 | 13 | 19 => write!(f, " (entry {})", self.entry),
            _ => Ok(()),
        }
    }
}

impl Error for Refusal {}

/// Ok where the answer's number says taken.
pub(crate) fn taken(number: u32, entry: u32) -> Result<(), Refusal> {
    match number {
        0 => Ok(()),
        _ => Err(Refusal { number, entry }),
    }
}
