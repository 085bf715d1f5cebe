//! The library's jobs in plain Rust, as one would write them for speed: bounds-safe, the same checks of the arguments, the same
//! bytes. They are what the library's times are divided by, and nothing else uses them.

pub mod layout;
pub mod open;
pub mod others;
pub mod regions;

use zgy::Refusal;

/// A refusal that names no entry.
pub fn refuse<T>(number: u32) -> Result<T, Refusal> {
    Err(Refusal { number, entry: 0 })
}

/// A refusal that names the lowest entry at fault.
pub fn refuse_at<T>(number: u32, entry: usize) -> Result<T, Refusal> {
    Err(Refusal { number, entry: entry as u32 })
}
