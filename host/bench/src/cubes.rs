//! Cubes to measure on.

use crate::plain::layout;
use zgy::{Cube, Description, Fill, Record};

/// The samples of a cube.
#[derive(Clone, Copy)]
pub struct Type {
    pub name: &'static str,
    pub datatype: u8,
}

pub const TYPES: [Type; 3] =
    [Type { name: "int8", datatype: 0 }, Type { name: "int16", datatype: 2 }, Type { name: "float32", datatype: 6 }];

/// Five short strings.
pub const TEXT: &[u8] = b"first\0second\0third\0fourth\0fifth\0";

/// A generator of bits (splitmix64), the same in every run.
pub struct Bits(pub u64);

impl Bits {
    pub fn next(&mut self) -> u64 {
        self.0 = self.0.wrapping_add(0x9E37_79B9_7F4A_7C15);
        let a = (self.0 ^ (self.0 >> 30)).wrapping_mul(0xBF58_476D_1CE4_E5B9);
        let b = (a ^ (a >> 27)).wrapping_mul(0x94D0_49BB_1331_11EB);
        b ^ (b >> 31)
    }

    /// A number below n.
    pub fn below(&mut self, n: usize) -> usize {
        (self.next() % n as u64) as usize
    }
}

/// What a cube with bricks of this side is made from.
pub fn description(side: u32, size: [u32; 3], datatype: u8) -> Description {
    let range = [(-1280.0f32).to_bits(), 1270.0f32.to_bits()];
    Description { side: [side; 3], size, datatype, range, ..Description::default() }
}

/// Bytes enough for a cube of this description with all bricks stored.
pub fn room(description: &Description, text: &[u8]) -> usize {
    let counts = layout::counts(description);
    let brick = layout::brick_bytes(description);
    (layout::header_end(text.len() as u64, counts).next_multiple_of(brick) + counts.bricks * brick) as usize
}

/// A cube with all bricks stored, holding noise, and its record.
pub fn stored(side: u32, size: [u32; 3], datatype: u8) -> (Vec<u8>, Record) {
    let description = description(side, size, datatype);
    let mut file = vec![0; room(&description, TEXT)];
    let length = Cube::make(&mut file, &description, TEXT, Fill::Stored).expect("a cube is made");
    assert_eq!(length, file.len());
    let cube = Cube::open(&file).expect("a made cube opens");
    let bricks = first_brick(&cube);
    fill_with_noise(&mut file[bricks..], datatype);
    assert!(datatype != 6 || file[bricks..].as_chunks().0.iter().all(|&item| f32::from_le_bytes(item).is_normal()));
    (file, cube)
}

/// Where the bricks of a made cube start. The headers end at any byte, and samples that start there would be cut wrongly.
pub fn first_brick(cube: &Record) -> usize {
    cube.header.next_multiple_of(layout::brick_bytes(&cube.description)) as usize
}

/// Any bytes for integers; finite numbers of either sign from 1 to 2 for floats, as real samples have no NaN.
pub fn fill_with_noise(samples: &mut [u8], datatype: u8) {
    let mut bits = Bits(1);
    for items in samples.chunks_mut(8) {
        let mut word = bits.next();
        if datatype == 6 {
            word = (word & 0x807F_FFFF_807F_FFFF) | 0x3F80_0000_3F80_0000;
        }
        items.copy_from_slice(&word.to_le_bytes()[..items.len()]);
    }
}
