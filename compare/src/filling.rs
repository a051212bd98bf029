//! What stands in lent parts before a call.

use crate::float::Float;

/// What stands in each entry of a part, by the width of its entries.
pub struct Filling {
    pub number: usize,
    pub wide: u16,
    pub narrow: u8,
}

impl Filling {
    /// Of 32 bits.
    pub fn long(&self) -> u32 {
        self.number as u32
    }

    pub fn float(&self) -> Float {
        Float::of_bits(self.long())
    }
}

/// What stands in all output and work parts beforehand, and in the entries around every part. Each
/// call is tried with both, so that an entry that is written where it must not be, or left where it
/// must be written, shows with one of them. No byte of them is an element: all are above 31. As floats
/// they are finite and not 0.
pub const BEFORE: [Filling; 2] = [
    Filling {
        number: 0xAAAA_AAAA_AAAA_AAAA,
        wide: 0xAAAA,
        narrow: 0xAA,
    },
    Filling {
        number: 0x5555_5555_5555_5555,
        wide: 0x5555,
        narrow: 0x55,
    },
];
