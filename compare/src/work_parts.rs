//! The work parts of a call on a frame, each guarded and full of what such a part may hold.

use crate::filling::Filling;
use crate::float::Float;
use crate::frame::{BYTES, FLOATS, WORDS};
use crate::frame_abi::Work;
use crate::guarded::Guarded;
use crate::report::Case;

/// Their lengths: entries of 16 bits, of 8, and floats, which only decoding has.
#[derive(Clone, Copy, PartialEq, Debug)]
pub struct Lengths {
    pub words: usize,
    pub bytes: usize,
    pub floats: usize,
}

impl Lengths {
    pub const ENCODING: Self = Self {
        words: WORDS,
        bytes: BYTES,
        floats: 0,
    };
    pub const DECODING: Self = Self {
        floats: FLOATS,
        ..Self::ENCODING
    };
}

/// What stands in them before a call.
struct Before {
    words: Vec<u16>,
    bytes: Vec<u8>,
    floats: Vec<Float>,
}

pub struct WorkParts {
    lengths: Lengths,
    filling: &'static Filling,
    noise: Option<u64>,
    words: Guarded<u16>,
    bytes: Guarded<u8>,
    floats: Guarded<Float>,
}

/// What a call that does its work leaves in them.
static NO_WORDS: [u16; WORDS] = [0; WORDS];
static NO_BYTES: [u8; BYTES] = [0; BYTES];
static NO_FLOATS: [Float; FLOATS] = [Float::of_bits(0); FLOATS];

impl WorkParts {
    /// The filling stands around them, and in them noise of this seed, or the filling where there is
    /// none.
    pub fn new(lengths: Lengths, filling: &'static Filling, noise: Option<u64>) -> Self {
        let before = before(lengths, filling, noise);
        Self {
            lengths,
            filling,
            noise,
            words: Guarded::new(&before.words, filling.wide),
            bytes: Guarded::new(&before.bytes, filling.narrow),
            floats: Guarded::new(&before.floats, filling.float()),
        }
    }

    pub fn lend(&mut self) -> Work<'_> {
        Work {
            words: self.words.lend(),
            bytes: self.bytes.lend(),
            floats: self.floats.lend(),
        }
    }

    /// Numbers 1 and 3 leave them as they were, all else leaves 0.
    pub fn compare(&self, case: &mut Case, number: u8) {
        match number {
            1 | 3 => {
                let before = before(self.lengths, self.filling, self.noise);
                self.compare_with(case, &before.words, &before.bytes, &before.floats);
            }
            _ => {
                let floats = &NO_FLOATS[..self.lengths.floats];
                self.compare_with(case, &NO_WORDS, &NO_BYTES, floats);
            }
        }
    }

    fn compare_with(&self, case: &mut Case, words: &[u16], bytes: &[u8], floats: &[Float]) {
        self.words.compare(case, "work part words", words);
        self.bytes.compare(case, "work part bytes", bytes);
        self.floats.compare(case, "work part floats", floats);
    }
}

/// The filling, or noise of any bits: as floats NaNs and infinities too.
fn before(lengths: Lengths, filling: &Filling, noise: Option<u64>) -> Before {
    let Some(seed) = noise else {
        return Before {
            words: vec![filling.wide; lengths.words],
            bytes: vec![filling.narrow; lengths.bytes],
            floats: vec![filling.float(); lengths.floats],
        };
    };
    let mut step = seed;
    let mut next = || {
        step = step
            .wrapping_mul(0x5851_F42D_4C95_7F2D)
            .wrapping_add(0x1405_7B7E_F767_814F);
        (step >> 32) as u32
    };
    Before {
        words: (0..lengths.words).map(|_| next() as u16).collect(),
        bytes: (0..lengths.bytes).map(|_| next() as u8).collect(),
        floats: (0..lengths.floats)
            .map(|_| Float::of_bits(next()))
            .collect(),
    }
}
