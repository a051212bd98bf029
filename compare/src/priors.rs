//! Priors of a notice's bits: logarithms of how much likelier a 0 than a 1 is.

use crate::float::{Float, lent};
use crate::frame::BITS;
use crate::metrics::special;
use crate::random::Random;
use std::fmt;

/// With what they are in a report.
#[derive(Clone)]
pub struct Priors {
    pub name: String,
    pub floats: Vec<Float>,
}

/// How the prior of a bit comes about.
#[derive(Clone, Copy, Debug)]
pub enum Kind {
    /// For the bit, by so much, which may be infinite.
    Right(f32),
    /// Against it.
    Wrong(f32),
    /// For it or against it.
    Half(f32),
    /// For it, or 0.0: not all bits are known.
    Some(f32),
    /// For it, or NaN.
    SomeNan(f32),
    /// Always the same.
    Same(f32),
    /// Zeros of both signs.
    Zeros,
    /// Where floats end or are of another kind.
    Special,
    /// Of any bits.
    Bits,
}

/// Each kind.
pub const KINDS: [Kind; 17] = [
    Kind::Right(2.0),
    Kind::Right(60.0),
    Kind::Right(f32::INFINITY),
    Kind::Wrong(1.0),
    Kind::Wrong(60.0),
    Kind::Wrong(f32::INFINITY),
    Kind::Half(8.0),
    Kind::Some(4.0),
    Kind::Some(1e30),
    Kind::SomeNan(4.0),
    Kind::Same(0.0),
    Kind::Same(-0.0),
    Kind::Same(f32::NAN),
    Kind::Same(f32::from_bits(1)),
    Kind::Zeros,
    Kind::Special,
    Kind::Bits,
];

/// None, one, all but one, all, and more than a notice has bits.
pub const LENGTHS: [usize; 6] = [0, 1, 255, 256, 257, 260];

/// Zeros but for one entry past the 256th, the last of so many: it adds nothing, and says that there are
/// priors where it is not 0.0.
pub const ALONE: [(usize, f32); 8] = [
    (257, 1.0),
    (257, f32::NAN),
    (257, f32::NEG_INFINITY),
    (257, f32::from_bits(1)),
    (257, -0.0),
    (260, -7.0),
    (260, f32::NAN),
    (300, 1e-30),
];

impl Priors {
    pub fn none() -> Self {
        Self {
            name: "none".to_string(),
            floats: Vec::new(),
        }
    }

    /// So many of a notice, which counts as 0 past its last bit.
    pub fn of(random: &mut Random, bits: &[u8], length: usize, kind: Kind) -> Self {
        let bit = |i| bits.get(i).copied().unwrap_or(0);
        let entries = (0..length).map(|i| prior(random, bit(i), kind)).collect();
        Self {
            name: format!("{kind:?}"),
            floats: lent(entries),
        }
    }

    /// Zeros, and at the end another entry.
    pub fn alone((length, last): (usize, f32)) -> Self {
        let mut floats = vec![0.0; length];
        floats[length - 1] = last;
        Self {
            name: format!("zeros and then {last:e}"),
            floats: lent(floats),
        }
    }

    /// Any kind, of any length.
    pub fn at_random(random: &mut Random, bits: &[u8]) -> Self {
        let length = match random.below(4) {
            0 => LENGTHS[random.below(LENGTHS.len())],
            1 => random.below(301),
            _ => BITS,
        };
        if random.below(16) == 0 {
            return Self::alone(ALONE[random.below(ALONE.len())]);
        }
        let kind = KINDS[random.below(KINDS.len())];
        Self::of(random, bits, length, kind)
    }

    /// Whether some entry is not equal to 0.0, as a NaN is not.
    pub fn are_some(&self) -> bool {
        self.floats.iter().any(|&x| f32::from(x) != 0.0)
    }
}

fn prior(random: &mut Random, bit: u8, kind: Kind) -> f32 {
    let for_it = |size: f32| if bit & 1 == 0 { size } else { -size };
    let is_one_of = |random: &mut Random, of: usize| random.below(of) == 0;
    match kind {
        Kind::Right(size) => for_it(size),
        Kind::Wrong(size) => -for_it(size),
        Kind::Half(size) if is_one_of(random, 2) => -for_it(size),
        Kind::Some(_) if is_one_of(random, 2) => 0.0,
        Kind::SomeNan(_) if is_one_of(random, 16) => f32::NAN,
        Kind::Half(size) | Kind::Some(size) | Kind::SomeNan(size) => for_it(size),
        Kind::Same(value) => value,
        Kind::Zeros => [0.0, -0.0][random.below(2)],
        Kind::Special => special(random),
        Kind::Bits => f32::from_bits(random.next() as u32),
    }
}

impl fmt::Display for Priors {
    fn fmt(&self, f: &mut fmt::Formatter) -> fmt::Result {
        write!(f, "{} {}", self.floats.len(), self.name)
    }
}
