//! Floats as they are lent, by their bits: zeros of both signs differ, and what a call only reads is
//! the same afterwards bit by bit, NaNs too.

use std::fmt;

#[derive(Clone, Copy, PartialEq)]
#[repr(transparent)]
pub struct Float(u32);

impl Float {
    pub const fn of_bits(bits: u32) -> Self {
        Self(bits)
    }

    pub const fn bits(self) -> u32 {
        self.0
    }
}

impl From<f32> for Float {
    fn from(x: f32) -> Self {
        Self(x.to_bits())
    }
}

impl From<Float> for f32 {
    fn from(x: Float) -> Self {
        f32::from_bits(x.0)
    }
}

impl fmt::Display for Float {
    fn fmt(&self, f: &mut fmt::Formatter) -> fmt::Result {
        write!(f, "{:e} ({:08X})", f32::from(*self), self.0)
    }
}

/// As the original takes them.
pub fn plain(floats: &[Float]) -> Vec<f32> {
    floats.iter().map(|&x| x.into()).collect()
}

/// As they are lent.
pub fn lent(floats: Vec<f32>) -> Vec<Float> {
    floats.into_iter().map(Float::from).collect()
}
