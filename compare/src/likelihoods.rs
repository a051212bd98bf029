//! Floats that are lent to a decoding: 32 for each symbol, metrics or posteriors.

use crate::float::{Float, lent};
use crate::random::Random;
use std::fmt;

/// With what they are in a report.
#[derive(Clone)]
pub struct Likelihoods {
    pub name: String,
    pub floats: Vec<Float>,
}

impl Likelihoods {
    /// Of a word, each symbol's by one of the kinds, as `vector` makes them.
    pub fn of<K: Copy + fmt::Debug>(
        random: &mut Random,
        word: &[u8],
        kinds: &[K],
        vector: fn(&mut Random, u8, K) -> [f32; 32],
    ) -> Self {
        let mut floats = Vec::new();
        for &symbol in word {
            let kind = kinds[random.below(kinds.len())];
            floats.extend(vector(random, symbol, kind));
        }
        Self {
            name: format!("{kinds:?}"),
            floats: lent(floats),
        }
    }
}

/// Mostly one kind, at times some.
pub fn some_kinds<K>(random: &mut Random, any: fn(&mut Random) -> K) -> Vec<K> {
    let count = match random.below(4) {
        0 => 2 + random.below(3),
        _ => 1,
    };
    (0..count).map(|_| any(random)).collect()
}

/// No more floats are printed, by their bits.
const PRINTED: usize = 64;

impl fmt::Display for Likelihoods {
    fn fmt(&self, f: &mut fmt::Formatter) -> fmt::Result {
        let Self { name, floats } = self;
        write!(f, "{} {name}", floats.len())?;
        if floats.len() <= PRINTED {
            for run in floats.chunk_by(|a, b| a == b) {
                write!(f, " {}*{:08X}", run.len(), run[0].bits())?;
            }
        }
        Ok(())
    }
}
