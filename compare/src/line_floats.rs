//! The metrics and the posteriors of a line of a fixed list.

use crate::float::Float;
use crate::likelihoods::Likelihoods;
use crate::oracle::{NbCode, mix};

pub const METRICS_HEAD: &str = "\
# Metrics are made by SplitMix64 from DRAWS. The first draws, each mod 32, are symbols: as many as KNOWN, or as the code has
# information positions where that is less. What `encode` answers to them before the damage is the word that was sent.
";

/// How the draws after those of a word become its metrics.
pub const FLOATS_HEAD: &str = "\
# Then every draw gives a metric: that of variable 0 at value 0, at value 1 and so on to 31, then those of variable 1, up to N - 1.
# The draw mod SPREAD, which is 1 to 32768, is d. The metric is d / 8, but (d + PEAK) / 8 at the value that was sent, PEAK being 0
# to 32767. By RULE 1, where d is below 7, it is by d instead NaN, infinity, minus infinity, -0.0, or the float of bits 1,
# 2139095039 or 4286578687: the least above 0, the greatest and its negative. By RULE 2, where d is below 6 and the value was not
# sent, it is by d instead one of the last four of these, or the float of bits 228737631 or 228737633: the neighbours of 1e-30.
# By RULE 0 and 3 it is never so, and by RULE 3 a seventh stands for each eighth.
";

/// How floats are made: by RULE 0, 1, 2 or 3, and then the seed of the draws, SPREAD and PEAK.
#[derive(Clone, Copy)]
pub enum Made {
    Plain(u64, u64, u64),
    Special(u64, u64, u64),
    Finite(u64, u64, u64),
    /// Their sums are rounded.
    Sevenths(u64, u64, u64),
}

use Made::{Finite, Plain, Sevenths, Special};

pub const ZEROS: Made = Plain(0, 1, 0);

/// What a float is where a draw is special: by RULE 1 one of the first 7, by RULE 2 one of the last 6.
const SPECIAL: [u32; 9] = [
    0x7FC0_0000,
    0x7F80_0000,
    0xFF80_0000,
    0x8000_0000,
    0x0000_0001,
    0x7F7F_FFFF,
    0xFF7F_FFFF,
    0x0DA2_425F,
    0x0DA2_4261,
];

impl Made {
    /// RULE DRAWS SPREAD PEAK
    pub fn arguments(self) -> [u64; 4] {
        match self {
            Plain(draws, spread, peak) => [0, draws, spread, peak],
            Special(draws, spread, peak) => [1, draws, spread, peak],
            Finite(draws, spread, peak) => [2, draws, spread, peak],
            Sevenths(draws, spread, peak) => [3, draws, spread, peak],
        }
    }

    /// The floats of a word, by the draws after `state`.
    pub fn floats(self, word: &[u8], mut state: u64) -> Likelihoods {
        let [_, _, spread, _] = self.arguments();
        let mut floats = Vec::new();
        for &symbol in word {
            for x in 0..32 {
                let d = mix(&mut state) % spread;
                floats.push(self.float(d, x == symbol));
            }
        }
        Likelihoods {
            name: "of a line".to_string(),
            floats,
        }
    }

    pub fn float(self, d: u64, is_sent: bool) -> Float {
        let [_, _, _, peak] = self.arguments();
        let special = match self {
            Special(..) => &SPECIAL[..7],
            Finite(..) if !is_sent => &SPECIAL[3..],
            _ => &[],
        };
        let raised = if is_sent { d + peak } else { d };
        match (self, special.get(d as usize)) {
            (_, Some(&bits)) => Float::of_bits(bits),
            (Sevenths(..), _) => (raised as f32 / 7.0).into(),
            _ => (raised as f32 / 8.0).into(),
        }
    }
}

/// The word that was sent, and its metrics.
pub fn sent(built: &NbCode, made: Made, known: u32) -> (Vec<u8>, Likelihoods) {
    let [_, mut state, ..] = made.arguments();
    let count = built.k().min(known as usize);
    let symbols: Vec<u8> = (0..count).map(|_| (mix(&mut state) % 32) as u8).collect();
    let word = built.encode(&symbols);
    let metrics = made.floats(&word, state);
    (word, metrics)
}

/// The posteriors of the word that was sent, by draws of their own.
pub fn posteriors(word: &[u8], made: Made) -> Likelihoods {
    let [_, draws, ..] = made.arguments();
    made.floats(word, draws)
}
