//! Metrics to decode: 32 log-likelihoods for each symbol of a word.

use crate::likelihoods::{Likelihoods, some_kinds};
use crate::random::Random;

/// How the 32 metrics of a symbol come about.
#[derive(Clone, Copy, Debug)]
pub enum Kind {
    /// As a detector of 32 tones gives them: the symbol's tone of this amplitude, in noise of
    /// deviation 1.
    Sent(f32),
    /// The same with some of the values in `SPECIAL`.
    Touched(f32),
    /// The symbol's metric so much above all others, and that of another symbol.
    Certain(f32),
    Wrong(f32),
    /// Noise alone, of this deviation.
    Noise(f32),
    /// 32 times the same.
    Same(f32),
    /// Of a few values, so that decisions tie.
    Few,
    /// Next to each other: only the last bits differ.
    Close,
    /// Those in `SPECIAL`.
    Special,
    /// Of any bits.
    Bits,
}

/// Amplitudes from almost no noise to little else. At those from 2.8 down to 1.6 one after another of
/// the four rates needs many rounds and then fails.
pub const LEVELS: [f32; 14] = [
    9.0, 4.5, 3.5, 3.0, 2.8, 2.6, 2.4, 2.3, 2.2, 2.1, 2.0, 1.8, 1.6, 0.5,
];

/// Each kind, those that make a symbol uniform too.
pub const KINDS: [Kind; 16] = [
    Kind::Sent(2.5),
    Kind::Touched(3.0),
    Kind::Certain(61.0),
    Kind::Certain(f32::INFINITY),
    Kind::Wrong(8.0),
    Kind::Noise(1.0),
    Kind::Same(0.0),
    Kind::Same(-0.0),
    Kind::Same(f32::NAN),
    Kind::Same(f32::INFINITY),
    Kind::Same(f32::NEG_INFINITY),
    Kind::Same(f32::MIN),
    Kind::Few,
    Kind::Close,
    Kind::Special,
    Kind::Bits,
];

/// Where floats end or are of another kind, and where the channel's rule is: NaNs of both signs, also
/// one that signals, infinities, zeros, subnormals, the least normal ones, the greatest.
const SPECIAL: [u32; 22] = [
    0x7FC0_0000,
    0xFFC0_0001,
    0x7F80_0001,
    0x7F80_0000,
    0xFF80_0000,
    0x0000_0000,
    0x8000_0000,
    0x0000_0001,
    0x8000_0001,
    0x007F_FFFF,
    0x807F_FFFF,
    0x0080_0000,
    0x8080_0000,
    0x7F7F_FFFF,
    0xFF7F_FFFF,
    0x7F00_0000,
    0x3F80_0000,
    0xBF80_0000,
    0x4270_0000,
    0xC270_0000,
    0xC26F_FFFF,
    0xC270_0001,
];

/// The metrics of a word, each symbol's by one of the kinds.
pub fn of(random: &mut Random, word: &[u8], kinds: &[Kind]) -> Likelihoods {
    Likelihoods::of(random, word, kinds, vector)
}

/// The metrics of a word, by one kind or by some.
pub fn at_random(random: &mut Random, word: &[u8]) -> Likelihoods {
    let kinds = some_kinds(random, any);
    of(random, word, &kinds)
}

fn any(random: &mut Random) -> Kind {
    let level = LEVELS[random.below(LEVELS.len())];
    let size = [1e-3, 1.0, 8.0, 59.0, 61.0, 1e6, 3e38][random.below(7)];
    match random.below(16) {
        0..=5 => Kind::Sent(level),
        6 => Kind::Touched(level),
        7 => Kind::Certain(size),
        8 => Kind::Wrong(size),
        9 => Kind::Noise(size),
        10 => Kind::Same(0.0),
        11 => Kind::Same(special(random)),
        12 => Kind::Few,
        13 => Kind::Close,
        14 => Kind::Special,
        _ => Kind::Bits,
    }
}

pub fn vector(random: &mut Random, symbol: u8, kind: Kind) -> [f32; 32] {
    let symbol = usize::from(symbol % 32);
    let mut vector = [0.0; 32];
    match kind {
        Kind::Sent(amplitude) => set_sent(random, &mut vector, symbol, amplitude),
        Kind::Touched(amplitude) => {
            set_sent(random, &mut vector, symbol, amplitude);
            for _ in 0..1 + random.below(3) {
                vector[random.below(32)] = special(random);
            }
        }
        Kind::Certain(size) => vector[symbol] = size,
        Kind::Wrong(size) => vector[symbol ^ (1 + random.below(31))] = size,
        Kind::Noise(size) => fill(&mut vector, || size * normal(random)),
        Kind::Same(value) => vector = [value; 32],
        Kind::Few => {
            let few = [(); 3].map(|_| random.below(4) as f32);
            fill(&mut vector, || few[random.below(3)]);
        }
        Kind::Close => {
            let bits = (100.0 * normal(random)).to_bits();
            fill(&mut vector, || {
                f32::from_bits(bits.wrapping_add(random.below(3) as u32))
            });
        }
        Kind::Special => fill(&mut vector, || special(random)),
        Kind::Bits => fill(&mut vector, || f32::from_bits(random.next() as u32)),
    }
    vector
}

pub fn fill(vector: &mut [f32; 32], mut value: impl FnMut() -> f32) {
    for x in vector {
        *x = value();
    }
}

fn set_sent(random: &mut Random, vector: &mut [f32; 32], symbol: usize, amplitude: f32) {
    fill(vector, || amplitude * normal(random));
    vector[symbol] += amplitude * amplitude;
}

pub fn special(random: &mut Random) -> f32 {
    f32::from_bits(SPECIAL[random.below(SPECIAL.len())])
}

/// Nearly normal, of deviation 1: the sum of twelve numbers between 0 and 1, less 6.
fn normal(random: &mut Random) -> f32 {
    let unit = |_| (random.next() >> 40) as f32 / 16_777_216.0;
    (0..12).map(unit).sum::<f32>() - 6.0
}
