//! Posteriors to decode around: 32 finite floats for each symbol of a word, of either sign. Whether
//! they sum to 1 does not matter.

use crate::decode_call::Decoding;
use crate::likelihoods::{Likelihoods, some_kinds};
use crate::metrics::{self, fill};
use crate::oracle::NbCode;
use crate::random::Random;

/// How the 32 posteriors of a symbol come about.
#[derive(Clone, Copy, Debug)]
pub enum Kind {
    /// As metrics do, by a kind of which all floats are finite.
    Like(metrics::Kind),
    /// Between 0 and 1.
    Unit,
    /// The same with some of the values in `EDGES`.
    Touched,
    /// Those in `EDGES`.
    Edges,
    /// The symbol's next to 1, another's far below, and the rest 0: margins so great and so near to
    /// each other that few of their logarithms differ.
    Steep,
    /// Of any bits that are finite.
    Bits,
}

use Kind::{Bits, Edges, Like, Steep, Touched, Unit};
use metrics::Kind::{Certain, Close, Few, Noise, Same, Sent, Wrong};

/// Each kind, those whose margins all tie too.
pub const KINDS: [Kind; 18] = [
    Like(Sent(2.5)),
    Like(Certain(1.0)),
    Like(Certain(f32::MAX)),
    Like(Wrong(8.0)),
    Like(Noise(1.0)),
    Like(Noise(1e-30)),
    Like(Same(0.0)),
    Like(Same(-0.0)),
    Like(Same(1e-30)),
    Like(Same(f32::MAX)),
    Like(Same(f32::MIN)),
    Like(Few),
    Like(Close),
    Unit,
    Touched,
    Edges,
    Steep,
    Bits,
];

/// Where finite floats end or are of another kind, and where the margin's rule is: zeros, subnormals,
/// 1e-38, the least normal ones, 1e-30, ones, what by 1e-30 is just below infinity and just not, the
/// greatest; most of them with their neighbours and of both signs.
const EDGES: [u32; 29] = [
    0x0000_0000,
    0x8000_0000,
    0x0000_0001,
    0x8000_0001,
    0x006C_E3EE,
    0x806C_E3EE,
    0x007F_FFFF,
    0x807F_FFFF,
    0x0080_0000,
    0x8080_0000,
    0x0DA2_425F,
    0x0DA2_4260,
    0x0DA2_4261,
    0x8DA2_425F,
    0x8DA2_4260,
    0x8DA2_4261,
    0x3F7F_FFFF,
    0x3F80_0000,
    0x3F80_0001,
    0xBF80_0000,
    0x4DA2_425E,
    0x4DA2_425F,
    0x4DA2_4260,
    0x4DA2_4261,
    0x7F00_0000,
    0x7F7F_FFFE,
    0x7F7F_FFFF,
    0xFF7F_FFFE,
    0xFF7F_FFFF,
];

/// The posteriors of a word, each symbol's by one of the kinds.
pub fn of(random: &mut Random, word: &[u8], kinds: &[Kind]) -> Likelihoods {
    Likelihoods::of(random, word, kinds, vector)
}

/// The posteriors of a word, by one kind or by some.
pub fn at_random(random: &mut Random, word: &[u8]) -> Likelihoods {
    let kinds = some_kinds(random, |random| KINDS[random.below(KINDS.len())]);
    of(random, word, &kinds)
}

/// Those that the original leaves after a decoding, which is not turned down before its rounds.
pub fn after(decoding: &Decoding, built: &NbCode) -> Likelihoods {
    let decoded = decoding.decoded(built);
    Likelihoods {
        name: format!("after {} rounds", decoded.rounds),
        floats: decoded.posteriors,
    }
}

fn vector(random: &mut Random, symbol: u8, kind: Kind) -> [f32; 32] {
    let mut vector = [0.0; 32];
    match kind {
        Like(kind) => vector = metrics::vector(random, symbol, kind),
        Unit => fill(&mut vector, || unit(random)),
        Touched => {
            fill(&mut vector, || unit(random));
            for _ in 0..1 + random.below(3) {
                vector[random.below(32)] = edge(random);
            }
        }
        Edges => fill(&mut vector, || edge(random)),
        Steep => {
            let symbol = usize::from(symbol % 32);
            vector[symbol] = f32::from_bits(0x3F80_0000 + random.below(4) as u32);
            vector[symbol ^ (1 + random.below(31))] = 1e-25;
        }
        Bits => fill(&mut vector, || finite(random)),
    }
    vector
}

fn unit(random: &mut Random) -> f32 {
    (random.next() >> 40) as f32 / 16_777_216.0
}

fn edge(random: &mut Random) -> f32 {
    f32::from_bits(EDGES[random.below(EDGES.len())])
}

/// Of any bits but those with the greatest exponent.
fn finite(random: &mut Random) -> f32 {
    let x = f32::from_bits(random.next() as u32);
    if x.is_finite() { x } else { edge(random) }
}
