//! Frames decoded: the five calls beside the original's, at all rates, layouts and fallbacks.

use crate::frame::{BITS, FALLBACKS, LAYOUTS, Pair, SYMBOLS, pairs};
use crate::frame_decoding::{By, Frame};
use crate::frame_tallies::FrameTallies;
use crate::likelihoods::Likelihoods;
use crate::metrics::{self, KINDS as METRICS, Kind};
use crate::oracle::{RATES, encode_bits_at};
use crate::priors::{ALONE, KINDS, LENGTHS, Priors};
use crate::random::Random;
use std::iter;

/// A notice and the word that is sent for it.
pub struct Sent {
    pub bits: Vec<u8>,
    pub word: Vec<u8>,
}

impl Sent {
    pub fn at_random(random: &mut Random, pair: Pair) -> Self {
        let bits = random.symbols(BITS, 2);
        let word = encode_bits_at(pair.rate(), pair.layout(), &bits);
        Self { bits, word }
    }

    /// In noise of this level.
    pub fn in_noise(&self, random: &mut Random, level: f32) -> Likelihoods {
        metrics::of(random, &self.word, &[Kind::Sent(level)])
    }
}

/// Amplitudes of tones at which some words of each rate are found after a few rounds, and the parts of them
/// that are tried, from ones that the first round sees through to ones that no round does.
const LEVELS: [f32; 4] = [2.4, 2.5, 2.8, 3.0];
const PARTS: [f32; 8] = [3.0, 1.6, 1.3, 1.15, 1.08, 1.03, 1.0, 0.9];

fn level(random: &mut Random, pair: Pair) -> f32 {
    LEVELS[pair.rate] * PARTS[random.below(PARTS.len())]
}

/// So many frames at random.
const RANDOM: usize = 500;

/// One of so many frames of rate 0 also by the calls that take less: of those in the default layout, and of
/// the others.
const SAMPLES: [u64; 2] = [3, 5];

/// All frames but those that are turned down, and those of the traps and the places.
pub fn compare(tallies: &mut FrameTallies) {
    let mut random = Random::new();
    for pair in pairs() {
        for fallback in 0..FALLBACKS.len() {
            compare_priors(tallies, &mut random, pair, fallback);
            compare_padding(tallies, &mut random, pair, fallback);
        }
        compare_metrics(tallies, &mut random, pair);
    }
    compare_late(tallies, &mut random);
    for _ in 0..RANDOM {
        let frame = at_random(&mut random);
        ask(tallies, &frame);
    }
}

/// A frame by the call that takes everything, and at times by those that take less where it is of their
/// rate: by all of them where it is of their layout too, otherwise by those that take its.
fn ask(tallies: &mut FrameTallies, frame: &Frame) {
    tallies.ask(frame);
    let (by, sample): (&[By], u64) = match (frame.rate, frame.layout) {
        (0, 2) => (&By::ALL[1..], SAMPLES[0]),
        (0, _) => (&[By::Fb, By::With], SAMPLES[1]),
        _ => return,
    };
    if tallies.cases().is_multiple_of(sample) {
        for &by in by {
            tallies.ask(&frame.by(by));
        }
    }
}

/// Every kind of priors of every length, over words in noise. Of the lengths next to 256 and past it a
/// quarter of the kinds, others for the other fallback and for the layouts next to it.
fn compare_priors(tallies: &mut FrameTallies, random: &mut Random, pair: Pair, fallback: usize) {
    for length in LENGTHS {
        for (i, kind) in KINDS.into_iter().enumerate() {
            let are_all = matches!(length, 1 | BITS);
            let turn = 2 * fallback + length + pair.layout;
            if are_all || (length > 0 && i % 4 == turn % 4) {
                let sent = Sent::at_random(random, pair);
                let priors = Priors::of(random, &sent.bits, length, kind);
                ask(tallies, &in_noise(random, pair, fallback, &sent, priors));
            }
        }
    }
    let alone = ALONE.map(Priors::alone).into_iter();
    for priors in alone.chain([Priors::none()]) {
        let sent = Sent::at_random(random, pair);
        ask(tallies, &in_noise(random, pair, fallback, &sent, priors));
    }
}

fn in_noise(
    random: &mut Random,
    pair: Pair,
    fallback: usize,
    sent: &Sent,
    priors: Priors,
) -> Frame {
    let level = level(random, pair);
    Frame::new(pair, fallback, sent.in_noise(random, level), priors)
}

/// How much above the others the metrics of a word with padding bits may be: a padding bit of 1 takes 100
/// away, and there are four.
const CERTAIN: [f32; 6] = [61.0, 150.0, 250.0, 399.0, 500.0, 1e6];

/// Words whose padding bits are not 0: found by the first round where they are certain enough; and certain
/// in the information symbols alone, in noise that no round sees through, by the list.
fn compare_padding(tallies: &mut FrameTallies, random: &mut Random, pair: Pair, fallback: usize) {
    let code = pair.layout().code(pair.rate());
    for size in CERTAIN {
        let word = code.encode(&random.symbols(SYMBOLS, 32));
        let mut metrics = metrics::of(random, &word, &[Kind::Certain(size)]);
        let blind = Frame::new(pair, fallback, metrics.clone(), Priors::none());
        ask(tallies, &blind);
        let noise = metrics::of(random, &word, &[Kind::Noise(20.0)]);
        for &v in &code.parity {
            let vector = 32 * v..32 * v + 32;
            metrics.floats[vector.clone()].copy_from_slice(&noise.floats[vector]);
        }
        metrics.name = format!("{}, of parity {}", metrics.name, noise.name);
        let sent = random.symbols(BITS, 2);
        let priors = Priors::at_random(random, &sent);
        ask(tallies, &Frame::new(pair, fallback, metrics, priors));
    }
}

/// Metrics of each kind, with priors of any.
fn compare_metrics(tallies: &mut FrameTallies, random: &mut Random, pair: Pair) {
    for kind in METRICS {
        let sent = Sent::at_random(random, pair);
        let metrics = metrics::of(random, &sent.word, &[kind]);
        let priors = Priors::at_random(random, &sent.bits);
        let fallback = random.below(FALLBACKS.len());
        ask(tallies, &Frame::new(pair, fallback, metrics, priors));
    }
}

/// So many frames that are found after so many rounds, in the noise where they are found at times.
const LATE_FRAMES: usize = 3;
const LATE: u32 = 64;
const LATE_LEVEL: f32 = 2.6;

/// Late frames of the last rate, where the original is quickest to look for them.
fn compare_late(tallies: &mut FrameTallies, random: &mut Random) {
    for layout in [Pair::DEFAULT.layout, LAYOUTS - 1] {
        let pair = Pair { rate: 3, layout };
        let sent = || {
            let sent = Sent::at_random(random, pair);
            let metrics = sent.in_noise(random, LATE_LEVEL);
            Frame::new(pair, 0, metrics, Priors::none())
        };
        let is_late = |frame: &Frame| {
            let answer = frame.answer();
            answer.number == 0 && answer.rounds > LATE
        };
        let late = iter::repeat_with(sent).filter(is_late).take(LATE_FRAMES);
        for frame in late {
            tallies.ask(&frame);
        }
    }
}

/// Metrics of every kind of a notice's word, or of one whose padding bits are as they come, or of no word.
fn at_random(random: &mut Random) -> Frame {
    let pair = Pair {
        rate: random.below(RATES.len()),
        layout: random.below(LAYOUTS),
    };
    let Sent { bits, mut word } = Sent::at_random(random, pair);
    match random.below(8) {
        0 => word = random.symbols(pair.n(), 32),
        1 | 2 => {
            let code = pair.layout().code(pair.rate());
            word = code.encode(&random.symbols(SYMBOLS, 32));
        }
        _ => (),
    }
    let metrics = metrics::at_random(random, &word);
    let priors = Priors::at_random(random, &bits);
    Frame::new(pair, random.below(FALLBACKS.len()), metrics, priors)
}
