//! Three readings of a frame's priors that are wrong, each with frames where it gives another answer than
//! the original, which is what ours is held to.
//!
//! - The test for priors looks at the first 256 entries alone.
//! - Priors are applied where a bit is not: by packed position instead of by bit, and where the map moves
//!   symbols, to the slot of the symbol's own number.
//! - Priors of zeros alone are priors.
//!
//! The wrong answer is the original's own, to priors by which it does what the wrong reading would.

use crate::float::{Float, plain};
use crate::frame::{BITS, Pair, SYMBOLS, pairs};
use crate::frame_decoding::Frame;
use crate::frame_tallies::FrameTallies;
use crate::frames::Sent;
use crate::likelihoods::Likelihoods;
use crate::metrics::{self, Kind};
use crate::oracle::{BitMap, Tables};
use crate::priors::{ALONE, Kind as Prior, Priors};
use crate::random::Random;

/// Frames, and those of them that the wrong reading answers in another way.
#[derive(Default)]
struct Trap {
    frames: u64,
    caught: u64,
}

pub fn compare(tallies: &mut FrameTallies) {
    let mut random = Random::new();
    let [mut cut, mut moved, mut zeros] = [(); 3].map(|()| Trap::default());
    for pair in pairs() {
        compare_cut(tallies, &mut random, pair, &mut cut);
        compare_zeros(tallies, &mut random, pair, &mut zeros);
        // The plain map moves nothing.
        if pair.layout().map != BitMap::Plain {
            compare_moved(tallies, &mut random, pair, &mut moved);
        }
    }
    cut.finish("a test for priors cut at 256 entries");
    moved.finish("priors by packed position or by slot");
    zeros.finish("zeros taken for priors");
}

impl Trap {
    /// Compares a frame, and counts whether the wrong reading gives another answer.
    fn ask(&mut self, tallies: &mut FrameTallies, frame: &Frame, wrong: Priors) {
        let right = tallies.ask(frame).answer;
        let wrong = frame.with_priors(wrong).answer();
        let differs = right.number != wrong.number
            || right.rounds != wrong.rounds
            || right.bits != wrong.bits
            || right.posteriors != wrong.posteriors;
        self.frames += 1;
        self.caught += u64::from(differs);
    }

    fn finish(self, name: &str) {
        let Self { frames, caught } = self;
        println!("trap, {name}: frames {frames}, of them with another answer {caught}");
        assert!(
            frames > 0 && caught == frames,
            "the trap shows in each frame"
        );
    }
}

/// Noise that no round sees through: only the list finds a word.
fn noise(random: &mut Random, pair: Pair) -> Likelihoods {
    metrics::of(random, &vec![0; pair.n()], &[Kind::Noise(3.0)])
}

/// An entry past the 256th alone is not 0.0.
fn compare_cut(tallies: &mut FrameTallies, random: &mut Random, pair: Pair, trap: &mut Trap) {
    for (i, alone) in ALONE.into_iter().enumerate() {
        let priors = Priors::alone(alone);
        // Half of them at each layout, but all at each rate.
        if priors.are_some() && i % 2 == pair.layout % 2 {
            let mut wrong = priors.clone();
            wrong.floats.truncate(BITS);
            let frame = Frame::new(pair, 1, noise(random, pair), priors);
            trap.ask(tallies, &frame, wrong);
        }
    }
}

/// Zeros of one sign, of the other and of both, of several lengths.
fn compare_zeros(tallies: &mut FrameTallies, random: &mut Random, pair: Pair, trap: &mut Trap) {
    let kinds = [Prior::Same(0.0), Prior::Same(-0.0), Prior::Zeros];
    for (i, kind) in kinds.into_iter().enumerate() {
        let lengths = [1, 256, 257, 260].into_iter().skip(i % 2).step_by(2);
        for length in lengths {
            let priors = Priors::of(random, &[], length, kind);
            let mut wrong = priors.clone();
            wrong.floats.resize(length.max(BITS), 0.0.into());
            wrong.floats.push(1.0.into());
            let frame = Frame::new(pair, 1, noise(random, pair), priors);
            trap.ask(tallies, &frame, wrong);
        }
    }
}

/// Right priors, over words in noise.
fn compare_moved(tallies: &mut FrameTallies, random: &mut Random, pair: Pair, trap: &mut Trap) {
    let tables = pair.layout().tables(pair.rate());
    for length in [200, 255, 256, 257, 260] {
        for fallback in [0, 1] {
            let sent = Sent::at_random(random, pair);
            let priors = Priors::of(random, &sent.bits, length, Prior::Right(6.0));
            let wrong = moved(tables, &priors);
            let frame = Frame::new(pair, fallback, sent.in_noise(random, 2.2), priors);
            trap.ask(tallies, &frame, wrong);
        }
    }
}

/// The priors by which the original adds at the k-th bit of slot j what stands in entry 5·j + k. An entry
/// that would go to a padding bit is dropped, and one that is missing is 0.0.
fn moved(tables: &Tables, priors: &Priors) -> Priors {
    let mut floats = vec![Float::from(0.0); BITS];
    for symbol in 0..SYMBOLS {
        for k in 0..5 {
            let bit = usize::from(tables.bit[5 * symbol + k]);
            let entry = 5 * usize::from(tables.slot[symbol]) + k;
            if let (Some(to), Some(&x)) = (floats.get_mut(bit), priors.floats.get(entry)) {
                *to = x;
            }
        }
    }
    assert!(plain(&floats).iter().any(|&x| x != 0.0), "some are left");
    Priors {
        name: format!("{}, moved", priors.name),
        floats,
    }
}
