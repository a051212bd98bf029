//! The parts that a call that decodes a frame is lent, each guarded, and what must stand in them after
//! it.

use crate::filling::Filling;
use crate::float::Float;
use crate::frame_abi::{self, DecodingParts};
use crate::frame_decoding::{Answer, By, Frame};
use crate::guarded::Guarded;
use crate::report::Case;
use crate::work_parts::WorkParts;

pub struct LentFrame {
    pub metrics: Guarded<Float>,
    priors: Guarded<Float>,
    rounds: Guarded<u32>,
    bits: Guarded<u8>,
    posteriors: Guarded<Float>,
    work: WorkParts,
}

impl LentFrame {
    /// The filling stands in every output part and around every part, and noise of this seed, where
    /// there is one, in the work parts.
    pub fn new(frame: &Frame, filling: &'static Filling, noise: Option<u64>) -> Self {
        let posteriors = vec![filling.float(); frame.posteriors];
        Self {
            metrics: Guarded::new(&frame.metrics.floats, filling.float()),
            priors: Guarded::new(&frame.priors.floats, filling.float()),
            rounds: Guarded::new(&[filling.long()], filling.long()),
            bits: Guarded::new(&vec![filling.narrow; frame.bits], filling.narrow),
            posteriors: Guarded::new(&posteriors, filling.float()),
            work: WorkParts::new(frame.work, filling, noise),
        }
    }

    /// Makes the call, and gives its number.
    pub fn call(&mut self, frame: &Frame) -> u8 {
        let Frame {
            rate,
            layout,
            fallback,
            ..
        } = *frame;
        let priors = self.priors.lend();
        let parts = DecodingParts {
            metrics: self.metrics.lend(),
            rounds: self.rounds.lend_one(),
            bits: self.bits.lend(),
            posteriors: self.posteriors.lend(),
            work: self.work.lend(),
        };
        match frame.by {
            By::At => frame_abi::decode_bits_prior_at(rate, layout, priors, fallback, parts),
            By::Fb => frame_abi::decode_bits_prior_fb(layout, priors, fallback, parts),
            By::With => frame_abi::decode_bits_prior_with(layout, priors, parts),
            By::Prior => frame_abi::decode_bits_prior(priors, parts),
            By::Nothing => frame_abi::decode_bits(parts),
        }
    }

    pub fn rounds(&self) -> u32 {
        self.rounds.part()[0]
    }

    pub fn posteriors(&self) -> &[Float] {
        self.posteriors.part()
    }

    /// A call leaves what it reads as it was, the count whatever its number, and in bits and posteriors
    /// the answer or what was there.
    pub fn compare(&self, case: &mut Case, frame: &Frame, filling: &Filling, answer: &Answer) {
        self.metrics.compare(case, "metrics", &frame.metrics.floats);
        self.priors.compare(case, "priors", &frame.priors.floats);
        self.rounds.compare_one(case, "rounds", answer.rounds);
        let before = vec![filling.narrow; frame.bits];
        let bits = answer.bits.as_ref().unwrap_or(&before);
        self.bits.compare(case, "bits", bits);
        let before = vec![filling.float(); frame.posteriors];
        let posteriors = answer.posteriors.as_ref().unwrap_or(&before);
        self.posteriors.compare(case, "posteriors", posteriors);
        self.work.compare(case, answer.number);
    }
}
