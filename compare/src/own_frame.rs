//! Frames by the original with the Rust's own exp and ln beside itself with what stands in for them: how
//! often that changes an answer. It is listed and not judged.

use crate::float::{lent, plain};
use crate::frame::{rate_of, set_and_map};
use crate::frame_decoding::{Answer, Frame};
use crate::oracle::own::{BitMap, Fallback, InfoSet, Layout, decode_bits_told};

/// Frames, and in how many of them something differs.
#[derive(Default)]
pub struct OwnFrames {
    frames: u64,
    numbers: u64,
    rounds: u64,
    /// Among those that both accept.
    bits: u64,
    posteriors: u64,
}

impl OwnFrames {
    /// Counts a frame that is not turned down by 1 or 3, and came to this answer.
    pub fn count(&mut self, frame: &Frame, answer: &Answer) {
        let (set, map) = set_and_map(frame.layout);
        let layout = Layout {
            info: [InfoSet::Echelon, InfoSet::Peeled][set],
            map: BitMap::ALL[map],
        };
        let (bits, _, rounds, posteriors) = decode_bits_told(
            rate_of(frame.rate).expect("a rate"),
            layout,
            &plain(&frame.metrics.floats),
            &plain(&frame.priors.floats),
            Fallback::ALL[frame.fallback],
        );
        let are_both = bits.is_ok() && answer.bits.is_some();
        self.frames += 1;
        self.numbers += u64::from(*bits.as_ref().err().unwrap_or(&0) != answer.number);
        self.rounds += u64::from(rounds as u32 != answer.rounds);
        self.bits += u64::from(are_both && bits.ok() != answer.bits);
        self.posteriors += u64::from(Some(lent(posteriors)) != answer.posteriors);
    }

    /// Prints the counts.
    pub fn finish(self) {
        let Self {
            frames,
            numbers,
            rounds,
            bits,
            posteriors,
        } = self;
        println!(
            "the Rust's own exp and ln, not judged: frames {frames}, of them other refusals {numbers}, rounds {rounds}, bits {bits}, bits of posteriors {posteriors}"
        );
    }
}
