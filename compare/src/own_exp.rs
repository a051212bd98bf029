//! The original with the Rust's own exp beside itself with document 01's: how often that changes an
//! answer. It is listed and not judged.

use crate::decode_call::{Decoded, Decoding};
use crate::float::{lent, plain};
use crate::oracle::{NbCode, OwnCode};

/// Decodings, and in how many of them something differs.
pub struct OwnExp {
    of: &'static str,
    decodings: u64,
    numbers: u64,
    rounds: u64,
    /// Among those that both accept.
    words: u64,
    posteriors: u64,
}

impl OwnExp {
    pub fn new(of: &'static str) -> Self {
        Self {
            of,
            decodings: 0,
            numbers: 0,
            rounds: 0,
            words: 0,
            posteriors: 0,
        }
    }

    /// Counts a decoding, which came to `decoded` with document 01's exp.
    pub fn count(&mut self, built: &NbCode, decoding: &Decoding, decoded: &Decoded) {
        let (word, rounds, posteriors) = OwnCode::from(built).decode_rounds(
            &plain(&decoding.metrics.floats),
            decoding.known as usize,
            decoding.limit as usize,
        );
        let both = word.is_some() && decoded.word.is_some();
        self.decodings += 1;
        self.numbers += u64::from(word.is_some() != decoded.word.is_some());
        self.rounds += u64::from(rounds as u32 != decoded.rounds);
        self.words += u64::from(both && word != decoded.word);
        self.posteriors += u64::from(lent(posteriors) != decoded.posteriors);
    }

    /// Prints the counts.
    pub fn finish(self) {
        let Self {
            of,
            decodings,
            numbers,
            rounds,
            words,
            posteriors,
        } = self;
        println!(
            "the Rust's own exp, not judged, {of}: decodings {decodings}, of them other refusals {numbers}, rounds {rounds}, words {words}, bits of posteriors {posteriors}"
        );
    }
}
