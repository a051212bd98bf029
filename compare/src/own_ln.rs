//! The original with the Rust's own ln beside itself without: how often that changes a word. It is
//! listed and not judged.

use crate::list_decode_call::ListDecoding;
use crate::oracle::{NbCode, OwnCode};

/// Wider list decodings are not counted, so that it costs little.
const COUNTED: usize = 10;

/// List decodings, and in how many of them the word differs.
pub struct OwnLn {
    of: &'static str,
    decodings: u64,
    words: u64,
}

impl OwnLn {
    pub fn new(of: &'static str) -> Self {
        Self {
            of,
            decodings: 0,
            words: 0,
        }
    }

    /// Counts a list decoding.
    pub fn count(&mut self, built: &NbCode, list: &ListDecoding) {
        if list.width > COUNTED {
            return;
        }
        let [metrics, posteriors] = list.plain();
        let word = OwnCode::from(built).list_decode(&metrics, &posteriors, list.width);
        self.decodings += 1;
        self.words += u64::from(word != list.decoded(built));
    }

    /// Prints the counts.
    pub fn finish(self) {
        let Self {
            of,
            decodings,
            words,
        } = self;
        println!(
            "the Rust's own ln, not judged, {of}: list decodings {decodings}, of them other words {words}"
        );
    }
}
