//! What `decode_soft` and `decode` are asked of a lent code, and what the original makes of it.

use crate::float::{Float, lent, plain};
use crate::likelihoods::Likelihoods;
use crate::oracle::NbCode;
use std::fmt;

/// The length of the work part `vectors`.
pub const VECTORS: usize = 50_176;

/// What both calls are given beside the code, and the lengths of what they fill and work in.
#[derive(Clone)]
pub struct Decoding {
    pub metrics: Likelihoods,
    pub known: u32,
    pub limit: u32,
    pub word: usize,
    /// Only `decode_soft` has posteriors.
    pub posteriors: Option<usize>,
    pub vectors: usize,
}

/// What the rounds come to: the number, how many were done, the word where one is found, and the
/// last posteriors.
pub struct Decoded {
    pub number: u8,
    pub rounds: u32,
    pub word: Option<Vec<u8>>,
    pub posteriors: Vec<Float>,
}

impl Decoding {
    /// With posteriors, and every part of the length that metrics of n symbols ask for.
    pub fn new(metrics: Likelihoods, known: u32, limit: u32) -> Self {
        let length = metrics.floats.len();
        Self {
            metrics,
            known,
            limit,
            word: length / 32,
            posteriors: Some(length),
            vectors: VECTORS,
        }
    }

    pub fn without_posteriors(&self) -> Self {
        Self {
            posteriors: None,
            ..self.clone()
        }
    }

    pub fn with_limit(&self, limit: u32) -> Self {
        Self {
            limit,
            ..self.clone()
        }
    }

    /// "words .. n; metrics and posteriors 32·n", and the work part's own length.
    pub fn fits(&self, n: usize) -> bool {
        self.metrics.floats.len() == 32 * n
            && self.word == n
            && self.posteriors.is_none_or(|length| length == 32 * n)
            && self.vectors == VECTORS
    }

    /// Number 9: "With one round or more, a check of degree above 32".
    pub fn is_above_degree(&self, built: &NbCode) -> bool {
        let mut degrees = built.row.windows(2).map(|ends| ends[1] - ends[0]);
        self.limit >= 1 && degrees.any(|degree| degree > 32)
    }

    /// By the original, which takes known counts above the number of information positions too.
    pub fn decoded(&self, built: &NbCode) -> Decoded {
        let metrics = plain(&self.metrics.floats);
        let (word, rounds, posteriors) =
            built.decode_rounds(&metrics, self.known as usize, self.limit as usize);
        assert!(
            posteriors.iter().all(|x| !x.is_nan()),
            "no posterior is a NaN, so they are compared by their bits"
        );
        Decoded {
            number: if word.is_some() { 0 } else { 10 },
            rounds: rounds as u32,
            word,
            posteriors: lent(posteriors),
        }
    }
}

impl fmt::Display for Decoding {
    fn fmt(&self, f: &mut fmt::Formatter) -> fmt::Result {
        write!(f, "(metrics {}", self.metrics)?;
        write!(f, ", known {}, limit {}", self.known, self.limit)?;
        write!(f, ", word of {}", self.word)?;
        if let Some(length) = self.posteriors {
            write!(f, ", posteriors of {length}")?;
        }
        write!(f, ", vectors of {})", self.vectors)
    }
}
