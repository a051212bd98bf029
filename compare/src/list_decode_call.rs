//! What `list_decode` is asked of a lent code, and what the original makes of it.

use crate::float::plain;
use crate::likelihoods::Likelihoods;
use crate::oracle::NbCode;
use std::fmt;

/// No wider list is made.
pub const WIDEST: usize = 16;

/// What the call is given beside the code, and the length of the word that it fills.
#[derive(Clone)]
pub struct ListDecoding {
    pub metrics: Likelihoods,
    pub posteriors: Likelihoods,
    pub width: usize,
    pub word: usize,
}

impl ListDecoding {
    /// With a word of the length that metrics of n symbols ask for.
    pub fn new(metrics: Likelihoods, posteriors: Likelihoods, width: usize) -> Self {
        Self {
            word: metrics.floats.len() / 32,
            metrics,
            posteriors,
            width,
        }
    }

    pub fn with_width(&self, width: usize) -> Self {
        Self {
            width,
            ..self.clone()
        }
    }

    /// "words .. n; metrics and posteriors 32·n"
    pub fn fits(&self, n: usize) -> bool {
        let lengths = [&self.metrics, &self.posteriors].map(|part| part.floats.len());
        lengths == [32 * n; 2] && self.word == n
    }

    /// Number 8: "a list width above 16, or a posterior not finite", whichever position it is of.
    pub fn is_out_of_range(&self) -> bool {
        let posteriors = plain(&self.posteriors.floats);
        self.width > WIDEST || posteriors.iter().any(|x| !x.is_finite())
    }

    /// By the original.
    pub fn decoded(&self, built: &NbCode) -> Vec<u8> {
        let [metrics, posteriors] = self.plain();
        built.list_decode(&metrics, &posteriors, self.width)
    }

    /// Metrics and posteriors as the original takes them.
    pub fn plain(&self) -> [Vec<f32>; 2] {
        [&self.metrics, &self.posteriors].map(|part| plain(&part.floats))
    }
}

impl fmt::Display for ListDecoding {
    fn fmt(&self, f: &mut fmt::Formatter) -> fmt::Result {
        write!(f, "(metrics {}", self.metrics)?;
        write!(f, ", posteriors {}", self.posteriors)?;
        write!(f, ", width {}, word of {})", self.width, self.word)
    }
}
