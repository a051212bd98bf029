//! A frame to decode: what the calls are asked, and what the original makes of it.

use crate::float::{Float, lent, plain};
use crate::frame::{BITS, DEFAULT_FALLBACK, Pair, fallback_of, layout_of, rate_of};
use crate::likelihoods::Likelihoods;
use crate::oracle::{
    Fallback, Layout, Rate, decode_bits, decode_bits_prior, decode_bits_prior_at,
    decode_bits_prior_fb, decode_bits_prior_with, decode_bits_told, n_for,
};
use crate::priors::Priors;
use crate::work_parts::Lengths;
use std::fmt;

/// The calls that decode a frame; each takes less than the one before it.
#[derive(Clone, Copy, PartialEq)]
pub enum By {
    At,
    Fb,
    With,
    Prior,
    Nothing,
}

impl By {
    pub const ALL: [Self; 5] = [Self::At, Self::Fb, Self::With, Self::Prior, Self::Nothing];

    pub const NAMES: [&str; 5] = [
        "decode_bits_prior_at",
        "decode_bits_prior_fb",
        "decode_bits_prior_with",
        "decode_bits_prior",
        "decode_bits",
    ];

    /// Its place among the calls' names.
    pub fn index(self) -> usize {
        self as usize
    }
}

/// One call: its numbers, what it reads, and the lengths of its other parts.
#[derive(Clone)]
pub struct Frame {
    pub by: By,
    pub rate: usize,
    pub layout: usize,
    pub fallback: usize,
    pub metrics: Likelihoods,
    pub priors: Priors,
    pub bits: usize,
    pub posteriors: usize,
    pub work: Lengths,
}

/// What a frame's decoding comes to. Bits and posteriors are those that are written, where some are.
pub struct Answer {
    pub number: u8,
    pub rounds: u32,
    pub bits: Option<Vec<u8>>,
    pub posteriors: Option<Vec<Float>>,
    /// Whether the word, accepted or refused by 11, is the list's.
    pub is_from_list: bool,
}

impl Frame {
    /// By the call that takes everything, every part of the right length.
    pub fn new(pair: Pair, fallback: usize, metrics: Likelihoods, priors: Priors) -> Self {
        Self {
            by: By::At,
            rate: pair.rate,
            layout: pair.layout,
            fallback,
            posteriors: metrics.floats.len(),
            metrics,
            priors,
            bits: BITS,
            work: Lengths::DECODING,
        }
    }

    /// The same by another call, with the default of what that does not take.
    pub fn by(&self, by: By) -> Self {
        let mut frame = self.clone();
        frame.by = by;
        if by != By::At {
            frame.rate = Pair::DEFAULT.rate;
        }
        if matches!(by, By::With | By::Prior | By::Nothing) {
            frame.fallback = DEFAULT_FALLBACK;
        }
        if matches!(by, By::Prior | By::Nothing) {
            frame.layout = Pair::DEFAULT.layout;
        }
        if by == By::Nothing {
            frame.priors = Priors::none();
        }
        frame
    }

    pub fn with_priors(&self, priors: Priors) -> Self {
        Self {
            priors,
            ..self.clone()
        }
    }

    /// What it names, where there are all of them.
    fn named(&self) -> Option<(Rate, Layout, Fallback)> {
        Some((
            rate_of(self.rate)?,
            layout_of(self.layout)?,
            fallback_of(self.fallback)?,
        ))
    }

    /// 1 and then 3, 0 where the call is not turned down by them. Priors may be any number of entries.
    pub fn refusal(&self) -> u8 {
        let Some((rate, _, _)) = self.named() else {
            return 1;
        };
        let length = 32 * n_for(rate);
        let fits = self.metrics.floats.len() == length
            && self.bits == BITS
            && self.posteriors == length
            && self.work == Lengths::DECODING;
        if fits { 0 } else { 3 }
    }

    /// The original's answer; where the call is turned down before its work, which is by 1 or 3, a
    /// number alone and a count of no rounds.
    pub fn answer(&self) -> Answer {
        match self.refusal() {
            0 => self.told(),
            number => Answer {
                number,
                rounds: 0,
                bits: None,
                posteriors: None,
                is_from_list: false,
            },
        }
    }

    fn told(&self) -> Answer {
        let (rate, layout, fallback) = self.named().expect("rate, layout and fallback");
        let metrics = plain(&self.metrics.floats);
        let priors = plain(&self.priors.floats);
        let (bits, is_from_list, rounds, posteriors) =
            decode_bits_told(rate, layout, &metrics, &priors, fallback);
        assert!(
            posteriors.iter().all(|x| !x.is_nan()),
            "no posterior is a NaN, so they are compared by their bits"
        );
        Answer {
            number: *bits.as_ref().err().unwrap_or(&0),
            rounds: rounds as u32,
            bits: bits.ok(),
            posteriors: Some(lent(posteriors)),
            is_from_list,
        }
    }

    /// The bits by the original's own call of the same name.
    pub fn original_bits(&self) -> Option<Vec<u8>> {
        let (rate, layout, fallback) = self.named().expect("rate, layout and fallback");
        let metrics = plain(&self.metrics.floats);
        let priors = plain(&self.priors.floats);
        match self.by {
            By::At => decode_bits_prior_at(rate, layout, &metrics, &priors, fallback),
            By::Fb => decode_bits_prior_fb(layout, &metrics, &priors, fallback),
            By::With => decode_bits_prior_with(layout, &metrics, &priors),
            By::Prior => decode_bits_prior(&metrics, &priors),
            By::Nothing => decode_bits(&metrics),
        }
    }
}

impl fmt::Display for Frame {
    fn fmt(&self, f: &mut fmt::Formatter) -> fmt::Result {
        let Self {
            rate,
            layout,
            fallback,
            ..
        } = self;
        write!(f, "{}(rate {rate}", By::NAMES[self.by.index()])?;
        write!(f, ", layout {layout}, fallback {fallback}")?;
        write!(f, ", metrics {}, priors {}", self.metrics, self.priors)?;
        write!(f, ", bits of {}", self.bits)?;
        write!(f, ", posteriors of {}", self.posteriors)?;
        if self.work != Lengths::DECODING {
            write!(f, ", {:?}", self.work)?;
        }
        write!(f, ")")
    }
}
