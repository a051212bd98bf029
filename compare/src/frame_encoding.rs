//! A notice's tones: what the calls that encode a frame are asked, and what the original makes of it.

use crate::filling::{BEFORE, Filling};
use crate::frame::{BITS, DEFAULT_LAYOUT, DEFAULT_RATE, layout_of, rate_of};
use crate::frame_abi::{self, EncodingParts};
use crate::guarded::Guarded;
use crate::oracle::{encode_bits, encode_bits_at, encode_bits_with, n_for};
use crate::report::{Case, HeldTo, Tally};
use crate::work_parts::{Lengths, WorkParts};
use std::fmt;

/// The calls, by what they are told of rate and layout.
#[derive(Clone, Copy)]
pub enum By {
    RateAndLayout(usize, usize),
    Layout(usize),
    Nothing,
}

impl By {
    /// Its place among the calls' names.
    fn index(self) -> usize {
        match self {
            By::RateAndLayout(..) => 0,
            By::Layout(_) => 1,
            By::Nothing => 2,
        }
    }

    /// Rate and layout, where a call takes none the default.
    fn numbers(self) -> [usize; 2] {
        match self {
            By::RateAndLayout(rate, layout) => [rate, layout],
            By::Layout(layout) => [DEFAULT_RATE, layout],
            By::Nothing => [DEFAULT_RATE, DEFAULT_LAYOUT],
        }
    }

    /// How many tones there are; any number where there is no such rate.
    pub fn n(self) -> usize {
        rate_of(self.numbers()[0]).map_or(205, n_for)
    }
}

const CALLS: [&str; 3] = ["encode_bits_at", "encode_bits_with", "encode_bits"];

/// One call: its bits, and the lengths of its other parts.
#[derive(Clone)]
pub struct Encoding {
    pub by: By,
    pub bits: Vec<u8>,
    pub tones: usize,
    pub work: Lengths,
}

impl Encoding {
    /// Every part of the right length.
    pub fn new(by: By, bits: Vec<u8>) -> Self {
        Self {
            by,
            bits,
            tones: by.n(),
            work: Lengths::ENCODING,
        }
    }

    /// 1 and then 3, 0 where the call is not turned down.
    pub fn number(&self) -> u8 {
        let [rate, layout] = self.by.numbers();
        match (rate_of(rate), layout_of(layout)) {
            (Some(rate), Some(_)) => {
                let fits = self.bits.len() == BITS
                    && self.tones == n_for(rate)
                    && self.work == Lengths::ENCODING;
                if fits { 0 } else { 3 }
            }
            _ => 1,
        }
    }

    /// The original's tones, by its own call of the same name, where the call is not turned down.
    pub fn tones(&self) -> Vec<u8> {
        let layout = |number| layout_of(number).expect("a layout");
        match self.by {
            By::RateAndLayout(rate, number) => {
                encode_bits_at(rate_of(rate).expect("a rate"), layout(number), &self.bits)
            }
            By::Layout(number) => encode_bits_with(layout(number), &self.bits),
            By::Nothing => encode_bits(&self.bits),
        }
    }

    /// The call with this filling, and with noise or the same in the work parts; gives the parts as ours
    /// left them.
    fn compare(
        &self,
        tally: &mut Tally,
        tones: Option<&[u8]>,
        filling: &'static Filling,
        noise: Option<u64>,
    ) -> LentEncoding {
        let held_to = match tones {
            Some(_) => HeldTo::Rust,
            None => HeldTo::Document,
        };
        let number = self.number();
        let mut lent = LentEncoding::new(self, filling, noise);
        let mut case = Case::held_to(held_to);
        case.value("number", lent.call(self.by), number);
        let before = vec![filling.narrow; self.tones];
        lent.bits.compare(&mut case, "bits", &self.bits);
        lent.tones
            .compare(&mut case, "tones", tones.unwrap_or(&before));
        lent.work.compare(&mut case, number);
        tally.count(case, || {
            format!("{self} with {} in each byte", filling.narrow)
        });
        lent
    }
}

/// The cases of each call.
pub struct EncodingTallies([Tally; CALLS.len()]);

impl EncodingTallies {
    pub fn new() -> Self {
        Self(CALLS.map(Tally::new))
    }

    /// With one filling in every part, and with the other and noise in the work parts; a call that does
    /// its work is made once, with either in turn.
    pub fn ask(&mut self, encoding: &Encoding) -> LentEncoding {
        let tally = &mut self.0[encoding.by.index()];
        let turn = tally.cases();
        let tones = (encoding.number() == 0).then(|| encoding.tones());
        let [filled, noisy] = &BEFORE;
        if tones.is_none() {
            encoding.compare(tally, None, filled, None);
        }
        match turn % 2 {
            0 if tones.is_some() => encoding.compare(tally, tones.as_deref(), filled, None),
            _ => encoding.compare(tally, tones.as_deref(), noisy, Some(turn)),
        }
    }

    /// Prints each call's line and gives the differences of all.
    pub fn finish(self) -> u64 {
        self.0.into_iter().map(Tally::finish).sum()
    }
}

impl fmt::Display for Encoding {
    fn fmt(&self, f: &mut fmt::Formatter) -> fmt::Result {
        let Self {
            by,
            bits,
            tones,
            work,
        } = self;
        let [rate, layout] = by.numbers();
        write!(f, "{}(rate {rate}, layout {layout}", CALLS[by.index()])?;
        write!(f, ", {} bits {bits:?}, tones of {tones}", bits.len())?;
        if *work != Lengths::ENCODING {
            write!(f, ", {work:?}")?;
        }
        write!(f, ")")
    }
}

/// The parts as they are lent to a call.
pub struct LentEncoding {
    pub bits: Guarded<u8>,
    pub tones: Guarded<u8>,
    work: WorkParts,
}

impl LentEncoding {
    pub fn new(encoding: &Encoding, filling: &'static Filling, noise: Option<u64>) -> Self {
        let tones = vec![filling.narrow; encoding.tones];
        Self {
            bits: Guarded::new(&encoding.bits, filling.narrow),
            tones: Guarded::new(&tones, filling.narrow),
            work: WorkParts::new(encoding.work, filling, noise),
        }
    }

    /// Makes the call, and gives its number.
    pub fn call(&mut self, by: By) -> u8 {
        let parts = EncodingParts {
            bits: self.bits.lend(),
            tones: self.tones.lend(),
            work: self.work.lend(),
        };
        match by {
            By::RateAndLayout(rate, layout) => frame_abi::encode_bits_at(rate, layout, parts),
            By::Layout(layout) => frame_abi::encode_bits_with(layout, parts),
            By::Nothing => frame_abi::encode_bits(parts),
        }
    }
}
