//! What list decodings choose among: how wide they are, how often ties settle which symbols get an
//! alternative, and how often one is taken.

use crate::list_decode_call::{ListDecoding, WIDEST};
use crate::oracle::NbCode;
use crate::rounds::listed;
use std::array::from_fn;

/// The numbers that turn a list decoding down.
const TURNED_DOWN: [u8; 5] = [2, 3, 6, 7, 8];

/// List decodings that are turned down, by number; the others, by width and by what they have to
/// choose from.
#[derive(Default)]
pub struct Candidates {
    turned_down: [u64; TURNED_DOWN.len()],
    widths: [u64; WIDEST + 1],
    /// Those with fewer information positions than the width.
    few: u64,
    /// Those where a symbol with an alternative and one without have the same margin, and those of
    /// them where it is infinite.
    ties: u64,
    infinite: u64,
    /// Those that find another word than the likeliest symbols encode to.
    others: u64,
    /// Those where that one's score is a NaN.
    nan: u64,
}

impl Candidates {
    /// Counts a list decoding that is turned down.
    pub fn turn_down(&mut self, number: u8) {
        let place = TURNED_DOWN.iter().position(|&other| other == number);
        self.turned_down[place.expect("a list decoding's number")] += 1;
    }

    /// Counts one that is not, and came to `word`.
    pub fn count(&mut self, built: &NbCode, list: &ListDecoding, word: &[u8]) {
        let [metrics, posteriors] = list.plain();
        let vectors = built.info.iter().map(|&v| &posteriors[32 * v..32 * v + 32]);
        let (symbols, mut margins): (Vec<u8>, Vec<f32>) = vectors.map(likeliest).unzip();
        margins.sort_by(f32::total_cmp);
        let tied = tied(&margins, list.width);
        let first = built.encode(&symbols);
        let score: f32 = (0..)
            .zip(&first)
            .map(|(v, &x)| metrics[32 * v + usize::from(x)])
            .sum();
        self.widths[list.width] += 1;
        self.few += u64::from(margins.len() < list.width);
        self.ties += u64::from(tied.is_some());
        self.infinite += u64::from(tied == Some(f32::INFINITY));
        self.others += u64::from(word != first);
        self.nan += u64::from(score.is_nan());
        assert!(
            !score.is_nan() || word == first,
            "a NaN score is never beaten"
        );
    }

    /// Prints the counts.
    pub fn finish(self) {
        let Self {
            turned_down,
            widths,
            few,
            ties,
            infinite,
            others,
            nan,
        } = self;
        let all: [usize; WIDEST + 1] = from_fn(|width| width);
        println!(
            "list decodings accepted: {}, by width {}",
            widths.iter().sum::<u64>(),
            listed(&all, &widths)
        );
        println!(
            "  of them with fewer information positions {few}, ties in margin at the width {ties}, and at infinity {infinite}, other words than the likeliest symbols' {others}, NaN scores of that one {nan}"
        );
        println!(
            "list decodings turned down, by number {}",
            listed(&TURNED_DOWN, &turned_down)
        );
        let kinds = [few, ties, infinite, others, nan];
        let mut counts = widths.iter().chain(&kinds).chain(&turned_down);
        assert!(
            counts.all(|&count| count > 0),
            "list decodings of every kind"
        );
    }
}

/// The likeliest symbol, the lowest of equal ones, and how many times as likely as the second it is,
/// both raised to 1e-30.
fn likeliest(posteriors: &[f32]) -> (u8, f32) {
    let mut symbols: Vec<usize> = (0..32).collect();
    symbols.sort_by(|&x, &y| posteriors[y].partial_cmp(&posteriors[x]).expect("finite"));
    let [first, second] = [0, 1].map(|i| posteriors[symbols[i]].max(1e-30));
    (symbols[0] as u8, first / second)
}

/// The margin on both sides of the width, where it is the same; they ascend.
fn tied(margins: &[f32], width: usize) -> Option<f32> {
    let last = margins.get(..width)?.last()?;
    let next = margins.get(width)?;
    (last == next).then_some(*last)
}
