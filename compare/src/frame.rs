//! Rates, sets, layouts and fallbacks by their numbers, as the calls take them, and what a frame's
//! parts are long.

use crate::oracle::{BitMap, Fallback, InfoSet, Layout, RATES, Rate, n_for};

/// A notice has so many bits, and with the padding so many, five to each of so many symbols.
pub const BITS: usize = 256;
pub const PADDED: usize = 260;
pub const SYMBOLS: usize = 52;

/// The lengths of the work parts, as docs/PARTS.md gives them.
pub const WORDS: usize = 2_818;
pub const BYTES: usize = 147_968;
pub const FLOATS: usize = 58_368;

/// The rounds of a frame.
pub const FRAME_ROUNDS: usize = 100;

/// So many layouts there are.
pub const LAYOUTS: usize = 8;

/// What stands in for them where a call takes none.
pub const DEFAULT_RATE: usize = 0;
pub const DEFAULT_LAYOUT: usize = 2;
pub const DEFAULT_FALLBACK: usize = 0;

pub const SETS: [InfoSet; 2] = [InfoSet::Echelon, InfoSet::Peeled];
pub const FALLBACKS: [Fallback; 2] = [Fallback::Bp, Fallback::List];

pub fn rate_of(number: usize) -> Option<Rate> {
    RATES.get(number).copied()
}

/// A layout's number is 4 times its set's, and its map's.
pub fn set_and_map(number: usize) -> (usize, usize) {
    (number / BitMap::ALL.len(), number % BitMap::ALL.len())
}

pub fn layout_of(number: usize) -> Option<Layout> {
    let (set, map) = set_and_map(number);
    let info = *SETS.get(set)?;
    Some(Layout {
        info,
        map: BitMap::ALL[map],
    })
}

pub fn fallback_of(number: usize) -> Option<Fallback> {
    FALLBACKS.get(number).copied()
}

/// A rate and a layout that there are, by their numbers.
#[derive(Clone, Copy, PartialEq)]
pub struct Pair {
    pub rate: usize,
    pub layout: usize,
}

impl Pair {
    pub const DEFAULT: Self = Self {
        rate: DEFAULT_RATE,
        layout: DEFAULT_LAYOUT,
    };

    pub fn rate(self) -> Rate {
        RATES[self.rate]
    }

    pub fn layout(self) -> Layout {
        layout_of(self.layout).expect("a layout")
    }

    /// How many symbols a word has.
    pub fn n(self) -> usize {
        n_for(self.rate())
    }
}

/// All 32.
pub fn pairs() -> impl Iterator<Item = Pair> {
    let layouts = |rate| (0..LAYOUTS).map(move |layout| Pair { rate, layout });
    (0..RATES.len()).flat_map(layouts)
}

/// Numbers past the end of a count, also ones that a cast to fewer bits would bring below it.
pub fn past(count: usize) -> Vec<usize> {
    let near = count..count + 4;
    let small = [255, 256, 257, 258, 259].into_iter();
    let cut = [1 << 16, 1 << 32, (1 << 32) + 2, (1 << 63) + 1];
    let ends = [1 << 63, usize::MAX - 1, usize::MAX];
    near.chain(small).chain(cut).chain(ends).collect()
}

/// Wrong lengths of a part: one short, one long, none.
pub fn wrong(right: usize) -> impl Iterator<Item = usize> {
    let lengths = [right.saturating_sub(1), right + 1, 0];
    lengths.into_iter().filter(move |&length| length != right)
}
