//! The tones of notices: the three calls that encode a frame and `hazgunek_bits_to_syms` beside the
//! original's.

use crate::filling::BEFORE;
use crate::frame::{BITS, DEFAULT_LAYOUT, LAYOUTS, pairs, past, wrong};
use crate::frame_abi;
use crate::frame_encoding::{By, Encoding, EncodingTallies};
use crate::guarded::Guarded;
use crate::oracle::{RATES, bits_to_syms};
use crate::random::Random;
use crate::report::{Case, HeldTo, Tally};

/// All comparisons of this layer but the notices of a single bit, which places.rs tries.
pub fn compare(tallies: &mut EncodingTallies) {
    let mut random = Random::new();
    for pair in pairs() {
        let by = By::RateAndLayout(pair.rate, pair.layout);
        for bits in notices(&mut random) {
            tallies.ask(&Encoding::new(by, bits));
        }
    }
    for layout in 0..LAYOUTS {
        for bits in notices(&mut random).into_iter().step_by(SAMPLE) {
            tallies.ask(&Encoding::new(By::Layout(layout), bits));
        }
    }
    for bits in notices(&mut random) {
        tallies.ask(&Encoding::new(By::Nothing, bits));
    }
    for encoding in refused(&mut random) {
        tallies.ask(&encoding);
    }
}

/// Every length up to this one, and some that are longer than any frame's.
const LENGTHS: usize = 300;
const LONG: [usize; 6] = [511, 512, 513, 1_000, 4_099, 65_537];

/// So many draws of any bytes for each length.
const DRAWS: usize = 4;

/// Gives the differences.
pub fn compare_bits_to_syms() -> u64 {
    let mut tally = Tally::new("bits_to_syms");
    let mut random = Random::new();
    assert_eq!(bits_to_syms(&[1, 0, 1]), [20], "bits 1, 0, 1");
    assert_eq!(bits_to_syms(&[1; 6]), [31, 16], "six ones");
    assert_eq!(bits_to_syms(&[]), [0; 0], "no bits");
    for length in (0..=LENGTHS).chain(LONG) {
        let mut all = vec![vec![1; length], vec![254; length], vec![255; length]];
        all.extend([2, 256].map(|limit| random.symbols(length, limit)));
        all.extend((0..DRAWS).map(|_| random.symbols(length, 256)));
        for bits in all {
            let right = length.div_ceil(5);
            for syms in [right].into_iter().chain(wrong(right)) {
                compare_symbols(&mut tally, &bits, syms);
            }
        }
    }
    tally.finish()
}

fn compare_symbols(tally: &mut Tally, bits: &[u8], length: usize) {
    for before in BEFORE.map(|filling| filling.narrow) {
        let (held_to, number, expected) = if length == bits.len().div_ceil(5) {
            (HeldTo::Rust, 0, bits_to_syms(bits))
        } else {
            (HeldTo::Document, 3, vec![before; length])
        };
        let mut read = Guarded::new(bits, before);
        let mut syms = Guarded::new(&vec![before; length], before);
        let mut case = Case::held_to(held_to);
        let ours = frame_abi::bits_to_syms(read.lend(), syms.lend());
        case.value("number", ours, number);
        read.compare(&mut case, "bits", bits);
        syms.compare(&mut case, "symbols", &expected);
        tally.count(case, || {
            format!(
                "bits_to_syms({} bits {bits:?}, symbols of {length})",
                bits.len()
            )
        });
    }
}

/// So many notices of bits, and so many of any bytes, for each rate and layout. One of so many notices goes by
/// the call that takes no rate, and one of so many bits is alone clear.
const OF_BITS: usize = 160;
const OF_BYTES: usize = 80;
const SAMPLE: usize = 5;

/// Notices for a rate and a layout: none, all, bytes whose lowest bit is alone clear or alone set, others
/// with a single bit of each byte, some bits alone clear, and random ones.
fn notices(random: &mut Random) -> Vec<Vec<u8>> {
    let mut all: Vec<Vec<u8>> = [0, 1, 254, 255, 2, 3, 128, 129]
        .map(|byte| vec![byte; BITS])
        .into();
    for bit in (0..BITS).step_by(SAMPLE) {
        all.push((0..BITS).map(|i| 255 - u8::from(i == bit)).collect());
    }
    all.extend((0..OF_BITS).map(|_| random.symbols(BITS, 2)));
    all.extend((0..OF_BYTES).map(|_| random.symbols(BITS, 256)));
    all
}

/// Rates and layouts past the end, each part of another length, and both.
fn refused(random: &mut Random) -> Vec<Encoding> {
    let mut all = Vec::new();
    let rates = past(RATES.len()).into_iter().map(|rate| (rate, 0));
    let layouts = past(LAYOUTS).into_iter().map(|layout| (3, layout));
    let both = [(4, 8), (usize::MAX, 1 << 32)];
    let mut by: Vec<By> = rates
        .chain(layouts)
        .chain(both)
        .map(|(rate, layout)| By::RateAndLayout(rate, layout))
        .collect();
    by.extend(past(LAYOUTS).into_iter().map(By::Layout));
    // At the edges of both.
    by.extend(pairs().map(|pair| By::RateAndLayout(pair.rate, pair.layout)));
    by.extend((0..LAYOUTS).map(By::Layout));
    by.push(By::Nothing);
    for by in by {
        let right = Encoding::new(by, random.symbols(BITS, 256));
        all.extend(with_wrong_lengths(&right));
        all.push(right);
    }
    // The tones of another rate.
    for rate in 0..RATES.len() {
        for tones in [205, 156, 104, 78] {
            let by = By::RateAndLayout(rate, DEFAULT_LAYOUT);
            let bits = random.symbols(BITS, 2);
            all.push(Encoding {
                tones,
                ..Encoding::new(by, bits)
            });
        }
    }
    all
}

/// One part of another length, and all at once.
fn with_wrong_lengths(right: &Encoding) -> Vec<Encoding> {
    let mut all = Vec::new();
    for length in wrong(BITS) {
        let mut encoding = right.clone();
        encoding.bits.resize(length, 1);
        all.push(encoding);
    }
    for tones in wrong(right.tones) {
        all.push(Encoding {
            tones,
            ..right.clone()
        });
    }
    for words in wrong(right.work.words) {
        let mut encoding = right.clone();
        encoding.work.words = words;
        all.push(encoding);
    }
    for bytes in wrong(right.work.bytes) {
        let mut encoding = right.clone();
        encoding.work.bytes = bytes;
        all.push(encoding);
    }
    let mut none = right.clone();
    none.bits.clear();
    (none.tones, none.work.words, none.work.bytes) = (0, 0, 0);
    all.push(none);
    all
}
