//! The speed of frames, ours beside the Rust's. Ours builds its code in each call. The Rust keeps the codes
//! and tables that it has built, and stands here twice: so, with what it keeps at hand, and with the same
//! built anew in each call, as a call of its own that keeps nothing would.

use crate::asked::SEED;
use crate::filling::BEFORE;
use crate::float::{Float, plain};
use crate::frame::{BITS, Pair, SYMBOLS};
use crate::frame_decoding::Frame;
use crate::frame_encoding::{By, Encoding, LentEncoding};
use crate::frames::Sent;
use crate::lent_frame::LentFrame;
use crate::oracle::{
    Fallback, InfoSet, NbCode, RATES, Tables, decode_bits_prior_at, degrees_for, encode_bits_at,
};
use crate::priors::Priors;
use crate::random::Random;
use crate::speed::{best_of, print_ratio};
use std::cell::{Cell, RefCell};
use std::hint::black_box;

/// The layouts that are timed: bits spread, over each information set.
const LAYOUTS: [usize; 2] = [2, 6];

/// So many rounds of a measurement, each with another input for each side.
const TIMES: usize = 20;
const SIDES: usize = 3;

/// The rounds after which a timed frame is found.
const ROUNDS: u32 = 5;

pub fn measure() {
    for rate in 0..RATES.len() {
        for layout in LAYOUTS {
            let pair = Pair { rate, layout };
            measure_encoding(pair);
            measure_decoding(pair);
        }
    }
}

fn name(call: &str, pair: Pair, beside: &str) -> String {
    let Pair { rate, layout } = pair;
    format!("{call}, rate {rate}, layout {layout}, beside {beside}")
}

const CACHED: &str = "the Rust with its code at hand";
const ANEW: &str = "the Rust with its code built anew";

// The Rust's functions, behind ones that are not inlined, as the archive's calls are not.

#[inline(never)]
fn rust_encode(pair: Pair, bits: &[u8]) -> Vec<u8> {
    encode_bits_at(pair.rate(), pair.layout(), bits)
}

#[inline(never)]
fn rust_decode(pair: Pair, metrics: &[f32]) -> Option<Vec<u8>> {
    decode_bits_prior_at(pair.rate(), pair.layout(), metrics, &[], Fallback::Bp)
}

/// What the original does once for a rate and a layout: the code of the information set, and the tables.
#[inline(never)]
fn rust_build(pair: Pair) -> (NbCode, Tables) {
    let degrees = degrees_for(pair.rate());
    let (n, layout) = (pair.n(), pair.layout());
    let built = NbCode::new(n, n - SYMBOLS, &degrees, SEED);
    let code = match layout.info {
        InfoSet::Echelon => built,
        InfoSet::Peeled => built.with_peeled_info(|v| degrees[v] as i64),
    };
    let tables = Tables::new(layout.map, &code);
    (code, tables)
}

fn measure_encoding(pair: Pair) {
    let mut random = Random::new();
    let by = By::RateAndLayout(pair.rate, pair.layout);
    let first = Encoding::new(by, random.symbols(BITS, 256));
    let lent = RefCell::new(LentEncoding::new(&first, &BEFORE[0], None));
    let bits = RefCell::new(first.bits);
    let best = best_of(
        TIMES,
        &mut || {
            let fresh = random.symbols(BITS, 256);
            lent.borrow_mut().bits.lend().copy_from_slice(&fresh);
            *bits.borrow_mut() = fresh;
        },
        &mut [
            &mut || {
                black_box(lent.borrow_mut().call(by));
            },
            &mut || {
                black_box(rust_encode(pair, black_box(&bits.borrow())));
            },
            &mut || {
                black_box(rust_build(pair));
                black_box(rust_encode(pair, black_box(&bits.borrow())));
            },
        ],
    );
    print_ratio(&name("encode_bits_at", pair, CACHED), best[0], best[1]);
    print_ratio(&name("encode_bits_at", pair, ANEW), best[0], best[2]);
}

/// Frames of one rate and layout, each of which the original finds after so many rounds.
struct Frames {
    metrics: Vec<Vec<Float>>,
    next: Cell<usize>,
}

impl Frames {
    fn found(random: &mut Random, pair: Pair, count: usize) -> Self {
        let mut metrics = Vec::new();
        while metrics.len() < count {
            let sent = Sent::at_random(random, pair);
            let likelihoods = sent.in_noise(random, level(pair));
            let frame = Frame::new(pair, 0, likelihoods, Priors::none());
            let answer = frame.answer();
            if answer.number == 0 && answer.rounds == ROUNDS {
                metrics.push(frame.metrics.floats);
            }
        }
        Self {
            metrics,
            next: Cell::new(0),
        }
    }

    /// Each once.
    fn next(&self) -> &[Float] {
        let i = self.next.get();
        self.next.set(i + 1);
        &self.metrics[i]
    }
}

/// The amplitude at which such frames are found most often.
fn level(pair: Pair) -> f32 {
    [2.4, 2.5, 2.9, 3.1][pair.rate]
}

fn measure_decoding(pair: Pair) {
    let mut random = Random::new();
    let frames = Frames::found(&mut random, pair, TIMES * SIDES + 1);
    let first = Frame::new(
        pair,
        0,
        Sent::at_random(&mut random, pair).in_noise(&mut random, 9.0),
        Priors::none(),
    );
    let lent = RefCell::new(LentFrame::new(&first, &BEFORE[0], None));
    let metrics = RefCell::new(plain(frames.next()));
    let is_same_work = Cell::new(true);
    let best = best_of(
        TIMES,
        &mut || {
            let fresh = frames.next();
            lent.borrow_mut().metrics.lend().copy_from_slice(fresh);
            *metrics.borrow_mut() = plain(fresh);
        },
        &mut [
            &mut || {
                let mut lent = lent.borrow_mut();
                black_box(lent.call(&first));
                is_same_work.set(is_same_work.get() && lent.rounds() == ROUNDS);
            },
            &mut || {
                black_box(rust_decode(pair, black_box(&metrics.borrow())));
            },
            &mut || {
                black_box(rust_build(pair));
                black_box(rust_decode(pair, black_box(&metrics.borrow())));
            },
        ],
    );
    let call = format!("decode_bits_prior_at, a frame of {ROUNDS} rounds");
    print_ratio(&name(&call, pair, CACHED), best[0], best[1]);
    print_ratio(&name(&call, pair, ANEW), best[0], best[2]);
    if !is_same_work.get() {
        println!("  OURS MADE OTHER ROUNDS: THE TIMES ARE OF DIFFERENT WORK");
    }
}
