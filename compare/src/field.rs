//! The field and its generator: `hazgunek_mul`, `hazgunek_inv` and `hazgunek_draws` beside the
//! original's `Gf::mul`, `Gf::inv` and `mix`.

use crate::abi;
use crate::filling::BEFORE;
use crate::guarded::Guarded;
use crate::oracle::{GF, mix};
use crate::random::Random;
use crate::report::{Case, HeldTo, Tally};
use crate::speed::time_both;
use std::fmt::Write;
use std::hint::black_box;

/// Seeds that are no random ones: the smallest, the published vectors' one, the greatest, the one
/// of the original's codes, and the one whose first state is 0.
const SEEDS: [u64; 6] = [
    0,
    1,
    1_234_567,
    u64::MAX,
    0x4E42_4C44_5043,
    0x9E37_79B9_7F4A_7C15_u64.wrapping_neg(),
];

/// So many seeds in all, and so many draws from each in one call: a million draws.
const RUNS: usize = 1_000;
const RUN: usize = 1_000;

/// A run that is cut into calls of lengths 0, 1, 2 and so on has so many calls.
const CUTS: usize = 45;

/// From the seeds that are no random ones also so many draws in one call.
const LONG_RUNS: [usize; 3] = [2_047, 4_096, 65_537];

/// All comparisons of this layer; gives the differences.
pub fn compare() -> u64 {
    compare_mul() + compare_inv() + compare_draws()
}

/// Document 01's number for a product: 8 for a symbol above 31.
fn mul_number(a: u8, b: u8) -> u8 {
    if a > 31 || b > 31 { 8 } else { 0 }
}

/// The number for an inverse: document 01's 8 for a symbol above 31, and 8 for 0, which has no
/// inverse and which document 01 does not name (docs/DECISIONS.md).
fn inv_number(a: u8) -> u8 {
    if (1..=31).contains(&a) { 0 } else { 8 }
}

/// Every pair of bytes: the 1,024 pairs of elements, and all others, which are turned down.
fn compare_mul() -> u64 {
    let mut tally = Tally::new("mul");
    for a in 0..=255 {
        for b in 0..=255 {
            for before in BEFORE.map(|filling| filling.narrow) {
                let (held_to, number, product) = match mul_number(a, b) {
                    0 => (HeldTo::Rust, 0, GF.mul(a, b)),
                    number => (HeldTo::Document, number, before),
                };
                let mut part = Guarded::new(&[before], before);
                let mut case = Case::held_to(held_to);
                case.value("number", abi::mul(a, b, part.lend_one()), number);
                part.compare_one(&mut case, "product", product);
                tally.count(case, || {
                    format!("mul({a}, {b}) with {before} in the product")
                });
            }
        }
    }
    tally.finish()
}

/// Every byte: the 31 elements with an inverse, and all others, which are turned down.
fn compare_inv() -> u64 {
    let mut tally = Tally::new("inv");
    for a in 0..=255 {
        for before in BEFORE.map(|filling| filling.narrow) {
            let (held_to, number, inverse) = match inv_number(a) {
                0 => (HeldTo::Rust, 0, GF.inv(a)),
                number => (HeldTo::Document, number, before),
            };
            let mut part = Guarded::new(&[before], before);
            let mut case = Case::held_to(held_to);
            case.value("number", abi::inv(a, part.lend_one()), number);
            part.compare_one(&mut case, "inverse", inverse);
            tally.count(case, || format!("inv({a}) with {before} in the inverse"));
        }
    }
    tally.finish()
}

/// From every seed a run in one call, and a run cut into calls of lengths 0, 1, 2 and so on; from
/// some of them also longer runs, each in one call.
fn compare_draws() -> u64 {
    let cuts: Vec<usize> = (0..CUTS).collect();
    let mut tally = Tally::new("draws");
    for seed in seeds() {
        for before in BEFORE.map(|filling| filling.number as u64) {
            compare_run(&mut tally, seed, &[RUN], before);
            compare_run(&mut tally, seed, &cuts, before);
        }
    }
    for seed in SEEDS {
        for before in BEFORE.map(|filling| filling.number as u64) {
            for length in LONG_RUNS {
                compare_run(&mut tally, seed, &[length], before);
            }
        }
    }
    tally.finish()
}

fn seeds() -> Vec<u64> {
    let mut random = Random::new();
    SEEDS
        .into_iter()
        .chain((0..64).map(|i| 1 << i))
        .chain(std::iter::from_fn(|| Some(random.next())))
        .take(RUNS)
        .collect()
}

/// One run of draws, a call for each length; each side goes on from its own state.
fn compare_run(tally: &mut Tally, seed: u64, lengths: &[usize], before: u64) {
    let (mut our_state, mut state) = (seed, seed);
    for &length in lengths {
        let from = our_state;
        let mut lent_state = Guarded::new(&[from], before);
        let mut draws = Guarded::new(&vec![before; length], before);
        let number = abi::draws(lent_state.lend_one(), draws.lend());
        our_state = lent_state.part()[0];
        let expected: Vec<u64> = (0..length).map(|_| mix(&mut state)).collect();

        let mut case = Case::held_to(HeldTo::Rust);
        case.value("number", number, 0);
        lent_state.compare_one(&mut case, "state", state);
        draws.compare(&mut case, "draws", &expected);
        tally.count(case, || {
            format!(
                "{length} draws from state {from}, with {before} in each entry, in a run of seed {seed}"
            )
        });
    }
}

/// Seeds of the fixed list, so many draws from each.
const LISTED_SEEDS: [u64; 20] = [
    0,
    1,
    2,
    31,
    32,
    255,
    1_234_567,
    0x4E42_4C44_5043,
    0x7FFF_FFFF,
    0x8000_0000,
    0xFFFF_FFFF,
    0x1_0000_0000,
    0x7FFF_FFFF_FFFF_FFFF,
    0x8000_0000_0000_0000,
    0xFFFF_FFFF_0000_0000,
    u64::MAX,
    0x9E37_79B9_7F4A_7C15,
    0x9E37_79B9_7F4A_7C15_u64.wrapping_neg(),
    0x0123_4567_89AB_CDEF,
    0xFEDC_BA98_7654_3210,
];
const LISTED_DRAWS: usize = 8;

/// This layer's fixed list, by the original alone.
pub fn list() -> String {
    let mut text =
        String::from("# mul A B PRODUCT\n# inv A INVERSE\n# draws SEED COUNT D1 .. DCOUNT\n");
    for (a, b) in pairs() {
        writeln!(text, "mul {a} {b} {}", GF.mul(a, b)).unwrap();
    }
    for a in 1..=31 {
        writeln!(text, "inv {a} {}", GF.inv(a)).unwrap();
    }
    for seed in LISTED_SEEDS {
        write!(text, "draws {seed} {LISTED_DRAWS}").unwrap();
        let mut state = seed;
        for _ in 0..LISTED_DRAWS {
            write!(text, " {}", mix(&mut state)).unwrap();
        }
        text.push('\n');
    }
    text
}

/// Every pair of elements, in order.
fn pairs() -> Vec<(u8, u8)> {
    (0..32).flat_map(|a| (0..32).map(move |b| (a, b))).collect()
}

// The archive's calls are never inlined. So that the Rust's are timed alike, they are put behind
// functions of the same shape that are not inlined either.

#[inline(never)]
fn rust_mul(a: u8, b: u8, product: &mut u8) -> u8 {
    *product = GF.mul(a, b);
    0
}

#[inline(never)]
fn rust_inv(a: u8, inverse: &mut u8) -> u8 {
    *inverse = GF.inv(a);
    0
}

#[inline(never)]
fn rust_draws(state: &mut u64, draws: &mut [u64]) -> u8 {
    for draw in draws {
        *draw = mix(state);
    }
    0
}

/// How often a timed round goes over its inputs: about a million answers each.
const MUL_TURNS: usize = 1_000;
const INV_TURNS: usize = 32_000;
const DRAWS_TURNS: usize = 1_000;

/// The speed of each call, ours beside the Rust's.
pub fn measure() {
    time_both(
        "mul",
        MUL_TURNS * 32 * 32,
        || time_mul(abi::mul),
        || time_mul(rust_mul),
    );
    time_both(
        "inv",
        INV_TURNS * 31,
        || time_inv(abi::inv),
        || time_inv(rust_inv),
    );
    time_both(
        "draws",
        DRAWS_TURNS * RUN,
        || time_draws(abi::draws),
        || time_draws(rust_draws),
    );
}

fn time_mul(mul: impl Fn(u8, u8, &mut u8) -> u8) {
    let pairs = pairs();
    let mut part = 0;
    for _ in 0..MUL_TURNS {
        for &(a, b) in black_box(&pairs) {
            black_box(mul(a, b, &mut part));
            black_box(&part);
        }
    }
}

fn time_inv(inv: impl Fn(u8, &mut u8) -> u8) {
    let elements: Vec<u8> = (1..32).collect();
    let mut part = 0;
    for _ in 0..INV_TURNS {
        for &a in black_box(&elements) {
            black_box(inv(a, &mut part));
            black_box(&part);
        }
    }
}

fn time_draws(draws: impl Fn(&mut u64, &mut [u64]) -> u8) {
    let mut state = 0;
    let mut part = [0; RUN];
    for _ in 0..DRAWS_TURNS {
        black_box(draws(&mut state, &mut part));
        black_box(&part);
    }
}
