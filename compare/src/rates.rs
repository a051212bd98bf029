//! The four rates: `hazgunek_n_for`, `hazgunek_degrees_for` and `hazgunek_code_at` beside the original's
//! `n_for`, `degrees_for` and `code_at`.

use crate::code::{Code, NAMES};
use crate::codes;
use crate::filling::BEFORE;
use crate::frame::{SETS, past, rate_of, wrong};
use crate::frame_abi;
use crate::guarded::Guarded;
use crate::lent_code_at::{self, LentCodeAt, SHAPES};
use crate::oracle::{RATES, degrees_for, n_for};
use crate::report::{Case, HeldTo, Tally};

/// All comparisons of this layer; gives the differences.
pub fn compare() -> u64 {
    compare_n_for() + compare_degrees_for() + compare_code_at()
}

/// Every rate of 8 bits, and others past the end.
fn rates() -> impl Iterator<Item = usize> {
    (0..256).chain(past(256))
}

fn compare_n_for() -> u64 {
    let mut tally = Tally::new("n_for");
    for rate in rates() {
        for before in BEFORE.map(|filling| filling.number) {
            let (held_to, number, expected) = match rate_of(rate) {
                Some(rate) => (HeldTo::Rust, 0, n_for(rate)),
                None => (HeldTo::Document, 1, before),
            };
            let mut n = Guarded::new(&[before], before);
            let mut case = Case::held_to(held_to);
            case.value("number", frame_abi::n_for(rate, n.lend_one()), number);
            n.compare_one(&mut case, "n", expected);
            tally.count(case, || format!("n_for({rate}) with {before} before"));
        }
    }
    tally.finish()
}

/// Each rate with the lengths of all four, and with what is next to them.
fn compare_degrees_for() -> u64 {
    let mut tally = Tally::new("degrees_for");
    let around = |n| [n].into_iter().chain(wrong(n));
    let lengths: Vec<usize> = RATES.map(n_for).into_iter().flat_map(around).collect();
    for rate in rates() {
        for &length in &lengths {
            compare_degrees(&mut tally, rate, length);
        }
    }
    tally.finish()
}

fn compare_degrees(tally: &mut Tally, rate: usize, length: usize) {
    for before in BEFORE.map(|filling| filling.number) {
        let untouched = vec![before; length];
        let (held_to, number, expected) = match rate_of(rate) {
            None => (HeldTo::Document, 1, untouched),
            Some(rate) if length != n_for(rate) => (HeldTo::Document, 3, untouched),
            Some(rate) => (HeldTo::Rust, 0, degrees_for(rate)),
        };
        let mut degrees = Guarded::new(&vec![before; length], before);
        let mut case = Case::held_to(held_to);
        let ours = frame_abi::degrees_for(rate, degrees.lend());
        case.value("number", ours, number);
        degrees.compare(&mut case, "degrees", &expected);
        tally.count(case, || {
            format!("degrees_for({rate}) with {before} in each of {length} degrees")
        });
    }
}

/// The eight codes; rates and sets past the end; each part of another length, also with those.
fn compare_code_at() -> u64 {
    let mut tally = Tally::new("code_at");
    let right = lent_code_at::LENGTHS;
    let codes: Vec<Code> = codes::rates().into_iter().map(|on| on.code).collect();
    let code = |rate: usize, set: usize| Some(&codes[SETS.len() * rate + set]);
    for rate in 0..RATES.len() {
        for set in 0..SETS.len() {
            compare_code(&mut tally, [rate, set], right, 0, code(rate, set));
            for lengths in wrong_lengths() {
                compare_code(&mut tally, [rate, set], lengths, 3, None);
            }
        }
    }
    let past_rates = past(RATES.len()).into_iter().map(|rate| [rate, 0]);
    let past_sets = past(SETS.len()).into_iter().map(|set| [0, set]);
    for by in past_rates.chain(past_sets).chain([[4, 2], [1 << 32; 2]]) {
        for lengths in wrong_lengths().chain([right]) {
            compare_code(&mut tally, by, lengths, 1, None);
        }
    }
    tally.finish()
}

/// All right but one.
fn wrong_lengths() -> impl Iterator<Item = [usize; SHAPES]> {
    let right = lent_code_at::LENGTHS;
    let of_part = move |part: usize| {
        wrong(right[part]).map(move |length| {
            let mut lengths = right;
            lengths[part] = length;
            lengths
        })
    };
    (0..SHAPES).flat_map(of_part)
}

fn compare_code(
    tally: &mut Tally,
    [rate, set]: [usize; 2],
    lengths: [usize; SHAPES],
    number: u8,
    code: Option<&Code>,
) {
    let held_to = match number {
        0 => HeldTo::Rust,
        _ => HeldTo::Document,
    };
    for filling in &BEFORE {
        let mut lent = LentCodeAt::new(lengths, filling);
        let mut case = Case::held_to(held_to);
        case.value("number", lent.call(rate, set), number);
        lent.compare(&mut case, filling, code);
        tally.count(case, || {
            format!(
                "code_at(rate {rate}, set {set}) with {} in each byte and lengths {lengths:?} ({}, words, bytes)",
                filling.narrow,
                NAMES[..9].join(", ")
            )
        });
    }
}
