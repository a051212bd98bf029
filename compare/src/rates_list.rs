//! The fixed list of the calls on rates.

use crate::code::{Code, LENGTHS, peeled_order};
use crate::code_lists::DIGEST_HEAD;
use crate::frame::{SETS, rate_of};
use crate::list::digest;
use crate::oracle::{InfoSet, RATES, Rate, code_at, degrees_for, n_for};
use crate::preferences;
use std::fmt::Write;

const HEAD: &str = "\
# n_for RATE NUMBER N
# degrees_for RATE LENGTH NUMBER DEGREES
# code_at RATE SET NUMBER EDGES RANK VAR COEF ROW START COL ORDER PARITY INFO A
# RATE is 0 to 3 for 1/4, 1/3, 1/2 and 2/3, SET is 0 for the echelon set and 1 for the peeled one; other numbers are refused.
# DEGREES is a part of LENGTH entries, which is 0 to 257. NUMBER is the refusal's, 0 for none.
# N, EDGES and RANK are 0 where a call is turned down. Before a call every entry of every output and work part is 1.
";

/// Rates that there are not: the two of the original's that have no code, and numbers that a cast to
/// fewer bits would make a rate.
const NO_RATES: [usize; 5] = [4, 5, 256, 1 << 32, usize::MAX];

/// Rates and wrong lengths, of a part for the degrees; and a rate that there is not, at the length of one.
const WRONG_LENGTHS: [(usize, usize); 8] = [
    (0, 0),
    (0, 204),
    (0, 206),
    (1, 205),
    (2, 103),
    (3, 79),
    (3, 257),
    (4, 205),
];

/// Rates and sets of which one is not, or neither.
const NO_CODES: [(usize, usize); 7] = [
    (0, 2),
    (3, 256),
    (3, 1 << 32),
    (4, 0),
    (4, 1),
    (usize::MAX, 0),
    (4, usize::MAX),
];

/// This layer's fixed list, by the original alone where a call is not turned down.
pub fn list() -> String {
    let mut text = [HEAD, DIGEST_HEAD].concat();
    let rates = 0..RATES.len();
    for rate in rates.clone().chain(NO_RATES) {
        let (number, n) = rate_of(rate).map_or((1, 0), |rate| (0, n_for(rate)));
        writeln!(text, "n_for {rate} {number} {n}").unwrap();
    }
    let right = RATES.into_iter().map(n_for).enumerate();
    for (rate, length) in right.chain(WRONG_LENGTHS) {
        list_degrees(&mut text, rate, length);
    }
    for rate in rates {
        for set in 0..SETS.len() {
            list_code(&mut text, rate, set);
        }
    }
    for (rate, set) in NO_CODES {
        list_code(&mut text, rate, set);
    }
    text
}

fn list_degrees(text: &mut String, rate: usize, length: usize) {
    let (number, degrees) = match rate_of(rate) {
        None => (1, vec![1; length]),
        Some(rate) if length != n_for(rate) => (3, vec![1; length]),
        Some(rate) => (0, degrees_for(rate)),
    };
    let digest = digest(degrees.iter().map(|&degree| degree as u64));
    writeln!(text, "degrees_for {rate} {length} {number} {digest}").unwrap();
}

fn list_code(text: &mut String, rate: usize, set: usize) {
    let (number, code) = match (rate_of(rate), SETS.get(set)) {
        (Some(rate), Some(&set)) => (0, made(rate, set)),
        _ => (1, refused()),
    };
    write!(text, "code_at {rate} {set} {number}").unwrap();
    write!(text, " {} {}", code.edges, code.rank).unwrap();
    for part in &code.parts {
        let digest = digest(part.iter().map(|&entry| entry.into()));
        write!(text, " {digest}").unwrap();
    }
    text.push('\n');
}

/// The original keeps no column order: a peeled code's is told by the code that it was made of.
fn made(rate: Rate, set: InfoSet) -> Code {
    let echelon = code_at(rate, InfoSet::Echelon);
    match set {
        InfoSet::Echelon => Code::of_new(echelon),
        InfoSet::Peeled => {
            let prefer = preferences::of_numbers(&degrees_for(rate));
            Code::of(code_at(rate, set), &peeled_order(echelon, &prefer))
        }
    }
}

/// What a refused call leaves.
fn refused() -> Code {
    Code {
        n: 0,
        m: 0,
        edges: 0,
        rank: 0,
        parts: LENGTHS.map(|length| vec![1; length]),
    }
}
