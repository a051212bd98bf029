//! What the fixed lists of calls on a lent code share: the code of a line, and the answers.

use crate::asked::{self, Row};
use crate::code::{A, Code, INFO, ORDER, PARITY};
use crate::damage::{Change, changed};
use crate::list::digest;
use crate::on_code::{Asked, CALLS, Call, Judged};
use crate::oracle::NbCode;
use std::fmt::Write;

pub const CODE_HEAD: &str = "\
# CODE is N M HEAVY DEGREE LIGHT SEED: the code that `new` builds, the first HEAVY of N variables having DEGREE, the others LIGHT.
# DAMAGE is PART INDEX VALUE: after the build, entry INDEX of a part becomes VALUE. PART 1 to 9 is var, coef, row, start, col,
# order, parity, info and a; 10 to 13 is the number n, m, edges and rank, INDEX being 0; 0 is no damage, INDEX and VALUE being 0.
";

pub const DIGEST_HEAD: &str = "\
# For a part its digest is listed, over all its entries: from 0 on, d becomes (17 d + (entry mod 65521) + 1) mod 65521.
";

/// Nothing at all; no variables; no checks; a variable in a check; more checks than variables;
/// variables without edges; a middle one; the greatest table; and no information positions.
pub const NOTHING: Row = (0, 0, 0, 0, 0);
pub const NO_VARIABLES: Row = (0, 3, 0, 0, 0);
pub const NO_CHECKS: Row = (3, 0, 0, 0, 0);
pub const ONE: Row = (1, 1, 1, 1, 0);
pub const HIGH: Row = (4, 8, 4, 2, 0);
pub const LONELY: Row = (12, 6, 3, 0, 2);
pub const MIDDLE: Row = (20, 10, 4, 5, 2);
pub const TABLE: Row = (256, 128, 0, 0, 2);
pub const NO_SPACE: Row = (256, 256, 256, 2, 0);

pub const fn damage(part: usize, entry: usize, value: usize) -> Option<Change> {
    Some(Change::new(part, entry, value))
}

/// The code that `new` builds from a row and a seed, and what stands in its parts after the damage.
pub struct CodeOfLine {
    row: Row,
    seed: u64,
    damage: Option<Change>,
    pub built: NbCode,
    on: Judged,
}

impl CodeOfLine {
    pub fn new(row: Row, seed: u64, damage: Option<Change>) -> Self {
        let build = asked::Asked::of_row(row, seed);
        let built = NbCode::new(build.n, build.m, &build.degrees, seed);
        let whole = Judged::new("a listed code".to_string(), Code::of_new(&built));
        Self {
            row,
            seed,
            damage,
            built,
            on: changed(&whole, damage.as_slice()),
        }
    }
}

/// Adds the line of a call on a code; the arguments are as the list's head has them.
pub fn write_line(text: &mut String, code: &CodeOfLine, call: Call, arguments: &[u64]) {
    let (n, m, heavy, degree, light) = code.row;
    let asked = Asked::new(&code.on, call);
    write!(text, "{} ", CALLS[asked.call.index()]).unwrap();
    write!(text, "{n} {m} {heavy} {degree} {light} {}", code.seed).unwrap();
    match code.damage {
        None => write!(text, " 0 0 0").unwrap(),
        Some(Change { part, entry, value }) => {
            write!(text, " {} {entry} {value}", part + 1).unwrap()
        }
    }
    for number in arguments.iter().copied().chain(answers(&asked)) {
        write!(text, " {number}").unwrap();
    }
    text.push('\n');
}

/// The number and what the call leaves in its outputs, in which every entry was 1; a code that is
/// written over was as lent. Of a float the bits are listed; none is a NaN.
fn answers(asked: &Asked) -> Vec<u64> {
    let answer = asked.answer();
    let found = answer.found.unwrap_or(0) as u64;
    let rounds = answer.rounds.unwrap_or(0).into();
    let symbols = |n| {
        let symbols = answer.symbols.clone().unwrap_or(vec![1; n]);
        digest(symbols.into_iter().map(u64::from))
    };
    let positions = |n| {
        let positions = answer.positions.clone().unwrap_or(vec![1; n]);
        digest(positions.into_iter().map(u64::from))
    };
    let posteriors = |n| {
        let posteriors = answer.posteriors.clone().unwrap_or(vec![1.0.into(); n]);
        digest(posteriors.into_iter().map(|x| x.bits().into()))
    };
    let left = match asked.call {
        Call::Encode { word, .. } => vec![symbols(word)],
        Call::InfoOf { syms, .. } => vec![found, symbols(syms)],
        Call::ChecksOk { .. } => vec![answer.ok.unwrap_or(0).into()],
        Call::Degree { .. } | Call::K | Call::N => vec![found],
        Call::InfoPositions { positions: n } | Call::PeelPicks { picks: n, .. } => {
            vec![found, positions(n)]
        }
        Call::WithPeeledInfo { .. } => written_over(asked, answer.code.as_ref()),
        Call::Decode(ref decoding) => {
            let soft = decoding.posteriors.map(posteriors);
            [rounds, symbols(decoding.word)]
                .into_iter()
                .chain(soft)
                .collect()
        }
        Call::ListDecode(ref list) => vec![rounds, symbols(list.word)],
    };
    [&[answer.number.into()], &left[..]].concat()
}

/// The rank that is answered, 0 for none, and what stands in the parts of a code that is written
/// over; they are as lent where it is not.
fn written_over(asked: &Asked, answer: Option<&Code>) -> Vec<u64> {
    let rank = answer.map_or(0, |code| code.rank as u64);
    let code = answer.unwrap_or(&asked.on.code);
    let entries = |part: usize| code.parts[part].iter().map(|&entry| entry.into());
    let digests = [ORDER, PARITY, INFO, A].map(|part| digest(entries(part)));
    [&[rank], &digests[..]].concat()
}
