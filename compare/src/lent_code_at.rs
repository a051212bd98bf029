//! The parts that `hazgunek_code_at` is lent, each guarded, and what must stand in them after a call.

use crate::code::{
    A, COEF, COL, Code, INFO, LENGTHS as CODE, NAMES, ORDER, PARITY, PARTS, ROW, START, VAR,
    narrowed,
};
use crate::filling::Filling;
use crate::frame_abi::{self, CodeAtParts};
use crate::guarded::Guarded;
use crate::report::Case;
use std::array::from_fn;

/// So many parts have a length: the nine of a code, and the work parts `words` and `bytes`.
pub const SHAPES: usize = PARTS + 2;
const WORDS: usize = PARTS;
const BYTES: usize = PARTS + 1;

/// The lengths that they must have.
pub const LENGTHS: [usize; SHAPES] = [
    CODE[VAR],
    CODE[COEF],
    CODE[ROW],
    CODE[START],
    CODE[COL],
    CODE[ORDER],
    CODE[PARITY],
    CODE[INFO],
    CODE[A],
    512,
    131_072,
];

/// By the width of their entries, each kind in the order of the call.
const WIDE: [usize; 8] = [VAR, ROW, START, COL, ORDER, PARITY, INFO, WORDS];
const NARROW: [usize; 3] = [COEF, A, BYTES];

pub struct LentCodeAt {
    /// n, m, edges and rank.
    numbers: [Guarded<usize>; 4],
    wide: [Guarded<u16>; WIDE.len()],
    narrow: [Guarded<u8>; NARROW.len()],
}

impl LentCodeAt {
    /// Parts of these lengths; the filling stands in each of them and around it.
    pub fn new(lengths: [usize; SHAPES], filling: &Filling) -> Self {
        let wide = |part: usize| Guarded::new(&vec![filling.wide; lengths[part]], filling.wide);
        let narrow =
            |part: usize| Guarded::new(&vec![filling.narrow; lengths[part]], filling.narrow);
        Self {
            numbers: from_fn(|_| Guarded::new(&[filling.number], filling.number)),
            wide: WIDE.map(wide),
            narrow: NARROW.map(narrow),
        }
    }

    /// Makes the call, and gives its number.
    pub fn call(&mut self, rate: usize, set: usize) -> u8 {
        let parts = CodeAtParts {
            numbers: self.numbers.each_mut().map(Guarded::lend_one),
            wide: self.wide.each_mut().map(Guarded::lend),
            narrow: self.narrow.each_mut().map(Guarded::lend),
        };
        frame_abi::code_at(rate, set, parts)
    }

    /// The information positions that a call left.
    pub fn info_positions(&self) -> Vec<usize> {
        let [n, _, _, rank] = self.numbers.each_ref().map(|number| number.part()[0]);
        let place = WIDE.iter().position(|&part| part == INFO);
        let info = self.wide[place.expect("a wide part")].part();
        let count = n.saturating_sub(rank);
        info.iter().take(count).map(|&v| v.into()).collect()
    }

    /// A call leaves the code, and 0 in the work parts; where it is turned down, which is by 1 or 3,
    /// it touches nothing.
    pub fn compare(&self, case: &mut Case, filling: &Filling, code: Option<&Code>) {
        let numbers = code.map(|code| [code.n, code.m, code.edges, code.rank]);
        let numbers = numbers.unwrap_or([filling.number; 4]);
        for (i, name) in ["n", "m", "edges", "rank"].into_iter().enumerate() {
            self.numbers[i].compare_one(case, name, numbers[i]);
        }
        for (lent, part) in self.wide.iter().zip(WIDE) {
            let left = match code {
                None => vec![filling.wide; lent.part().len()],
                Some(code) if part < PARTS => code.parts[part].clone(),
                Some(_) => vec![0; LENGTHS[part]],
            };
            lent.compare(case, name(part), &left);
        }
        for (lent, part) in self.narrow.iter().zip(NARROW) {
            let left = match code {
                None => vec![filling.narrow; lent.part().len()],
                Some(code) if part < PARTS => narrowed(&code.parts[part]),
                Some(_) => vec![0; LENGTHS[part]],
            };
            lent.compare(case, name(part), &left);
        }
    }
}

fn name(part: usize) -> &'static str {
    match part {
        WORDS => "work part words",
        BYTES => "work part bytes",
        _ => NAMES[part],
    }
}
