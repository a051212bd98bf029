//! The parts that `hazgunek_new` is lent, each guarded, and what must stand in them after a call.

use crate::abi::{self, NewParts};
use crate::asked::Asked;
use crate::code::{
    A, COEF, COL, Code, INFO, LENGTHS, NAMES, ORDER, PARITY, ROW, START, VAR, narrowed,
};
use crate::filling::Filling;
use crate::guarded::Guarded;
use crate::oracle::NbCode;
use crate::report::Case;
use std::array::from_fn;

/// A part that has a length: its name, the length it must have, and whether it is only worked in.
pub struct Shape {
    pub name: &'static str,
    pub length: usize,
    is_work: bool,
}

const fn code(part: usize) -> Shape {
    Shape {
        name: NAMES[part],
        length: LENGTHS[part],
        is_work: false,
    }
}

const fn work(name: &'static str, length: usize) -> Shape {
    Shape {
        name,
        length,
        is_work: true,
    }
}

/// So many parts have entries of 16 bits, and so many have entries of 8.
pub const WIDE: usize = 9;
pub const NARROW: usize = 4;

/// All of them but the degrees: the wide ones, and then the narrow ones.
pub const SHAPES: [Shape; WIDE + NARROW] = [
    code(VAR),
    code(ROW),
    code(START),
    code(COL),
    code(ORDER),
    code(PARITY),
    code(INFO),
    work("load", 256),
    work("deg", 256),
    code(COEF),
    code(A),
    work("chk", 65_536),
    work("own", 65_536),
];

/// The parts as they are lent to one call.
pub struct Lent {
    edges: Guarded<usize>,
    rank: Guarded<usize>,
    degrees: Guarded<usize>,
    wide: [Guarded<u16>; WIDE],
    narrow: [Guarded<u8>; NARROW],
}

impl Lent {
    /// Parts of the lengths that are asked; the filling stands also around each of them.
    pub fn new(asked: &Asked, filling: &Filling) -> Self {
        let wide = |i| vec![filling.wide; asked.lengths[i]];
        let narrow = |i| vec![filling.narrow; asked.lengths[WIDE + i]];
        Self {
            edges: Guarded::new(&[filling.number], filling.number),
            rank: Guarded::new(&[filling.number], filling.number),
            degrees: Guarded::new(&asked.degrees, filling.number),
            wide: from_fn(|i| Guarded::new(&wide(i), filling.wide)),
            narrow: from_fn(|i| Guarded::new(&narrow(i), filling.narrow)),
        }
    }

    /// Makes the call, and gives its number.
    pub fn call(&mut self, asked: &Asked) -> u8 {
        let parts = NewParts {
            edges: self.edges.lend_one(),
            rank: self.rank.lend_one(),
            wide: self.wide.each_mut().map(Guarded::lend),
            narrow: self.narrow.each_mut().map(Guarded::lend),
        };
        abi::new(asked.n, asked.m, asked.seed, self.degrees.lend(), parts)
    }

    /// Compares every part, and what stands around it, with what the call must leave.
    pub fn compare(&self, case: &mut Case, asked: &Asked, left: &Left) {
        self.edges.compare_one(case, "edges", left.edges);
        self.rank.compare_one(case, "rank", left.rank);
        self.degrees.compare(case, "degrees", &asked.degrees);
        for (i, part) in self.wide.iter().enumerate() {
            part.compare(case, SHAPES[i].name, &left.wide[i]);
        }
        for (i, part) in self.narrow.iter().enumerate() {
            part.compare(case, SHAPES[WIDE + i].name, &left.narrow[i]);
        }
    }
}

/// What a call leaves in its parts.
pub struct Left {
    pub edges: usize,
    pub rank: usize,
    pub wide: [Vec<u16>; WIDE],
    pub narrow: [Vec<u8>; NARROW],
}

impl Left {
    /// After a call that is turned down by `number`: 2 and 3 touch nothing, later ones leave work
    /// parts zero and the others as they were.
    pub fn refused(asked: &Asked, filling: &Filling, number: u8) -> Self {
        let is_zero = |i: usize| SHAPES[i].is_work && number > 3;
        let wide = |i| if is_zero(i) { 0 } else { filling.wide };
        let narrow = |i| if is_zero(i) { 0 } else { filling.narrow };
        Self {
            edges: filling.number,
            rank: filling.number,
            wide: from_fn(|i| vec![wide(i); asked.lengths[i]]),
            narrow: from_fn(|i| vec![narrow(WIDE + i); asked.lengths[WIDE + i]]),
        }
    }

    /// After a call that is not turned down: the original's code, and 0 in the work parts.
    pub fn built(asked: &Asked) -> Self {
        let built = NbCode::new(asked.n, asked.m, &asked.degrees, asked.seed);
        let code = Code::of_new(&built);
        let [var, coef, row, start, col, order, parity, info, a] = code.parts;
        let mut left = Self {
            edges: code.edges,
            rank: code.rank,
            wide: [
                var,
                row,
                start,
                col,
                order,
                parity,
                info,
                Vec::new(),
                Vec::new(),
            ],
            narrow: [narrowed(&coef), narrowed(&a), Vec::new(), Vec::new()],
        };
        left.pad();
        left
    }

    /// Fills the parts that the code does not, the work parts, with 0.
    fn pad(&mut self) {
        for (part, shape) in self.wide.iter_mut().zip(&SHAPES) {
            part.resize(shape.length, 0);
        }
        for (part, shape) in self.narrow.iter_mut().zip(&SHAPES[WIDE..]) {
            part.resize(shape.length, 0);
        }
    }
}
