//! A code as it stands in lent memory: its four numbers and its nine parts, laid out from the
//! original's code and its column order.

use crate::oracle::NbCode;

/// So many parts a code has.
pub const PARTS: usize = 9;

/// The parts, in the order of a call.
pub const VAR: usize = 0;
pub const COEF: usize = 1;
pub const ROW: usize = 2;
pub const START: usize = 3;
pub const COL: usize = 4;
pub const ORDER: usize = 5;
pub const PARITY: usize = 6;
pub const INFO: usize = 7;
pub const A: usize = 8;

/// The four numbers, which are counted on from the parts: every value of a code then has a place,
/// which is a part and an entry of it, entry 0 for a number.
pub const N: usize = 9;
pub const M: usize = 10;
pub const EDGES: usize = 11;
pub const RANK: usize = 12;

/// Parts and numbers by their names.
pub const NAMES: [&str; PARTS + 4] = [
    "var", "coef", "row", "start", "col", "order", "parity", "info", "a", "n", "m", "edges", "rank",
];

/// The length of each part.
pub const LENGTHS: [usize; PARTS] = [512, 512, 257, 257, 512, 256, 256, 256, 16_384];

/// Those of the parts whose entries have 8 bits. The others' have 16.
pub fn is_narrow(part: usize) -> bool {
    part == COEF || part == A
}

/// Entries of narrow parts are kept in 16 bits too, so that all parts are alike, and never hold
/// more than 8.
#[derive(Clone, PartialEq)]
pub struct Code {
    pub n: usize,
    pub m: usize,
    pub edges: usize,
    pub rank: usize,
    pub parts: [Vec<u16>; PARTS],
}

impl Code {
    /// A code that the original's `new` built, which eliminates from the last column back.
    pub fn of_new(built: &NbCode) -> Self {
        let order: Vec<usize> = (0..built.n).rev().collect();
        Self::of(built, &order)
    }

    /// The original's code, which was eliminated in this column order: the original keeps none. An
    /// entry that it does not fill is 0.
    pub fn of(built: &NbCode, order: &[usize]) -> Self {
        let parts = [
            built.edges.iter().map(|edge| edge.0).collect(),
            built.edges.iter().map(|edge| edge.1.into()).collect(),
            entries(&built.row),
            entries(&starts(&built.col)),
            entries(&built.col.concat()),
            entries(order),
            entries(&built.parity),
            entries(&built.info),
            built.a.concat().into_iter().map(u16::from).collect(),
        ];
        let mut code = Self {
            n: built.n,
            m: built.m,
            edges: built.edges.len(),
            rank: built.parity.len(),
            parts,
        };
        for (i, part) in code.parts.iter_mut().enumerate() {
            assert!(part.len() <= LENGTHS[i], "{} is too long", NAMES[i]);
            part.resize(LENGTHS[i], 0);
        }
        code
    }

    /// The original's code after its `with_peeled_info`, by the preference of each variable.
    pub fn peeled(built: &NbCode, prefer: &[i64]) -> Self {
        let order = peeled_order(built, prefer);
        Self::of(&built.clone().with_peeled_info(|v| prefer[v]), &order)
    }

    /// The value at a place.
    pub fn get(&self, part: usize, entry: usize) -> usize {
        match part {
            N => self.n,
            M => self.m,
            EDGES => self.edges,
            RANK => self.rank,
            _ => self.parts[part][entry].into(),
        }
    }

    /// Puts a value at a place, which must take it.
    pub fn set(&mut self, part: usize, entry: usize, value: usize) {
        match part {
            N => self.n = value,
            M => self.m = value,
            EDGES => self.edges = value,
            RANK => self.rank = value,
            _ => {
                assert!(
                    value <= greatest(part),
                    "{} cannot hold {value}",
                    NAMES[part]
                );
                self.parts[part][entry] = value as u16;
            }
        }
    }
}

/// The column order of `with_peeled_info`, which does not keep it: the positions that are not
/// picked ascending, then the picks reversed.
pub fn peeled_order(built: &NbCode, prefer: &[i64]) -> Vec<usize> {
    let picks = built.peel_picks(|v| prefer[v]);
    let others = (0..built.n).filter(|v| !picks.contains(v));
    others.chain(picks.iter().rev().copied()).collect()
}

/// The greatest value of a place.
pub fn greatest(part: usize) -> usize {
    match part {
        PARTS.. => usize::MAX,
        _ if is_narrow(part) => u8::MAX.into(),
        _ => u16::MAX.into(),
    }
}

/// A narrow part as it is lent.
pub fn narrowed(part: &[u16]) -> Vec<u8> {
    let bits = part.iter().fold(0, |bits, entry| bits | entry);
    assert!(bits <= u8::MAX.into(), "an entry of a narrow part is wide");
    part.iter().map(|&entry| entry as u8).collect()
}

/// The original's numbers as entries of 16 bits; they fit, since none is above 512.
fn entries(numbers: &[usize]) -> Vec<u16> {
    let fit = |&number| u16::try_from(number).expect("a number of a code is at most 512");
    numbers.iter().map(fit).collect()
}

/// Where each list starts among all of them, and where the last one ends.
fn starts(lists: &[Vec<usize>]) -> Vec<usize> {
    let mut starts = vec![0];
    for list in lists {
        starts.push(starts[starts.len() - 1] + list.len());
    }
    starts
}
