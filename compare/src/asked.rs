//! What calls of `hazgunek_new` are asked: codes of every shape, and calls that are turned down.

use crate::lent::SHAPES;
use crate::random::Random;
use std::fmt;

/// One call: its numbers, its degrees, and the lengths of the other parts, as `SHAPES` has them.
#[derive(Clone)]
pub struct Asked {
    pub n: usize,
    pub m: usize,
    pub seed: u64,
    pub degrees: Vec<usize>,
    pub lengths: [usize; SHAPES.len()],
}

/// So many parts have a length: the degrees come after those of `SHAPES`.
pub const PARTS: usize = SHAPES.len() + 1;
const DEGREES: usize = SHAPES.len();

impl Asked {
    /// As many variables as degrees, and every part of the right length.
    pub fn new(m: usize, degrees: Vec<usize>, seed: u64) -> Self {
        Self {
            n: degrees.len(),
            m,
            seed,
            degrees,
            lengths: SHAPES.map(|shape| shape.length),
        }
    }

    /// The first `heavy` of `n` variables have one degree, the rest another.
    pub fn of_row((n, m, heavy, degree, light): Row, seed: u64) -> Self {
        let degrees = (0..n)
            .map(|v| if v < heavy { degree } else { light })
            .collect();
        Self::new(m, degrees, seed)
    }

    /// Document 01's number, 0 where the call is not turned down.
    pub fn number(&self) -> u8 {
        let sum: u128 = self.degrees.iter().map(|&degree| degree as u128).sum();
        if self.n > 256 || self.m > 256 {
            2
        } else if (0..PARTS).any(|part| self.length(part) != self.right_length(part)) {
            3
        } else if sum > 512 {
            4
        } else if self.degrees.iter().any(|&degree| degree > self.m) {
            5
        } else {
            0
        }
    }

    fn length(&self, part: usize) -> usize {
        match part {
            DEGREES => self.degrees.len(),
            _ => self.lengths[part],
        }
    }

    fn right_length(&self, part: usize) -> usize {
        match part {
            DEGREES => self.n,
            _ => SHAPES[part].length,
        }
    }

    /// The same call with another length of one part.
    fn with_length(&self, part: usize, length: usize) -> Self {
        let mut asked = self.clone();
        match part {
            DEGREES => asked.degrees.resize(length, 0),
            _ => asked.lengths[part] = length,
        }
        asked
    }
}

impl fmt::Display for Asked {
    fn fmt(&self, f: &mut fmt::Formatter) -> fmt::Result {
        write!(f, "new(n {}, m {}, seed {}", self.n, self.m, self.seed)?;
        write!(f, ", degrees")?;
        for run in self.degrees.chunk_by(|a, b| a == b) {
            match run.len() {
                1 => write!(f, " {}", run[0])?,
                count => write!(f, " {count}*{}", run[0])?,
            }
        }
        write!(f, ")")?;
        if self.degrees.len() != self.n {
            write!(f, " with {} degrees", self.degrees.len())?;
        }
        for (shape, length) in SHAPES.iter().zip(self.lengths) {
            if length != shape.length {
                write!(f, " with {length} entries of {}", shape.name)?;
            }
        }
        Ok(())
    }
}

/// The seed of the original's codes.
pub const SEED: u64 = 0x4E42_4C44_5043;

/// A code by its degrees: n, m, heavy columns, their degree, the others' degree.
pub type Row = (usize, usize, usize, usize, usize);

/// The degree rows of the four rates.
pub const RATES: [Row; 4] = [
    (205, 153, 20, 6, 2),
    (156, 104, 16, 5, 2),
    (104, 52, 12, 4, 2),
    (78, 26, 12, 3, 2),
];

/// The codes of the four rates, from their own seed and from others.
pub fn rates() -> Vec<Asked> {
    let seeds = [SEED, 0, 1, u64::MAX];
    RATES
        .into_iter()
        .flat_map(|row| seeds.map(|seed| Asked::of_row(row, seed)))
        .collect()
}

/// Every code of at most so many variables and checks, and so many seeds for each.
const SMALL: usize = 3;
const SMALL_SEEDS: u64 = 24;

pub fn small() -> Vec<Asked> {
    let mut all = Vec::new();
    for m in 0..=SMALL {
        for n in 0..=SMALL {
            for degrees in tuples(n, m) {
                all.extend((0..SMALL_SEEDS).map(|seed| Asked::new(m, degrees.clone(), seed)));
            }
        }
    }
    all
}

/// Every list of `n` numbers up to `m`.
fn tuples(n: usize, m: usize) -> Vec<Vec<usize>> {
    let mut all = vec![Vec::new()];
    for _ in 0..n {
        all = all
            .into_iter()
            .flat_map(|tuple: Vec<usize>| (0..=m).map(move |d| [&tuple[..], &[d]].concat()))
            .collect();
    }
    all
}

/// Codes at the ends of what is allowed, as rows, and some sizes between.
const EDGES: &[Row] = &[
    // No variables, no checks, no edges.
    (0, 0, 0, 0, 0),
    (0, 1, 0, 0, 0),
    (0, 255, 0, 0, 0),
    (0, 256, 0, 0, 0),
    (1, 0, 0, 0, 0),
    (255, 0, 0, 0, 0),
    (256, 0, 0, 0, 0),
    (1, 1, 0, 0, 0),
    (7, 7, 0, 0, 0),
    (256, 256, 0, 0, 0),
    // One check.
    (1, 1, 1, 1, 0),
    (2, 1, 1, 1, 0),
    (2, 1, 0, 0, 1),
    (256, 1, 256, 1, 0),
    (256, 1, 128, 1, 0),
    (256, 1, 128, 0, 1),
    // More checks than variables, some of them without edges.
    (1, 2, 1, 1, 0),
    (1, 256, 1, 1, 0),
    (3, 9, 3, 2, 0),
    (50, 200, 10, 7, 2),
    (128, 256, 0, 0, 2),
    (255, 256, 1, 4, 2),
    // A degree equal to m.
    (1, 255, 1, 255, 0),
    (1, 256, 1, 256, 0),
    (256, 256, 1, 256, 1),
    (256, 255, 1, 255, 1),
    (256, 256, 255, 1, 256),
    (22, 22, 22, 22, 0),
    (8, 8, 8, 8, 0),
    (12, 6, 12, 6, 0),
    // 512 edges.
    (256, 2, 256, 2, 0),
    (256, 3, 256, 2, 0),
    (256, 32, 256, 2, 0),
    (256, 255, 256, 2, 0),
    (256, 256, 256, 2, 0),
    (256, 256, 1, 256, 0),
    (2, 256, 2, 256, 0),
    (256, 256, 2, 129, 1),
    (16, 32, 16, 32, 0),
    (32, 16, 32, 16, 0),
    (128, 4, 128, 4, 0),
    (128, 128, 128, 4, 0),
    (64, 8, 64, 8, 0),
    (64, 64, 64, 8, 0),
    (171, 171, 170, 3, 2),
    // Nearly 512 edges.
    (256, 256, 1, 1, 2),
    (73, 73, 73, 7, 0),
    // A table of the greatest size: half the positions are parity.
    (256, 128, 0, 0, 2),
    // Tables of few rows and of few columns.
    (256, 8, 0, 0, 2),
    (256, 250, 0, 0, 2),
    // The light ones come first in the order of growth, also where they stand last.
    (12, 6, 3, 0, 2),
    (10, 5, 5, 1, 3),
    (10, 5, 5, 3, 1),
];

/// Each from so many seeds.
const EDGE_SEEDS: [u64; 4] = [SEED, 0, 1 << 63, u64::MAX];

pub fn edges() -> Vec<Asked> {
    EDGES
        .iter()
        .flat_map(|&row| EDGE_SEEDS.map(|seed| Asked::of_row(row, seed)))
        .collect()
}

/// So many random codes, and so many random calls that are mostly turned down.
const RANDOM: usize = 12_000;
const DAMAGED: usize = 4_000;

/// Codes of random sizes, degrees and seeds that are not turned down.
pub fn random() -> impl Iterator<Item = Asked> {
    let mut random = Random::new();
    (0..RANDOM).map(move |_| random_code(&mut random))
}

fn random_code(random: &mut Random) -> Asked {
    let (n, m) = (random.size(), random.size());
    let mut degrees = random_degrees(random, n, m);
    cut(&mut degrees);
    if random.below(8) == 0 {
        fill_up(&mut degrees, m);
    }
    if random.below(2) == 0 {
        random.shuffle(&mut degrees);
    }
    Asked::new(m, degrees, random.next())
}

/// Degrees up to m, whatever their sum.
fn random_degrees(random: &mut Random, n: usize, m: usize) -> Vec<usize> {
    let low = 1 + m.min(4);
    let (one, other, heavy) = (random.below(low), random.below(m + 1), random.below(n + 1));
    let each: Box<dyn FnMut(usize) -> usize> = match random.below(7) {
        // All the same: every choice is among ties.
        0 => Box::new(|_| one),
        // Heavy columns first, as in the original's codes.
        1 => Box::new(|v| if v < heavy { other.min(12) } else { one }),
        // A few low ones.
        2 | 3 => Box::new(|_| random.below(low)),
        // Any, and any with many 0.
        4 => Box::new(|_| random.below(m + 1)),
        5 => Box::new(|_| random.below(4) / 3 * random.below(m + 1)),
        // All checks or nearly all.
        _ => Box::new(|_| m - random.below(m.min(2) + 1)),
    };
    (0..n).map(each).collect()
}

/// Lowers the last degrees where the sum is above 512.
fn cut(degrees: &mut [usize]) {
    let mut left = 512;
    for degree in degrees {
        *degree = (*degree).min(left);
        left -= *degree;
    }
}

/// Raises the first degrees until the sum is 512, as far as m allows.
fn fill_up(degrees: &mut [usize], m: usize) {
    let mut left = 512 - degrees.iter().sum::<usize>();
    for degree in degrees {
        let more = (m - *degree).min(left);
        *degree += more;
        left -= more;
    }
}

/// Random codes with one fault or several, or with none by chance.
pub fn damaged() -> impl Iterator<Item = Asked> {
    let mut random = Random::new();
    (0..DAMAGED).map(move |_| {
        let mut asked = random_code(&mut random);
        for _ in 0..=random.below(3) {
            asked = with_fault(&mut random, asked);
        }
        asked
    })
}

fn with_fault(random: &mut Random, mut asked: Asked) -> Asked {
    let place = random.below(asked.degrees.len().max(1));
    match (random.below(6), asked.degrees.get_mut(place)) {
        (0, _) => asked.n = 257 - random.below(2),
        (1, _) => asked.m = 257 - random.below(2),
        (2, Some(degree)) => *degree = asked.m + random.below(2),
        (3, Some(degree)) => *degree = 511 + random.below(4),
        (4, Some(degree)) => *degree = random.next() as usize,
        _ => {
            let part = random.below(PARTS);
            let length = asked.length(part) + random.below(3);
            return asked.with_length(part, length.saturating_sub(1));
        }
    }
    asked
}

/// Calls at the edge of each refusal, each with its number.
pub fn refusals() -> Vec<(u8, Asked)> {
    let mut all = sizes();
    all.extend(lengths());
    all.extend(sums());
    all.extend(degrees());
    all
}

/// A call with no fault, which has room for one of each kind.
fn sound() -> Asked {
    Asked::new(4, vec![1, 4, 0, 2, 3], SEED)
}

/// 256 and 257 variables and checks, and more.
fn sizes() -> Vec<(u8, Asked)> {
    let zeros = |n| vec![0; n];
    let mut all = vec![
        (0, Asked::new(256, zeros(256), SEED)),
        (2, Asked::new(0, zeros(257), SEED)),
        (2, Asked::new(256, zeros(257), SEED)),
        (2, Asked::new(257, zeros(0), SEED)),
        (2, Asked::new(257, zeros(256), SEED)),
        (2, Asked::new(257, zeros(257), SEED)),
        (2, Asked::new(usize::MAX, vec![1, 1], SEED)),
        (2, Asked::new(1 << 32, vec![1, 1], SEED)),
    ];
    for n in [257, 1 << 16, 1 << 32, usize::MAX] {
        let mut asked = sound();
        asked.n = n;
        all.push((2, asked));
    }
    all
}

/// Each part one short, one long, empty and twice as long, also together with other faults.
fn lengths() -> Vec<(u8, Asked)> {
    let mut all = vec![
        (0, sound()),
        (3, Asked::new(0, vec![], SEED).with_length(DEGREES, 1)),
        (3, Asked::new(0, vec![0], SEED).with_length(DEGREES, 0)),
    ];
    let greatest = Asked::new(256, vec![2; 256], SEED);
    for base in [sound(), greatest] {
        for part in 0..PARTS {
            let right = base.right_length(part);
            for length in [right - 1, right + 1, 0, 2 * right] {
                let wrong = base.with_length(part, length);
                all.extend(with_others(&wrong));
                all.push((3, wrong));
            }
        }
    }
    all
}

/// The same call with a second fault: 2 goes before 3, and 3 before 4 and 5.
fn with_others(wrong: &Asked) -> Vec<(u8, Asked)> {
    let changed = |number, change: fn(&mut Asked)| {
        let mut asked = wrong.clone();
        change(&mut asked);
        (number, asked)
    };
    let mut all = vec![
        changed(2, |asked| asked.n = 257),
        changed(2, |asked| asked.m = 257),
    ];
    if !wrong.degrees.is_empty() {
        all.push(changed(3, |asked| asked.degrees[0] = 513));
        all.push(changed(3, |asked| asked.degrees[0] = asked.m + 1));
        all.push(changed(3, |asked| asked.degrees[0] = usize::MAX));
    }
    all
}

/// Sums of 512 and 513, and degrees whose sum has no place in 64, 32 or 16 bits. A sum above 512
/// goes before a degree above m.
fn sums() -> Vec<(u8, Asked)> {
    const MAX: usize = usize::MAX;
    let with_m = |number, m, degrees: &[usize]| (number, Asked::new(m, degrees.to_vec(), SEED));
    let mut last_higher = vec![2; 256];
    last_higher[255] = 3;
    let mut first_higher = vec![2; 256];
    first_higher[0] = 3;
    vec![
        with_m(0, 256, &[256, 256]),
        with_m(4, 256, &[256, 256, 1]),
        with_m(4, 256, &[1, 256, 256]),
        with_m(0, 171, &[171, 171, 170]),
        with_m(4, 171, &[171, 171, 171]),
        with_m(0, 3, &[2; 256]),
        with_m(4, 3, &first_higher),
        with_m(4, 3, &last_higher),
        with_m(4, 256, &[256; 256]),
        with_m(5, 256, &[512]),
        with_m(4, 256, &[513]),
        with_m(5, 0, &[512]),
        with_m(4, 0, &[513]),
        with_m(5, 1, &[2; 256]),
        with_m(4, 1, &first_higher),
        with_m(4, 256, &[MAX]),
        with_m(4, 256, &[MAX, 1]),
        with_m(4, 256, &[1, MAX]),
        with_m(4, 256, &[MAX, 2, 3]),
        with_m(4, 256, &[0, 0, MAX]),
        with_m(4, 256, &[MAX - 512]),
        with_m(4, 256, &[MAX - 1, 256, 256]),
        with_m(4, 256, &[256, 256, MAX]),
        with_m(4, 256, &[1 << 63, 1 << 63]),
        with_m(4, 256, &[1 << 56; 256]),
        with_m(4, 256, &[MAX; 256]),
        with_m(4, 256, &[1 << 32]),
        with_m(4, 256, &[1 << 24; 256]),
        with_m(4, 256, &[1 << 16]),
        with_m(4, 256, &[1 << 8; 256]),
        with_m(4, 256, &[(1 << 16) + 1, (1 << 16) + 1]),
    ]
}

/// A degree of m and one of m + 1, at each place.
fn degrees() -> Vec<(u8, Asked)> {
    let mut all = Vec::new();
    for m in [0, 1, 2, 3, 31, 32, 254, 255, 256] {
        for n in [1, 2, 3] {
            for place in 0..n {
                for (number, degree) in [(0, m), (5, m + 1)] {
                    let mut degrees = vec![m.min(1); n];
                    degrees[place] = degree;
                    all.push((number, Asked::new(m, degrees, SEED)));
                }
            }
        }
    }
    for place in [0, 128, 255] {
        let mut degrees = vec![0; 256];
        degrees[place] = 257;
        all.push((5, Asked::new(256, degrees, SEED)));
    }
    all
}
