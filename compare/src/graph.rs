//! Graph growth and elimination: `hazgunek_even_degrees` and `hazgunek_new` beside the original's
//! `even_degrees` and `NbCode::new`.

use crate::abi;
use crate::asked::{self, Asked, SEED};
use crate::filling::{BEFORE, Filling};
use crate::guarded::Guarded;
use crate::lent::{Left, Lent, NARROW, WIDE};
use crate::list::digest;
use crate::oracle::{NbCode, even_degrees};
use crate::random::Random;
use crate::report::{Case, HeldTo, Tally};
use crate::speed::time_both;
use std::fmt::Write;
use std::hint::black_box;

/// All comparisons of this layer; gives the differences.
pub fn compare() -> u64 {
    compare_even_degrees() + compare_new()
}

/// Every number of edges up to this one is spread over every number of variables.
const SPREAD: usize = 600;

/// So many random numbers of edges for every number of variables.
const RANDOM_SPREAD: usize = 40;

fn compare_even_degrees() -> u64 {
    let mut tally = Tally::new("even_degrees");
    let mut random = Random::new();
    assert_eq!(even_degrees(4, 10), [3, 3, 2, 2], "document 01's value");
    for n in 0..=257 {
        for e in (0..=SPREAD).chain(edge_counts(n, &mut random)) {
            compare_spread(&mut tally, n, e, n);
        }
        for length in [n.saturating_sub(1), n + 1, 0, 2 * n, 256, 257] {
            for e in [0, n, 512, usize::MAX] {
                compare_spread(&mut tally, n, e, length);
            }
        }
    }
    for n in [1 << 16, 1 << 32, (1 << 32) + 4, usize::MAX] {
        for length in [0, 4, 256] {
            compare_spread(&mut tally, n, 10, length);
        }
    }
    tally.finish()
}

/// Numbers of edges at the ends of 64, 32 and 16 bits, next to multiples of n, and random ones.
fn edge_counts(n: usize, random: &mut Random) -> Vec<usize> {
    let mut all = vec![];
    for end in [usize::MAX, 1 << 63, 1 << 32, 1 << 16] {
        let multiple = end - end % n.max(1);
        all.extend([end, end - 1, end - n, multiple, multiple - 1]);
    }
    all.extend((0..RANDOM_SPREAD).map(|i| random.next() as usize >> i));
    all
}

/// Document 01's number for degrees spread evenly.
fn even_degrees_number(n: usize, length: usize) -> u8 {
    match n {
        257.. => 2,
        _ if length != n => 3,
        _ => 0,
    }
}

fn compare_spread(tally: &mut Tally, n: usize, e: usize, length: usize) {
    let number = even_degrees_number(n, length);
    for filling in &BEFORE {
        let before = filling.number;
        let (held_to, expected) = match number {
            0 => (HeldTo::Rust, even_degrees(n, e)),
            _ => (HeldTo::Document, vec![before; length]),
        };
        let mut degrees = Guarded::new(&vec![before; length], before);
        let mut case = Case::held_to(held_to);
        case.value("number", abi::even_degrees(n, e, degrees.lend()), number);
        degrees.compare(&mut case, "degrees", &expected);
        tally.count(case, || {
            format!("even_degrees({n}, {e}) with {before} in each of {length} degrees")
        });
    }
}

fn compare_new() -> u64 {
    let mut tally = Tally::new("new");
    // The smallest first, since only the first differences are printed.
    let listed = [asked::small(), asked::edges(), asked::rates()].concat();
    for asked in listed.into_iter().chain(asked::random()) {
        assert_eq!(asked.number(), 0, "{asked} is not to be turned down");
        compare_code(&mut tally, &asked);
    }
    for (number, asked) in asked::refusals() {
        assert_eq!(asked.number(), number, "{asked} has another number");
        compare_code(&mut tally, &asked);
    }
    for asked in asked::damaged() {
        compare_code(&mut tally, &asked);
    }
    tally.finish()
}

/// One call with both fillings.
fn compare_code(tally: &mut Tally, asked: &Asked) {
    let number = asked.number();
    let built = (number == 0).then(|| Left::built(asked));
    for filling in &BEFORE {
        let refused;
        let (held_to, left) = match &built {
            Some(built) => (HeldTo::Rust, built),
            None => {
                refused = Left::refused(asked, filling, number);
                (HeldTo::Document, &refused)
            }
        };
        let mut lent = Lent::new(asked, filling);
        let mut case = Case::held_to(held_to);
        case.value("number", lent.call(asked), number);
        lent.compare(&mut case, asked, left);
        tally.count(case, || {
            format!("{asked} with {} in each byte", filling.narrow)
        });
    }
}

/// A row of degrees with its seed.
type SeededRow = (usize, usize, usize, usize, usize, u64);

/// The codes of the fixed list beside those of the four rates, and then calls that are turned down.
const LISTED_CODES: &[SeededRow] = &[
    (0, 0, 0, 0, 0, 0),
    (0, 3, 0, 0, 0, 1),
    (3, 0, 0, 0, 0, 2),
    (0, 256, 0, 0, 0, 3),
    (256, 0, 0, 0, 0, 4),
    (256, 256, 0, 0, 0, 5),
    (1, 1, 1, 1, 0, 6),
    (2, 1, 2, 1, 0, 7),
    (5, 1, 2, 0, 1, 8),
    (1, 3, 1, 3, 0, 9),
    (3, 2, 1, 2, 1, 10),
    (3, 3, 3, 2, 0, 11),
    (3, 3, 3, 3, 0, u64::MAX),
    (4, 2, 2, 2, 1, 12),
    (4, 8, 4, 2, 0, 13),
    (4, 7, 2, 3, 2, 14),
    (6, 3, 6, 2, 0, 15),
    (8, 8, 8, 8, 0, 16),
    (12, 6, 3, 0, 2, 17),
    (10, 5, 5, 1, 3, 18),
    (10, 5, 5, 3, 1, 19),
    (20, 10, 4, 5, 2, 20),
    (22, 22, 22, 22, 0, 21),
    (16, 32, 16, 32, 0, 22),
    (32, 16, 32, 16, 0, 23),
    (40, 20, 20, 3, 2, 1 << 32),
    (50, 200, 10, 7, 2, 1 << 63),
    (64, 64, 64, 8, 0, 24),
    (100, 50, 10, 7, 3, 25),
    (1, 256, 1, 256, 0, 26),
    (2, 256, 2, 256, 0, 27),
    (256, 1, 256, 1, 0, 28),
    (256, 2, 256, 2, 0, 29),
    (256, 128, 0, 0, 2, 30),
    (256, 256, 256, 2, 0, 31),
    (256, 256, 2, 129, 1, 32),
    (255, 255, 1, 255, 1, 33),
    (257, 0, 0, 0, 0, 34),
    (0, 257, 0, 0, 0, 35),
    (257, 257, 1, 513, 0, 36),
    (3, 256, 2, 256, 1, 37),
    (256, 3, 1, 3, 2, 38),
    (1, 0, 1, 513, 0, 39),
    (2, 256, 1, usize::MAX, 1, 40),
    (256, 256, 256, 1 << 56, 0, 41),
    (1, 0, 1, 1, 0, 42),
    (1, 1, 1, 2, 0, 43),
    (3, 2, 2, 2, 3, 44),
    (1, 256, 1, 257, 0, 45),
    (1, 256, 1, 512, 0, 46),
    (256, 1, 256, 2, 0, 47),
];

/// Variables and edges of the fixed list.
const LISTED_SPREADS: [(usize, usize); 20] = [
    (4, 10),
    (0, 0),
    (0, usize::MAX),
    (1, 0),
    (1, 7),
    (1, usize::MAX),
    (2, 1),
    (3, 1 << 63),
    (7, 6),
    (7, 7),
    (7, 8),
    (78, 168),
    (205, 490),
    (255, usize::MAX),
    (256, 255),
    (256, 512),
    (256, 513),
    (256, usize::MAX),
    (257, 0),
    (257, 514),
];

/// What stands in the parts before a call of the fixed list.
const BEFORE_LISTED: Filling = Filling {
    number: 0,
    wide: 1,
    narrow: 1,
};

const LIST_HEAD: &str = "\
# even_degrees N E NUMBER DEGREES
# new N M HEAVY DEGREE LIGHT SEED NUMBER EDGES RANK VAR COEF ROW START COL ORDER PARITY INFO A
# The first HEAVY of N variables have DEGREE, the others LIGHT. NUMBER is the refusal's, by document 01, 0 for none.
# Before a call EDGES and RANK are 0, and every entry of every other output and work part is 1.
# For a part its digest is listed, over all its entries: from 0 on, d becomes (17 d + (entry mod 65521) + 1) mod 65521.
";

/// This layer's fixed list, by the original alone where a call is not turned down.
pub fn list() -> String {
    let mut text = String::from(LIST_HEAD);
    for (n, e) in LISTED_SPREADS {
        list_spread(&mut text, n, e);
    }
    for (n, m, heavy, degree, light) in asked::RATES {
        list_code(&mut text, (n, m, heavy, degree, light, SEED));
    }
    for &row in LISTED_CODES {
        list_code(&mut text, row);
    }
    text
}

fn list_spread(text: &mut String, n: usize, e: usize) {
    let number = even_degrees_number(n, n);
    let degrees = match number {
        0 => even_degrees(n, e),
        _ => vec![1; n],
    };
    let digest = digest(degrees.iter().map(|&degree| degree as u64));
    writeln!(text, "even_degrees {n} {e} {number} {digest}").unwrap();
}

fn list_code(text: &mut String, row: SeededRow) {
    let (n, m, heavy, degree, light, seed) = row;
    let asked = Asked::of_row((n, m, heavy, degree, light), seed);
    let number = asked.number();
    let left = match number {
        0 => Left::built(&asked),
        _ => Left::refused(&asked, &BEFORE_LISTED, number),
    };
    write!(text, "new {n} {m} {heavy} {degree} {light} {seed}").unwrap();
    write!(text, " {number} {} {}", left.edges, left.rank).unwrap();
    for digest in digests(&left) {
        write!(text, " {digest}").unwrap();
    }
    text.push('\n');
}

/// The digests of the nine parts of a code, in the order of the call.
fn digests(left: &Left) -> [u64; 9] {
    let wide: [u64; WIDE] = left
        .wide
        .each_ref()
        .map(|part| digest(part.iter().map(|&x| x.into())));
    let narrow: [u64; NARROW] = left
        .narrow
        .each_ref()
        .map(|part| digest(part.iter().map(|&x| x.into())));
    let [var, row, start, col, order, parity, info, _, _] = wide;
    let [coef, a, _, _] = narrow;
    [var, coef, row, start, col, order, parity, info, a]
}

/// The Rust's build, behind a function that is not inlined, as the archive's is not.
#[inline(never)]
fn rust_new(asked: &Asked) -> NbCode {
    NbCode::new(asked.n, asked.m, &asked.degrees, asked.seed)
}

/// So many builds in a timed round.
const BUILDS: usize = 4;

/// The speed of a build at each of the four rates, ours beside the Rust's. Ours is lent its memory,
/// the Rust allocates its own.
pub fn measure() {
    for row in asked::RATES {
        let asked = Asked::of_row(row, SEED);
        let mut lent = Lent::new(&asked, &BEFORE[0]);
        time_both(
            &format!("new, {} variables and {} checks", asked.n, asked.m),
            BUILDS,
            || {
                for _ in 0..BUILDS {
                    black_box(lent.call(black_box(&asked)));
                }
            },
            || {
                for _ in 0..BUILDS {
                    black_box(rust_new(black_box(&asked)));
                }
            },
        );
    }
}
