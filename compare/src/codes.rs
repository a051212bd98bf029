//! Lent codes that are not refused: the original's own, and graphs that no build makes.

use crate::asked;
use crate::code::{Code, peeled_order};
use crate::on_code::Judged;
use crate::oracle::{GF, InfoSet, NbCode, RATES, code_at, degrees_for};
use crate::preferences;
use crate::random::Random;

/// The edges of each check: variable and coefficient.
pub type Checks = Vec<Vec<(u16, u8)>>;

/// The codes of the four rates with both information sets.
pub fn rates() -> Vec<Judged> {
    let mut all = Vec::new();
    for rate in RATES {
        for set in [InfoSet::Echelon, InfoSet::Peeled] {
            let built = code_at(rate, set);
            let prefer = preferences::of_numbers(&degrees_for(rate));
            let code = match set {
                InfoSet::Echelon => Code::of_new(built),
                InfoSet::Peeled => Code::of(built, &peeled_order(built, &prefer)),
            };
            all.push(accepted(format!("the code of {rate:?}, {set:?}"), code));
        }
    }
    all
}

/// Codes that `new` builds: some of the small ones, and those at the ends of what is allowed.
pub fn built() -> impl Iterator<Item = Judged> {
    let small = asked::small().into_iter().step_by(8);
    small.chain(asked::edges()).map(|asked| {
        let built = NbCode::new(asked.n, asked.m, &asked.degrees, asked.seed);
        accepted(asked.to_string(), Code::of_new(&built))
    })
}

/// A code that must not be refused.
pub fn accepted(name: String, code: Code) -> Judged {
    let judged = Judged::new(name, code);
    judged.built();
    judged
}

/// A graph laid out with lists by variable and a column order at random. The original eliminates.
pub fn laid_out(random: &mut Random, n: usize, checks: &Checks) -> Code {
    let (mut edges, mut row, mut col) = (Vec::new(), vec![0], vec![Vec::new(); n]);
    for check in checks {
        for &edge in check {
            col[usize::from(edge.0)].push(edges.len());
            edges.push(edge);
        }
        row.push(edges.len());
    }
    for list in &mut col {
        random.shuffle(list);
    }
    let mut order: Vec<usize> = (0..n).collect();
    random.shuffle(&mut order);
    let mut built = NbCode {
        n,
        m: checks.len(),
        edges,
        row,
        col,
        info: Vec::new(),
        parity: Vec::new(),
        a: Vec::new(),
    };
    built.build_encoder(&order);
    Code::of(&built, &order)
}

/// The checks of a graph that the original keeps.
pub fn checks_of(built: &NbCode) -> Checks {
    let check = |ends: &[usize]| built.edges[ends[0]..ends[1]].to_vec();
    built.row.windows(2).map(check).collect()
}

/// Graphs at the ends of what is allowed: sizes, which of m checks and n variables have an edge,
/// and a name.
type Shape = (usize, usize, fn(usize, usize) -> bool, &'static str);

const ENDS: &[Shape] = &[
    (0, 0, |_, _| false, "no variables and no checks"),
    (0, 1, |_, _| false, "no variables and a check"),
    (0, 256, |_, _| false, "no variables and 256 checks"),
    (1, 0, |_, _| false, "a variable and no checks"),
    (3, 0, |_, _| false, "3 variables and no checks"),
    (256, 0, |_, _| false, "256 variables and no checks"),
    (1, 1, |_, _| false, "a variable and a check without edges"),
    (7, 9, |_, _| false, "7 variables and 9 checks without edges"),
    (256, 256, |_, _| false, "256 variables and checks, no edges"),
    (1, 1, |_, _| true, "a variable and a check with an edge"),
    (
        1,
        3,
        |c, _| c == 1,
        "a check with an edge between two without",
    ),
    (
        4,
        4,
        |c, v| c == 3 && v == 0,
        "an edge in the last check alone",
    ),
    (
        4,
        4,
        |c, v| c == 0 && v == 3,
        "an edge of the last variable alone",
    ),
    (1, 256, |_, _| true, "a variable in 256 checks"),
    (256, 1, |_, _| true, "a check of 256 variables"),
    (256, 1, |_, v| v == 255, "a check of the 256th variable"),
    (256, 256, |c, v| c == v, "256 checks of a variable each"),
    (
        256,
        256,
        |c, v| c == v || c == (v + 1) % 256,
        "a ring of 512 edges",
    ),
    (
        256,
        256,
        |c, v| v == 0 || v == 1 + c % 255,
        "256 checks of 2 variables, one in all",
    ),
    (2, 256, |_, _| true, "2 variables in 256 checks, 512 edges"),
    (256, 2, |_, _| true, "2 checks of 256 variables, 512 edges"),
    (16, 32, |_, _| true, "16 variables in 32 checks, 512 edges"),
    (32, 16, |_, _| true, "16 checks of 32 variables, 512 edges"),
    (
        256,
        128,
        |c, v| v % 128 == c,
        "a table of the greatest length, rank 128",
    ),
    (
        256,
        128,
        |c, v| v % 128 == c || v % 128 == (c + 1) % 128,
        "128 checks of 4 variables, 512 edges",
    ),
    (
        256,
        255,
        |c, v| v == c || v == c + 1,
        "a chain of 510 edges",
    ),
];

/// Each from so many draws of coefficients, lists and orders.
const END_DRAWS: usize = 3;

pub fn ends() -> Vec<Judged> {
    let mut random = Random::new();
    let mut all = Vec::new();
    for &(n, m, has_edge, name) in ENDS {
        for _ in 0..END_DRAWS {
            let variables = |c| (0..n).filter(move |&v| has_edge(c, v));
            let checks = (0..m)
                .map(|c| variables(c).map(|v| edge(&mut random, v)).collect())
                .collect();
            let code = laid_out(&mut random, n, &checks);
            all.push(accepted(format!("a graph of {name}"), code));
        }
    }
    all
}

/// An edge of a variable, its coefficient at random.
fn edge(random: &mut Random, v: usize) -> (u16, u8) {
    (v as u16, 1 + random.below(31) as u8)
}

/// So many random graphs of at most so many variables and checks, and of any sizes.
const SMALL: usize = 600;
const SMALL_SIZE: usize = 5;
const ANY: usize = 4_000;

pub fn small() -> impl Iterator<Item = Judged> {
    let mut random = Random::new();
    (0..SMALL).map(move |i| {
        let [n, m] = [(); 2].map(|_| random.below(SMALL_SIZE + 1));
        drawn(&mut random, n, m, format!("small random graph {i}"))
    })
}

pub fn any() -> impl Iterator<Item = Judged> {
    let mut random = Random::new();
    (0..ANY).map(move |i| {
        let [n, m] = [(); 2].map(|_| random.size());
        drawn(&mut random, n, m, format!("random graph {i}"))
    })
}

/// Random graphs of sizes between, as many as are taken.
pub fn middle() -> impl Iterator<Item = Judged> {
    let mut random = Random::new();
    (0..).map(move |i| {
        let [n, m] = [(); 2].map(|_| 1 + random.below(40));
        drawn(&mut random, n, m, format!("middle random graph {i}"))
    })
}

fn drawn(random: &mut Random, n: usize, m: usize, name: String) -> Judged {
    let checks = random_checks(random, n, m);
    accepted(name, laid_out(random, n, &checks))
}

/// Checks of one kind, and among them some without edges and some that depend on others, so that
/// the rank is often below m; sometimes filled up to 512 edges.
fn random_checks(random: &mut Random, n: usize, m: usize) -> Checks {
    let most = match random.below(4) {
        0 => n,
        1 => 512 / m.max(1),
        _ => 4,
    };
    let dependent = random.below(4) != 0;
    let mut checks: Checks = Vec::new();
    let mut left = 512;
    for c in 0..m {
        let [one, other] = [(); 2].map(|_| random.below(c.max(1)));
        let mut check = match random.below(8) {
            0 => Vec::new(),
            1 if dependent && c > 0 => multiple(random, &checks[one]),
            2 if dependent && c > 0 => sum(&checks[one], &checks[other]),
            _ => random_check(random, n, most),
        };
        check.truncate(left);
        left -= check.len();
        checks.push(check);
    }
    if random.below(8) == 0 {
        fill_up(random, n, &mut checks, left);
    }
    random.shuffle(&mut checks);
    checks
}

/// Up to `most` different variables, in any order.
fn random_check(random: &mut Random, n: usize, most: usize) -> Vec<(u16, u8)> {
    let mut variables: Vec<usize> = (0..n).collect();
    random.shuffle(&mut variables);
    variables.truncate(random.below(most.min(n) + 1));
    variables.into_iter().map(|v| edge(random, v)).collect()
}

fn multiple(random: &mut Random, check: &[(u16, u8)]) -> Vec<(u16, u8)> {
    let factor = 1 + random.below(31) as u8;
    let times = |&(v, coef)| (v, GF.mul(factor, coef));
    check.iter().map(times).collect()
}

fn sum(one: &[(u16, u8)], other: &[(u16, u8)]) -> Vec<(u16, u8)> {
    let mut sum = one.to_vec();
    for &(v, coef) in other {
        match sum.iter().position(|edge| edge.0 == v) {
            Some(i) if sum[i].1 == coef => drop(sum.remove(i)),
            Some(i) => sum[i].1 ^= coef,
            None => sum.push((v, coef)),
        }
    }
    sum
}

/// Adds edges where there are none until no more are left to add.
fn fill_up(random: &mut Random, n: usize, checks: &mut Checks, mut left: usize) {
    for check in checks {
        for v in 0..n {
            if left > 0 && check.iter().all(|edge| usize::from(edge.0) != v) {
                check.push(edge(random, v));
                left -= 1;
            }
        }
    }
}
