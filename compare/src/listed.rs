//! The differences that docs/DIFFERENCES.md lists, each at its smallest input: the original still
//! does what the document says of it. What ours does instead is compared with the other calls.

use crate::listed_frames;
use crate::oracle::{GF, NbCode, OwnCode, even_degrees};
use crate::report::{Case, HeldTo, Tally};
use std::panic::{catch_unwind, set_hook, take_hook};

/// What the original makes of an input: of an answer that is more than one number, the number that
/// the document names.
#[derive(PartialEq)]
pub enum Outcome {
    Answers(usize),
    Panics,
}

impl std::fmt::Display for Outcome {
    fn fmt(&self, f: &mut std::fmt::Formatter) -> std::fmt::Result {
        match self {
            Outcome::Answers(x) => write!(f, "answers {x}"),
            Outcome::Panics => write!(f, "panics"),
        }
    }
}

pub type Call = fn() -> usize;

/// Each input, what the document says of the original, and the call.
const LISTED: &[(&str, Outcome, Call)] = &[
    ("mul(0, 32)", Outcome::Answers(0), || GF.mul(0, 32).into()),
    ("mul(1, 32)", Outcome::Panics, || GF.mul(1, 32).into()),
    ("inv(0)", Outcome::Answers(1), || GF.inv(0).into()),
    ("inv(32)", Outcome::Panics, || GF.inv(32).into()),
    ("even_degrees(257, 0)", Outcome::Answers(257), || {
        even_degrees(257, 0).len()
    }),
    (
        "new(n 257, m 0, degrees 257*0)",
        Outcome::Answers(257),
        || NbCode::new(257, 0, &[0; 257], 0).info.len(),
    ),
    ("new(n 0, m 257, no degrees)", Outcome::Answers(258), || {
        NbCode::new(0, 257, &[], 0).row.len()
    }),
    (
        "new(n 3, m 171, degrees 3*171)",
        Outcome::Answers(513),
        || NbCode::new(3, 171, &[171; 3], 0).edges.len(),
    ),
    ("new(n 1, m 0, degree 1)", Outcome::Panics, || {
        NbCode::new(1, 0, &[1], 0).edges.len()
    }),
    ("new(n 1, m 1, degree 2)", Outcome::Panics, || {
        NbCode::new(1, 1, &[2], 0).edges.len()
    }),
    ("new(n 0, m 0, one degree 0)", Outcome::Panics, || {
        NbCode::new(0, 0, &[0], 0).edges.len()
    }),
    ("new(n 1, m 0, no degrees)", Outcome::Panics, || {
        NbCode::new(1, 0, &[], 0).edges.len()
    }),
    ("info_of(32) of n 1, m 0", Outcome::Answers(32), || {
        no_checks().info_of(&[32])[0].into()
    }),
    ("checks_ok(32) of n 1, m 0", Outcome::Answers(1), || {
        no_checks().checks_ok(&[32]).into()
    }),
    ("checks_ok(32) of n 1, m 1", Outcome::Panics, || {
        one_edge().checks_ok(&[32]).into()
    }),
    ("checks_ok(32, 1) of n 2, m 2", Outcome::Answers(0), || {
        two_edges().checks_ok(&[32, 1]).into()
    }),
    ("checks_ok(1, 32) of n 2, m 2", Outcome::Panics, || {
        two_edges().checks_ok(&[1, 32]).into()
    }),
    ("encode(0) of n 0, m 0", Outcome::Panics, || {
        nothing().encode(&[0]).len()
    }),
    ("degree(0) of n 0, m 0", Outcome::Panics, || {
        nothing().degree(0)
    }),
    ("info_of(0) of n 0, m 0", Outcome::Answers(0), || {
        nothing().info_of(&[0]).len()
    }),
    ("info_of() of n 1, m 0", Outcome::Panics, || {
        no_checks().info_of(&[]).len()
    }),
    ("info_of() of n 1, m 1", Outcome::Answers(0), || {
        one_edge().info_of(&[]).len()
    }),
    ("checks_ok(0) of n 0, m 0", Outcome::Answers(1), || {
        nothing().checks_ok(&[0]).into()
    }),
    ("checks_ok() of n 1, m 0", Outcome::Answers(1), || {
        no_checks().checks_ok(&[]).into()
    }),
    ("checks_ok() of n 1, m 1", Outcome::Panics, || {
        one_edge().checks_ok(&[]).into()
    }),
    ("peel_picks(0) of n 0, m 0", Outcome::Answers(0), || {
        nothing().peel_picks(by(&[0])).len()
    }),
    ("peel_picks() of n 1, m 0", Outcome::Panics, || {
        no_checks().peel_picks(by(&[])).len()
    }),
    ("peel_picks() of n 1, m 1", Outcome::Answers(0), || {
        one_edge().peel_picks(by(&[])).len()
    }),
    (
        "with_peeled_info(0) of n 0, m 0",
        Outcome::Answers(0),
        || nothing().with_peeled_info(by(&[0])).n,
    ),
    ("with_peeled_info() of n 1, m 0", Outcome::Panics, || {
        no_checks().with_peeled_info(by(&[])).n
    }),
    (
        "with_peeled_info() of n 1, m 1",
        Outcome::Answers(1),
        || one_edge().with_peeled_info(by(&[])).parity.len(),
    ),
    (
        "decode_soft(one metric) of n 0, m 0",
        Outcome::Panics,
        || rounds(&nothing(), &[0.0], 0),
    ),
    (
        "decode_soft(no metrics) of n 1, m 0",
        Outcome::Panics,
        || rounds(&no_checks(), &[], 0),
    ),
    (
        "decode_soft(1056*0.0, one round) of n 33, m 1, degrees 33*1",
        Outcome::Panics,
        || rounds(&NbCode::new(33, 1, &[1; 33], 0), &[0.0; 1_056], 1),
    ),
    (
        "decode_soft(2.0, 31*0.0, one round) of n 1, m 0, bits of posterior 1",
        Outcome::Answers(1_020_617_962),
        own_posterior,
    ),
    (
        "list_decode(width 17) of n 0, m 0",
        Outcome::Answers(0),
        || nothing().list_decode(&[], &[], 17).len(),
    ),
    (
        "list_decode(width 32) of n 32, m 0, metrics 1.0 at value 1, posteriors 0.0",
        Outcome::Answers(0),
        || count_of_ones(32),
    ),
    (
        "list_decode(posteriors NaN, 31*0.0, width 0) of n 1, m 0",
        Outcome::Answers(0),
        || symbol(&no_checks(), f32::NAN),
    ),
    (
        "list_decode(posteriors infinity, 31*0.0, width 0) of n 1, m 0",
        Outcome::Answers(0),
        || symbol(&no_checks(), f32::INFINITY),
    ),
    (
        "list_decode(posteriors -infinity, 31*0.0, width 0) of n 1, m 0",
        Outcome::Answers(1),
        || symbol(&no_checks(), f32::NEG_INFINITY),
    ),
    (
        "list_decode(posteriors NaN, 31*0.0, width 0) of n 1, m 1",
        Outcome::Answers(0),
        || symbol(&one_edge(), f32::NAN),
    ),
    (
        "list_decode(one metric) of n 0, m 0",
        Outcome::Answers(0),
        || nothing().list_decode(&[0.0], &[], 0).len(),
    ),
    (
        "list_decode(no metrics) of n 1, m 0",
        Outcome::Panics,
        || no_checks().list_decode(&[], &[0.0; 32], 0).len(),
    ),
    (
        "list_decode(one posterior) of n 0, m 0",
        Outcome::Answers(0),
        || nothing().list_decode(&[], &[0.0], 0).len(),
    ),
    (
        "list_decode(no posteriors) of n 1, m 0",
        Outcome::Panics,
        || no_checks().list_decode(&[0.0; 32], &[], 0).len(),
    ),
    (
        "list_decode(no posteriors) of n 1, m 1",
        Outcome::Answers(0),
        || one_edge().list_decode(&[0.0; 32], &[], 0)[0].into(),
    ),
    (
        "list_decode(width 1) of n 2, m 0, margins of one logarithm, symbol 0",
        Outcome::Answers(1),
        own_symbol,
    ),
];

/// How many rounds are done, with all symbols known.
fn rounds(code: &NbCode, metrics: &[f32], limit: usize) -> usize {
    code.decode_rounds(metrics, code.k(), limit).1
}

/// With the Rust's own exp.
fn own_posterior() -> usize {
    let mut metrics = [0.0; 32];
    metrics[0] = 2.0;
    let code = OwnCode::new(1, 0, &[0], 0);
    code.decode_rounds(&metrics, 1, 1).2[1].to_bits() as usize
}

/// The first symbol of a list of width 0 by metrics 0.0, posteriors being this one and then 0.0.
fn symbol(code: &NbCode, posterior: f32) -> usize {
    let mut posteriors = [0.0; 32];
    posteriors[0] = posterior;
    code.list_decode(&[0.0; 32], &posteriors, 0)[0].into()
}

/// How many symbols a list of this width takes at their second likeliest value, 1, where each of as
/// many has the metric 1.0 there.
fn count_of_ones(width: usize) -> usize {
    let code = NbCode::new(width, 0, &vec![0; width], 0);
    let mut metrics = vec![0.0; 32 * width];
    metrics
        .iter_mut()
        .skip(1)
        .step_by(32)
        .for_each(|x| *x = 1.0);
    let word = code.list_decode(&metrics, &vec![0.0; 32 * width], width);
    word.iter().filter(|&&x| x == 1).count()
}

/// With the Rust's own ln: of two symbols, the first has the greater margin, by one last bit.
fn own_symbol() -> usize {
    let [mut metrics, mut posteriors] = [[0.0; 64]; 2];
    [metrics[1], metrics[33]] = [1.0; 2];
    [posteriors[0], posteriors[32]] = [1.0_f32.next_up(), 1.0];
    let code = OwnCode::new(2, 0, &[0; 2], 0);
    code.list_decode(&metrics, &posteriors, 1)[0].into()
}

/// A preference function that reads a list.
fn by(prefer: &'static [i64]) -> impl Fn(usize) -> i64 {
    |v| prefer[v]
}

fn nothing() -> NbCode {
    NbCode::new(0, 0, &[], 0)
}

/// One variable, no check.
fn no_checks() -> NbCode {
    NbCode::new(1, 0, &[0], 0)
}

/// One variable, in one check.
fn one_edge() -> NbCode {
    NbCode::new(1, 1, &[1], 0)
}

/// Two variables, each in a check of its own, the second in the first check.
fn two_edges() -> NbCode {
    NbCode::new(2, 2, &[1, 1], 0)
}

pub fn compare() -> u64 {
    let mut tally = Tally::new("listed differences");
    // The panics are expected and say nothing here.
    let hook = take_hook();
    set_hook(Box::new(|_| {}));
    for (input, said, call) in LISTED.iter().chain(listed_frames::LISTED) {
        let found = catch_unwind(call).map_or(Outcome::Panics, Outcome::Answers);
        let mut case = Case::held_to(HeldTo::Listed);
        case.value("outcome:", &found, said);
        tally.count(case, || input.to_string());
    }
    set_hook(hook);
    tally.finish()
}
