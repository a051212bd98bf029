//! The fixed list of the calls that peel a lent code.

use crate::asked::{self, Asked, Row, SEED};
use crate::code::{A, COL, INFO, M, N, ORDER, PARITY, RANK, VAR};
use crate::code_lists::{
    CODE_HEAD, CodeOfLine, DIGEST_HEAD, HIGH, LONELY, MIDDLE, NO_CHECKS, NO_SPACE, NO_VARIABLES,
    NOTHING, ONE, TABLE, damage, write_line,
};
use crate::damage::Change;
use crate::on_code::Call;
use crate::preferences;

const CALLS_HEAD: &str = "\
# peel_picks CODE DAMAGE RULE SHIFT NUMBER COUNT PICKS
# with_peeled_info CODE DAMAGE RULE SHIFT NUMBER RANK ORDER PARITY INFO A
";

const LIST_HEAD: &str = "\
# There are N preferences. That of variable v is by RULE 0 its degree, DEGREE or LIGHT; by RULE 1 it is 0; by RULE 2 it is
# (7 v + SHIFT) mod 3; by RULE 3 it is the least number of 64 bits with a sign where v + SHIFT is even, and the greatest where not.
# SHIFT is 0 by RULE 0 and 1.
# NUMBER is the refusal's, by document 01, 0 for none. COUNT and RANK are 0 where a call is turned down.
# PICKS is a part of N entries. Before a call every entry of it and of every work part is 1.
# ORDER, PARITY, INFO and A are the parts of the lent code after the call.
";

/// How preferences are given.
#[derive(Clone, Copy)]
enum Rule {
    Degrees,
    Equal,
    Three(u64),
    Ends(u64),
}

use Rule::{Degrees, Ends, Equal, Three};

/// A code with its damage, and the preferences.
type Line = (Row, u64, Option<Change>, Rule);

/// What is asked for picks: of codes of every kind, and calls that are turned down.
const PICKED: &[Line] = &[
    (NOTHING, 0, None, Degrees),
    (NO_VARIABLES, 1, None, Equal),
    (NO_CHECKS, 2, None, Equal),
    (NO_CHECKS, 2, None, Three(1)),
    (NO_CHECKS, 2, None, Ends(0)),
    (ONE, 6, None, Degrees),
    (HIGH, 13, None, Three(0)),
    (LONELY, 17, None, Ends(1)),
    (MIDDLE, 20, None, Equal),
    (MIDDLE, 20, None, Three(2)),
    (MIDDLE, 20, None, Ends(0)),
    (TABLE, 30, None, Three(1)),
    (NO_SPACE, 31, None, Equal),
    (MIDDLE, 20, damage(M, 0, 257), Degrees),
    (MIDDLE, 20, damage(N, 0, 19), Degrees),
    (MIDDLE, 20, damage(COL, 51, 0), Equal),
    (MIDDLE, 20, damage(PARITY, 9, 0), Equal),
];

/// What is asked for the peeled code.
const PEELED: &[Line] = &[
    (NOTHING, 0, None, Equal),
    (NO_CHECKS, 2, None, Ends(1)),
    (HIGH, 13, None, Equal),
    (LONELY, 17, None, Degrees),
    (MIDDLE, 20, None, Three(0)),
    (MIDDLE, 20, None, Ends(1)),
    (TABLE, 30, None, Equal),
    (NO_SPACE, 31, None, Three(2)),
    (MIDDLE, 20, damage(N, 0, 257), Equal),
    (MIDDLE, 20, damage(N, 0, 21), Equal),
    (MIDDLE, 20, damage(VAR, 0, 19), Equal),
    (MIDDLE, 20, damage(ORDER, 20, 20), Equal),
    (MIDDLE, 20, damage(INFO, 9, 19), Equal),
    (MIDDLE, 20, damage(A, 99, 32), Degrees),
    (NOTHING, 0, damage(RANK, 0, 1), Equal),
];

/// This layer's fixed list, by the original alone where a call is not turned down.
pub fn list() -> String {
    let mut text = [CALLS_HEAD, CODE_HEAD, LIST_HEAD, DIGEST_HEAD].concat();
    for row in asked::RATES {
        list_picks(&mut text, (row, SEED, None, Degrees));
        list_peeled(&mut text, (row, SEED, None, Degrees));
    }
    for &line in PICKED {
        list_picks(&mut text, line);
    }
    for &line in PEELED {
        list_peeled(&mut text, line);
    }
    text
}

fn list_picks(text: &mut String, (row, seed, damage, rule): Line) {
    let code = CodeOfLine::new(row, seed, damage);
    let call = Call::PeelPicks {
        prefer: preferences(row, rule),
        picks: code.built.n,
    };
    write_line(text, &code, call, &arguments(rule));
}

fn list_peeled(text: &mut String, (row, seed, damage, rule): Line) {
    let code = CodeOfLine::new(row, seed, damage);
    let prefer = preferences(row, rule);
    let call = Call::WithPeeledInfo { prefer };
    write_line(text, &code, call, &arguments(rule));
}

fn preferences(row: Row, rule: Rule) -> Vec<i64> {
    let degrees = Asked::of_row(row, 0).degrees;
    let of_each = |number: &dyn Fn(u64) -> i64| (0..row.0 as u64).map(number).collect();
    match rule {
        Degrees => preferences::of_numbers(&degrees),
        Equal => of_each(&|_| 0),
        Three(shift) => of_each(&|v| ((7 * v + shift) % 3) as i64),
        Ends(shift) => of_each(&|v| [i64::MIN, i64::MAX][((v + shift) % 2) as usize]),
    }
}

/// RULE and SHIFT.
fn arguments(rule: Rule) -> [u64; 2] {
    match rule {
        Degrees => [0, 0],
        Equal => [1, 0],
        Three(shift) => [2, shift],
        Ends(shift) => [3, shift],
    }
}
