//! The fixed list of list decoding.

use crate::asked::{self, Row, SEED};
use crate::code::{A, COL, INFO, M, N, RANK, VAR};
use crate::code_lists::{
    CODE_HEAD, CodeOfLine, DIGEST_HEAD, HIGH, LONELY, MIDDLE, NO_CHECKS, NO_SPACE, NO_VARIABLES,
    NOTHING, ONE, TABLE, damage, write_line,
};
use crate::damage::Change;
use crate::line_floats::{FLOATS_HEAD, METRICS_HEAD, Made, ZEROS, posteriors, sent};
use crate::list_decode_call::ListDecoding;
use crate::on_code::Call;
use Made::{Finite, Plain, Sevenths, Special};

const CALLS_HEAD: &str = "\
# list_decode CODE DAMAGE RULE DRAWS SPREAD PEAK KNOWN RULE DRAWS SPREAD PEAK WIDTH NUMBER ROUNDS WORD
";

const LIST_HEAD: &str = "\
# The second RULE DRAWS SPREAD PEAK are of the posteriors: every draw from DRAWS on gives one, as one gives a metric.
# NUMBER is the refusal's, by document 01, 0 for none. ROUNDS is 0. WORD is a part of N entries.
# Before a call every entry of every output and work part is 1.
";

/// A code with its damage, the metrics, how many symbols of the word are drawn, the posteriors and the
/// width.
type Line = (Row, u64, Option<Change>, Made, u32, Made, usize);

/// One information position more than the widest list has alternatives.
const WIDE: Row = (21, 4, 21, 1, 0);

/// The lines beside those of the four rates.
const LINES: &[Line] = &[
    (NOTHING, 0, None, ZEROS, 0, ZEROS, 0),
    (NO_VARIABLES, 1, None, ZEROS, 0, ZEROS, 16),
    (NO_CHECKS, 2, None, Plain(2, 80, 0), 3, Plain(3, 80, 0), 0),
    (NO_CHECKS, 2, None, Plain(2, 80, 0), 3, Plain(3, 80, 0), 1),
    (NO_CHECKS, 2, None, Plain(2, 80, 0), 3, Plain(3, 80, 0), 2),
    (NO_CHECKS, 2, None, Plain(2, 80, 0), 3, Plain(3, 80, 0), 10),
    (ONE, 6, None, Plain(6, 80, 0), 0, Plain(7, 80, 0), 0),
    (ONE, 6, None, Plain(6, 80, 0), 0, Plain(7, 80, 0), 16),
    (HIGH, 13, None, Plain(13, 80, 0), 0, Plain(14, 80, 0), 5),
    (LONELY, 17, None, Plain(1, 64, 40), 6, Plain(2, 64, 8), 0),
    (LONELY, 17, None, Plain(1, 64, 40), 6, Plain(2, 64, 8), 1),
    (LONELY, 17, None, Plain(1, 64, 40), 6, Plain(2, 64, 8), 5),
    (LONELY, 17, None, Plain(1, 64, 40), 6, Plain(2, 64, 8), 6),
    (LONELY, 17, None, Plain(1, 64, 40), 6, Plain(2, 64, 8), 10),
    (MIDDLE, 20, None, Plain(7, 64, 40), 10, Plain(8, 64, 24), 0),
    (MIDDLE, 20, None, Plain(7, 64, 40), 10, Plain(8, 64, 24), 1),
    (MIDDLE, 20, None, Plain(7, 64, 40), 10, Plain(8, 64, 24), 5),
    (MIDDLE, 20, None, Plain(7, 64, 40), 10, Plain(8, 64, 24), 9),
    (MIDDLE, 20, None, Plain(7, 64, 40), 10, Plain(8, 64, 24), 10),
    (MIDDLE, 20, None, Plain(7, 64, 40), 10, Plain(8, 64, 24), 16),
    (
        TABLE,
        30,
        None,
        Sevenths(30, 64, 40),
        128,
        Plain(31, 64, 48),
        5,
    ),
    (
        NO_SPACE,
        31,
        None,
        Plain(31, 64, 0),
        0,
        Plain(32, 64, 0),
        10,
    ),
    (WIDE, 40, None, Plain(25, 64, 40), 17, Plain(26, 64, 24), 16),
    // Equal margins, and equal scores.
    (NO_CHECKS, 2, None, Plain(2, 64, 40), 3, ZEROS, 1),
    (NO_CHECKS, 2, None, Plain(2, 64, 40), 3, ZEROS, 2),
    (MIDDLE, 20, None, ZEROS, 10, Plain(22, 64, 0), 5),
    (MIDDLE, 20, None, Plain(22, 3, 0), 10, Plain(23, 3, 0), 5),
    (MIDDLE, 20, None, Plain(22, 64, 0), 10, Plain(23, 2, 0), 1),
    (MIDDLE, 20, None, Plain(22, 64, 0), 10, ZEROS, 5),
    // Scores that are rounded.
    (
        MIDDLE,
        20,
        None,
        Sevenths(14, 3, 0),
        10,
        Plain(23, 64, 0),
        10,
    ),
    (
        MIDDLE,
        20,
        None,
        Sevenths(17, 8, 0),
        10,
        Plain(23, 64, 0),
        10,
    ),
    // Posteriors below 1e-30, and the greatest.
    (MIDDLE, 20, None, Plain(24, 64, 0), 10, Finite(24, 2, 8), 5),
    (MIDDLE, 20, None, Plain(24, 64, 0), 10, Finite(25, 2, 0), 1),
    (MIDDLE, 20, None, Plain(24, 64, 0), 10, Finite(25, 6, 6), 5),
    (
        MIDDLE,
        20,
        None,
        Plain(24, 64, 0),
        10,
        Finite(25, 64, 16),
        5,
    ),
    // Scores of NaN and of infinities.
    (
        LONELY,
        17,
        None,
        Special(17, 64, 40),
        6,
        Plain(18, 64, 0),
        5,
    ),
    (MIDDLE, 20, None, Special(24, 7, 0), 10, Plain(24, 64, 0), 5),
    (
        MIDDLE,
        20,
        None,
        Special(25, 512, 0),
        10,
        Plain(25, 64, 16),
        10,
    ),
    (
        MIDDLE,
        20,
        None,
        Finite(27, 64, 0),
        10,
        Finite(27, 12, 0),
        10,
    ),
    // Number 8, and numbers that go before it.
    (NOTHING, 0, None, ZEROS, 0, ZEROS, 17),
    (WIDE, 40, None, Plain(25, 64, 40), 17, Plain(26, 64, 24), 17),
    (MIDDLE, 20, None, ZEROS, 10, ZEROS, usize::MAX),
    (MIDDLE, 20, None, ZEROS, 10, Special(21, 400, 0), 0),
    (ONE, 6, None, ZEROS, 0, Special(7, 8, 0), 1),
    (
        MIDDLE,
        20,
        damage(M, 0, 257),
        ZEROS,
        10,
        Special(21, 7, 0),
        17,
    ),
    (
        MIDDLE,
        20,
        damage(N, 0, 19),
        ZEROS,
        10,
        Special(21, 7, 0),
        17,
    ),
    (
        MIDDLE,
        20,
        damage(VAR, 0, 19),
        ZEROS,
        10,
        Special(21, 7, 0),
        17,
    ),
    (MIDDLE, 20, damage(COL, 51, 0), ZEROS, 10, ZEROS, 10),
    (MIDDLE, 20, damage(INFO, 9, 19), ZEROS, 10, ZEROS, 10),
    (
        MIDDLE,
        20,
        damage(A, 99, 32),
        ZEROS,
        10,
        Special(21, 7, 0),
        17,
    ),
    (NOTHING, 0, damage(RANK, 0, 1), ZEROS, 0, ZEROS, 0),
];

/// What is asked of the codes of the four rates.
const OF_RATES: [(Made, Made); 4] = [
    (Plain(SEED, 64, 16), Plain(119, 64, 54)),
    (Plain(SEED, 64, 16), Plain(13, 64, 56)),
    (Plain(SEED, 64, 16), Plain(510, 64, 56)),
    (Plain(SEED, 64, 16), Plain(13, 64, 56)),
];

/// This layer's fixed list, by the original alone where a call is not turned down.
pub fn list() -> String {
    let heads = [
        CALLS_HEAD,
        CODE_HEAD,
        METRICS_HEAD,
        FLOATS_HEAD,
        LIST_HEAD,
        DIGEST_HEAD,
    ];
    let mut text = heads.concat();
    for (row, (made, around)) in asked::RATES.into_iter().zip(OF_RATES) {
        list_line(&mut text, (row, SEED, None, made, 52, around, 10));
    }
    for &line in LINES {
        list_line(&mut text, line);
    }
    text
}

fn list_line(text: &mut String, (row, seed, damage, made, known, around, width): Line) {
    let code = CodeOfLine::new(row, seed, damage);
    let (word, metrics) = sent(&code.built, made, known);
    let list = ListDecoding::new(metrics, posteriors(&word, around), width);
    let of_metrics = made.arguments();
    let of_posteriors = around.arguments();
    let arguments = [
        &of_metrics[..],
        &[known.into()],
        &of_posteriors,
        &[width as u64],
    ]
    .concat();
    write_line(text, &code, Call::ListDecode(list), &arguments);
}
