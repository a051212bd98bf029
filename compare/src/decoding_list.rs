//! The fixed list of the calls that decode.

use crate::asked::{self, Row, SEED};
use crate::code::{A, COL, INFO, M, N, RANK, VAR};
use crate::code_lists::{
    CODE_HEAD, CodeOfLine, DIGEST_HEAD, HIGH, LONELY, MIDDLE, NO_CHECKS, NO_SPACE, NO_VARIABLES,
    NOTHING, ONE, TABLE, damage, write_line,
};
use crate::damage::Change;
use crate::decode_call::Decoding;
use crate::line_floats::{FLOATS_HEAD, METRICS_HEAD, Made, ZEROS, sent};
use crate::on_code::Call;

const CALLS_HEAD: &str = "\
# decode_soft CODE DAMAGE RULE DRAWS SPREAD PEAK KNOWN LIMIT NUMBER ROUNDS WORD POSTERIORS
# decode CODE DAMAGE RULE DRAWS SPREAD PEAK KNOWN LIMIT NUMBER ROUNDS WORD
";

const LIST_HEAD: &str = "\
# KNOWN and LIMIT have 32 bits. NUMBER is the refusal's, by document 01, 0 for none. ROUNDS is 0 where that is neither 0 nor 10.
# WORD is a part of N entries, POSTERIORS one of 32 N floats, none of them a NaN; the bits of a float stand for it in the digest.
# Before a call every entry of every output and work part is 1, and 1.0 where it is a float.
";

use Made::{Plain, Special};

/// A code with its damage, the metrics, the known count and the limit. Both calls are listed.
type Line = (Row, u64, Option<Change>, Made, u32, u32);

/// A check of 32 variables, and one of 33.
const DEGREE_32: Row = (32, 1, 32, 1, 0);
const DEGREE_33: Row = (33, 1, 33, 1, 0);

/// The metrics of the four rates: words in noise.
const OF_RATES: [Made; 4] = [
    Plain(SEED, 64, 36),
    Plain(SEED, 64, 36),
    Plain(SEED, 64, 40),
    Plain(SEED, 64, 48),
];

/// The lines beside those of the four rates.
const LINES: &[Line] = &[
    (NOTHING, 0, None, ZEROS, 0, 1),
    (NOTHING, 0, None, ZEROS, u32::MAX, 0),
    (NO_VARIABLES, 1, None, ZEROS, 1, 3),
    (NO_CHECKS, 2, None, Plain(2, 80, 0), 3, 1),
    (NO_CHECKS, 2, None, Plain(2, 80, 0), 1, 1),
    (NO_CHECKS, 2, None, Special(2, 7, 0), 3, 1),
    // Document 01's values: the word 0 in one round, and 10.
    (ONE, 6, None, ZEROS, 0, 1),
    (ONE, 6, None, ZEROS, 0, 0),
    (ONE, 6, None, Plain(6, 800, 0), 0, u32::MAX),
    (HIGH, 13, None, Plain(13, 80, 0), 0, 4),
    (LONELY, 17, None, Plain(17, 80, 80), 6, 20),
    (LONELY, 17, None, Plain(34, 64, 32), u32::MAX, 30),
    (LONELY, 17, None, Plain(34, 64, 32), 6, 26),
    (LONELY, 17, None, Special(18, 64, 32), 6, 10),
    (MIDDLE, 20, None, ZEROS, 10, 2),
    (MIDDLE, 20, None, Plain(20, 64, 80), 0, 10),
    (MIDDLE, 20, None, Plain(20, 64, 48), 1, 10),
    (MIDDLE, 20, None, Plain(20, 64, 48), 9, 10),
    (MIDDLE, 20, None, Plain(37, 64, 32), 10, 9),
    (MIDDLE, 20, None, Plain(37, 64, 32), 10, 8),
    (MIDDLE, 20, None, Plain(6, 64, 40), 11, 30),
    (MIDDLE, 20, None, Plain(22, 64, 0), 10, 12),
    (MIDDLE, 20, None, Plain(23, 32_768, 32_767), 10, 10),
    (MIDDLE, 20, None, Special(24, 7, 0), 10, 3),
    (MIDDLE, 20, None, Special(25, 2_048, 1_600), 10, 10),
    (MIDDLE, 20, None, Special(26, 2_048, 1_200), 10, 10),
    (DEGREE_32, 32, None, Plain(32, 64, 80), 31, 2),
    (DEGREE_33, 33, None, Plain(33, 64, 80), 32, 1),
    (DEGREE_33, 33, None, Plain(33, 64, 80), 32, 0),
    (TABLE, 30, None, Plain(38, 64, 40), 128, 6),
    (NO_SPACE, 31, None, Plain(31, 64, 0), 0, 1),
    (MIDDLE, 20, damage(M, 0, 257), ZEROS, 10, 1),
    (MIDDLE, 20, damage(N, 0, 19), ZEROS, 10, 1),
    (MIDDLE, 20, damage(VAR, 0, 19), ZEROS, 10, 1),
    (MIDDLE, 20, damage(COL, 51, 0), ZEROS, 10, 0),
    (MIDDLE, 20, damage(INFO, 9, 19), ZEROS, 10, 1),
    (MIDDLE, 20, damage(A, 99, 32), ZEROS, 10, 1),
    (DEGREE_33, 33, damage(RANK, 0, 2), ZEROS, 10, 1),
];

/// This layer's fixed list, by the original alone where a call is not turned down before its rounds.
pub fn list() -> String {
    let heads = [
        CALLS_HEAD,
        CODE_HEAD,
        METRICS_HEAD,
        FLOATS_HEAD,
        LIST_HEAD,
        DIGEST_HEAD,
    ];
    let mut text = heads.concat();
    for (row, made) in asked::RATES.into_iter().zip(OF_RATES) {
        list_line(&mut text, (row, SEED, None, made, 52, 100));
    }
    for &line in LINES {
        list_line(&mut text, line);
    }
    text
}

fn list_line(text: &mut String, (row, seed, damage, made, known, limit): Line) {
    let code = CodeOfLine::new(row, seed, damage);
    let (_, metrics) = sent(&code.built, made, known);
    let decoding = Decoding::new(metrics, known, limit);
    let [rule, draws, spread, peak] = made.arguments();
    let arguments = [rule, draws, spread, peak, known.into(), limit.into()];
    for decoding in [decoding.clone(), decoding.without_posteriors()] {
        write_line(text, &code, Call::Decode(decoding), &arguments);
    }
}
