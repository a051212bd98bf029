//! The fixed list of the calls on words of a lent code.

use crate::asked::{self, Row, SEED};
use crate::code::{A, COEF, COL, EDGES, INFO, M, N, ORDER, PARITY, RANK, ROW, START, VAR};
use crate::code_lists::{
    CODE_HEAD, CodeOfLine, DIGEST_HEAD, HIGH, LONELY, MIDDLE, NO_CHECKS, NO_SPACE, NO_VARIABLES,
    NOTHING, ONE, TABLE, damage, write_line,
};
use crate::damage::Change;
use crate::on_code::Call;
use crate::oracle::{NbCode, mix};

const CALLS_HEAD: &str = "\
# encode CODE DAMAGE COUNT DRAWS LIMIT NUMBER WORD
# info_of CODE DAMAGE COUNT DRAWS LIMIT PLACE CHANGE NUMBER K SYMS
# checks_ok CODE DAMAGE COUNT DRAWS LIMIT PLACE CHANGE NUMBER OK
# degree CODE DAMAGE V NUMBER DEGREE
# k CODE DAMAGE NUMBER K
# n CODE DAMAGE NUMBER SYMBOLS
# info_positions CODE DAMAGE NUMBER K POSITIONS
";

const LIST_HEAD: &str = "\
# COUNT symbols are given to `encode`: the first draws of SplitMix64 from DRAWS, each mod LIMIT, which is 1 to 256.
# The word that info_of and checks_ok read is what `encode` answers to them before the damage, its symbol at PLACE then
# xored with CHANGE; nothing is changed where CHANGE is 0. WORD, SYMS and POSITIONS are parts of N entries.
# NUMBER is the refusal's, by document 01, 0 for none. K, OK, DEGREE and SYMBOLS are 0 where a call is turned down.
# Before a call every entry of every output and work part is 1.
";

/// Symbols to give to `encode`: how many, the seed of their draws, and what these are taken modulo.
#[derive(Clone, Copy)]
pub struct Drawn(pub usize, pub u64, pub u64);

/// A change of a word: a place, and what the symbol there is xored with.
#[derive(Clone, Copy)]
struct Xored(usize, u8);

/// What is asked of the code that `new` builds from a row and a seed, after the damage.
type Line = (Row, u64, Option<Change>, Asks);

#[derive(Clone, Copy)]
enum Asks {
    Encode(Drawn),
    InfoOf(Drawn, Xored),
    ChecksOk(Drawn, Xored),
    Degree(usize),
    K,
    N,
    InfoPositions,
}

use Asks::{ChecksOk, Degree, Encode, InfoOf, InfoPositions};

const SAME: Xored = Xored(0, 0);

const NO_SYMBOLS: Drawn = Drawn(0, 0, 1);

/// The lines beside those of the four rates.
const LINES: &[Line] = &[
    (NOTHING, 0, None, Encode(NO_SYMBOLS)),
    (NOTHING, 0, None, Encode(Drawn(1, 1, 32))),
    (NOTHING, 0, None, InfoOf(NO_SYMBOLS, SAME)),
    (NOTHING, 0, None, ChecksOk(NO_SYMBOLS, SAME)),
    (NOTHING, 0, None, Degree(0)),
    (NOTHING, 0, None, Asks::K),
    (NO_VARIABLES, 1, None, ChecksOk(NO_SYMBOLS, SAME)),
    (NO_VARIABLES, 1, None, Asks::N),
    (NO_VARIABLES, 1, None, InfoPositions),
    // Document 01's value: these draws are 5, 37 and 255, and the word is 5, 5, 31.
    (NO_CHECKS, 2, None, Encode(Drawn(3, 32_481_079, 256))),
    (NO_CHECKS, 2, None, Encode(Drawn(2, 4, 256))),
    (NO_CHECKS, 2, None, Encode(Drawn(4, 5, 32))),
    (NO_CHECKS, 2, None, InfoOf(Drawn(3, 3, 256), SAME)),
    (NO_CHECKS, 2, None, InfoOf(Drawn(3, 3, 256), Xored(2, 32))),
    (NO_CHECKS, 2, None, ChecksOk(Drawn(3, 3, 256), Xored(1, 31))),
    (
        NO_CHECKS,
        2,
        None,
        ChecksOk(Drawn(3, 3, 256), Xored(0, 128)),
    ),
    (NO_CHECKS, 2, None, Degree(2)),
    (NO_CHECKS, 2, None, Degree(3)),
    (NO_CHECKS, 2, None, Degree(usize::MAX)),
    (NO_CHECKS, 2, None, InfoPositions),
    (ONE, 6, None, Encode(NO_SYMBOLS)),
    (ONE, 6, None, Encode(Drawn(1, 6, 32))),
    (ONE, 6, None, ChecksOk(NO_SYMBOLS, Xored(0, 1))),
    // Any other coefficient leaves the elimination as it was.
    (ONE, 6, damage(COEF, 0, 31), ChecksOk(NO_SYMBOLS, SAME)),
    (ONE, 6, damage(COEF, 0, 32), ChecksOk(NO_SYMBOLS, SAME)),
    (HIGH, 13, None, Asks::K),
    (HIGH, 13, None, ChecksOk(NO_SYMBOLS, Xored(3, 7))),
    (HIGH, 13, None, Degree(3)),
    (LONELY, 17, None, Encode(Drawn(6, 17, 256))),
    (LONELY, 17, None, ChecksOk(Drawn(6, 17, 256), Xored(0, 9))),
    (LONELY, 17, None, ChecksOk(Drawn(6, 17, 256), Xored(11, 9))),
    (LONELY, 17, None, Degree(0)),
    (TABLE, 30, None, Encode(Drawn(128, 30, 256))),
    (TABLE, 30, None, Encode(Drawn(129, 30, 256))),
    (TABLE, 30, None, InfoOf(Drawn(100, 31, 256), Xored(255, 1))),
    (TABLE, 30, None, ChecksOk(Drawn(128, 30, 256), SAME)),
    (
        TABLE,
        30,
        None,
        ChecksOk(Drawn(128, 30, 256), Xored(255, 16)),
    ),
    (TABLE, 30, None, InfoPositions),
    (NO_SPACE, 31, None, Encode(NO_SYMBOLS)),
    (NO_SPACE, 31, None, Encode(Drawn(1, 31, 1))),
    (NO_SPACE, 31, None, InfoPositions),
    (MIDDLE, 20, None, Asks::K),
    // Numbers 2 and 3.
    (MIDDLE, 20, damage(N, 0, 257), Asks::N),
    (MIDDLE, 20, damage(M, 0, 257), Encode(Drawn(3, 20, 32))),
    (MIDDLE, 20, damage(N, 0, 19), InfoOf(Drawn(9, 20, 32), SAME)),
    (MIDDLE, 20, damage(N, 0, 21), InfoPositions),
    // Number 6, in the document's order.
    (MIDDLE, 20, damage(EDGES, 0, 513), Asks::K),
    (MIDDLE, 20, damage(EDGES, 0, 51), Asks::N),
    (MIDDLE, 20, damage(ROW, 0, 1), Degree(4)),
    (MIDDLE, 20, damage(ROW, 10, 51), Asks::K),
    (MIDDLE, 20, damage(VAR, 51, 20), InfoPositions),
    (MIDDLE, 20, damage(VAR, 0, 19), Asks::K),
    (
        MIDDLE,
        20,
        damage(COEF, 0, 0),
        ChecksOk(Drawn(9, 20, 32), SAME),
    ),
    (MIDDLE, 20, damage(START, 20, 51), Degree(19)),
    (MIDDLE, 20, damage(COL, 0, 52), Degree(0)),
    (MIDDLE, 20, damage(COL, 51, 0), Asks::K),
    (MIDDLE, 20, damage(ORDER, 0, 18), Encode(Drawn(3, 20, 32))),
    (MIDDLE, 20, damage(VAR, 52, 1), Asks::K),
    (MIDDLE, 20, damage(COEF, 511, 1), Asks::K),
    (MIDDLE, 20, damage(ROW, 11, 52), Asks::K),
    (MIDDLE, 20, damage(START, 256, 1), Asks::K),
    (MIDDLE, 20, damage(COL, 52, 1), Asks::K),
    (MIDDLE, 20, damage(ORDER, 20, 20), Asks::K),
    (MIDDLE, 20, damage(PARITY, 255, 1), Asks::K),
    (MIDDLE, 20, damage(INFO, 10, 1), Asks::K),
    (MIDDLE, 20, damage(A, 100, 1), Asks::K),
    (
        MIDDLE,
        20,
        damage(A, 16_383, 255),
        Encode(Drawn(11, 20, 32)),
    ),
    // Number 7.
    (NOTHING, 0, damage(RANK, 0, 1), Asks::K),
    (MIDDLE, 20, damage(COEF, 51, 30), Asks::K),
    (MIDDLE, 20, damage(PARITY, 9, 0), InfoPositions),
    (
        MIDDLE,
        20,
        damage(INFO, 9, 19),
        InfoOf(Drawn(10, 20, 32), Xored(0, 64)),
    ),
    (MIDDLE, 20, damage(A, 99, 32), Encode(Drawn(11, 20, 32))),
];

/// What is asked of the codes of the four rates, which have 52 information positions.
const OF_RATES: [Asks; 7] = [
    Encode(Drawn(52, SEED, 256)),
    InfoOf(Drawn(52, SEED, 256), SAME),
    ChecksOk(Drawn(52, SEED, 256), SAME),
    ChecksOk(Drawn(52, SEED, 256), Xored(77, 31)),
    Degree(19),
    Asks::N,
    InfoPositions,
];

/// This layer's fixed list, by the original alone where a call is not turned down.
pub fn list() -> String {
    let mut text = [CALLS_HEAD, CODE_HEAD, LIST_HEAD, DIGEST_HEAD].concat();
    for row in asked::RATES {
        for asks in OF_RATES {
            list_line(&mut text, (row, SEED, None, asks));
        }
    }
    for &line in LINES {
        list_line(&mut text, line);
    }
    text
}

fn list_line(text: &mut String, (row, seed, damage, asks): Line) {
    let code = CodeOfLine::new(row, seed, damage);
    write_line(text, &code, call(&code.built, asks), &arguments(asks));
}

/// The call, with parts of the n that the code was built with.
fn call(built: &NbCode, asks: Asks) -> Call {
    let n = built.n;
    match asks {
        Encode(drawn) => Call::Encode {
            syms: symbols(drawn),
            word: n,
        },
        InfoOf(drawn, xored) => Call::InfoOf {
            word: word(built, drawn, xored),
            syms: n,
        },
        ChecksOk(drawn, xored) => Call::ChecksOk {
            word: word(built, drawn, xored),
        },
        Degree(v) => Call::Degree { v },
        Asks::K => Call::K,
        Asks::N => Call::N,
        InfoPositions => Call::InfoPositions { positions: n },
    }
}

pub fn symbols(Drawn(count, mut state, limit): Drawn) -> Vec<u8> {
    (0..count)
        .map(|_| (mix(&mut state) % limit) as u8)
        .collect()
}

fn word(built: &NbCode, drawn: Drawn, Xored(place, change): Xored) -> Vec<u8> {
    let mut word = built.encode(&symbols(drawn));
    if change != 0 {
        word[place] ^= change;
    }
    word
}

/// What a line gives a call beside the code.
fn arguments(asks: Asks) -> Vec<u64> {
    let of_symbols = |Drawn(count, state, limit)| [count as u64, state, limit];
    let of_word = |drawn, Xored(place, change)| {
        let change = [place as u64, change.into()];
        [&of_symbols(drawn)[..], &change].concat()
    };
    match asks {
        Encode(drawn) => of_symbols(drawn).to_vec(),
        InfoOf(drawn, xored) | ChecksOk(drawn, xored) => of_word(drawn, xored),
        Degree(v) => vec![v as u64],
        Asks::K | Asks::N | InfoPositions => vec![],
    }
}
