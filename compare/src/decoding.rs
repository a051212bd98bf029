//! Decoding of a lent code: `hazgunek_decode_soft` and `hazgunek_decode` beside the original's
//! `decode_soft` and `decode`.

use crate::calls::encoding;
use crate::code::Code;
use crate::codes::{self, Checks, accepted, laid_out};
use crate::decode_call::Decoding;
use crate::float::{lent, plain};
use crate::metrics::{self, KINDS, Kind, LEVELS};
use crate::on_code::{Asked, Call, Judged, Tallies};
use crate::oracle::NbCode;
use crate::own_exp::OwnExp;
use crate::random::Random;
use std::iter;

/// So many decodings of each code: of the small ones, of those of a middle size, of those at the ends
/// of what is allowed.
const OF_SMALL: usize = 8;
const OF_MIDDLE: usize = 3;
const OF_ENDS: usize = 6;

/// So many codes of a middle size, and one of so many of any size and of those that `new` builds.
const MIDDLE: usize = 1_500;
const SAMPLE: usize = 4;

/// All comparisons of this layer but the calls that are turned down.
pub fn compare(tallies: &mut Tallies) {
    let mut random = Random::new();
    compare_sibling(&mut random);
    compare_starred(tallies);
    compare_degrees(tallies, &mut random);
    let small = codes::small().map(|on| (on, OF_SMALL));
    let middle = codes::middle().take(MIDDLE).map(|on| (on, OF_MIDDLE));
    let ends = codes::ends().into_iter().map(|on| (on, OF_ENDS));
    let sample = codes::built().chain(codes::any()).step_by(SAMPLE);
    let mut own_exp = OwnExp::new("random codes and metrics of every kind");
    for (on, times) in small
        .chain(middle)
        .chain(ends)
        .chain(sample.map(|on| (on, 1)))
    {
        for _ in 0..times {
            let decoding = at_random(&mut random, on.built());
            compare_decoding(tallies, &mut own_exp, &on, decoding);
        }
    }
    own_exp.finish();
    compare_rates(tallies, &mut random);
}

/// The rounds of a frame.
pub const FRAME: u32 = 100;

/// So many words in each level of noise, and so many metrics at random, for each code of the four
/// rates. Rounds that lead nowhere take long, so no more than so many are made of other decodings.
const OF_LEVEL: usize = 3;
const OF_RATE: usize = 30;
pub const FEW_ROUNDS: u32 = 10;

/// The codes of the four rates with both information sets: words in noise from almost none to little
/// else, also with known counts at every end, metrics of each kind, and metrics at random.
fn compare_rates(tallies: &mut Tallies, random: &mut Random) {
    let mut in_noise = OwnExp::new("the four rates, words in noise");
    let mut others = OwnExp::new("the four rates, metrics of every kind");
    for on in codes::rates() {
        let k = on.built().k() as u32;
        for level in LEVELS {
            let frames = [(k, FRAME); OF_LEVEL];
            let counts = known_counts(k).map(|known| (known, FEW_ROUNDS));
            for (known, limit) in frames.into_iter().chain(counts) {
                let decoding = in_noise_of(random, on.built(), level, known, limit);
                compare_decoding(tallies, &mut in_noise, &on, decoding);
            }
        }
        for kind in KINDS {
            let word = encoding(random, on.built());
            let metrics = metrics::of(random, &word, &[kind]);
            let decoding = Decoding::new(metrics, k, FEW_ROUNDS);
            compare_decoding(tallies, &mut others, &on, decoding);
        }
        for _ in 0..OF_RATE {
            let decoding = at_random(random, on.built());
            compare_decoding(tallies, &mut others, &on, decoding);
        }
    }
    compare_late(tallies, random, &mut in_noise);
    in_noise.finish();
    others.finish();
}

/// So many words that are found after so many rounds, in the noise where they are found at times.
const LATE_WORDS: usize = 3;
const LATE: u32 = 64;
const LATE_LEVEL: f32 = 2.6;

/// Late words of the last rate, where the original is quickest to look for them.
fn compare_late(tallies: &mut Tallies, random: &mut Random, own_exp: &mut OwnExp) {
    for on in codes::rates().iter().rev().take(2) {
        let built = on.built();
        let sent = || in_noise_of(random, built, LATE_LEVEL, built.k() as u32, FRAME);
        let is_late = |decoding: &Decoding| {
            let decoded = decoding.decoded(built);
            decoded.number == 0 && decoded.rounds > LATE
        };
        let late = iter::repeat_with(sent).filter(is_late).take(LATE_WORDS);
        for decoding in late {
            compare_decoding(tallies, own_exp, on, decoding);
        }
    }
}

/// A word at random that is 0 past the known count, in noise.
pub fn in_noise_of(
    random: &mut Random,
    built: &NbCode,
    level: f32,
    known: u32,
    limit: u32,
) -> Decoding {
    let count = built.k().min(known as usize);
    let word = built.encode(&random.symbols(count, 32));
    let metrics = metrics::of(random, &word, &[Kind::Sent(level)]);
    Decoding::new(metrics, known, limit)
}

/// None, one, all but one, all, and more than there are.
fn known_counts(k: u32) -> [u32; 6] {
    [0, 1, k.saturating_sub(1), k, k + 1, u32::MAX]
}

/// Metrics of every kind of what is mostly a word, a known count and a limit.
fn at_random(random: &mut Random, built: &NbCode) -> Decoding {
    let k = built.k();
    let counts = known_counts(k as u32);
    let known = match random.below(16) {
        0 => random.next() as u32,
        1..=4 => random.below(k + 2) as u32,
        5..=9 => k as u32,
        _ => counts[random.below(counts.len())],
    };
    let word = match random.below(8) {
        0 => random.symbols(built.n, 32),
        // Symbols past the known count may be other than 0.
        1 => encoding(random, built),
        _ => built.encode(&random.symbols(k.min(known as usize), 32)),
    };
    let limit = match random.below(16) {
        0 => 0,
        1..=3 => 1,
        4..=8 => 2 + random.below(5),
        9..=14 => random.below(30),
        _ => random.below(101),
    };
    Decoding::new(metrics::at_random(random, &word), known, limit as u32)
}

/// Both calls, and with other limits too where a word is found after more than a round.
fn compare_decoding(tallies: &mut Tallies, own_exp: &mut OwnExp, on: &Judged, decoding: Decoding) {
    let built = on.built();
    let are_same = ask_both(tallies, on, &decoding);
    if decoding.is_above_degree(built) {
        return;
    }
    let decoded = decoding.decoded(built);
    own_exp.count(built, &decoding, &decoded);
    if decoded.number != 0 || decoded.rounds == 1 {
        return;
    }
    for limit in [decoded.rounds - 1, decoded.rounds] {
        ask_both(tallies, on, &decoding.with_limit(limit));
    }
    // Ours must have stopped at that round too, or it might not end.
    if are_same {
        ask_both(tallies, on, &decoding.with_limit(u32::MAX));
    }
}

/// Both calls. Tells whether neither differs.
fn ask_both(tallies: &mut Tallies, on: &Judged, decoding: &Decoding) -> bool {
    let calls = [decoding.clone(), decoding.without_posteriors()].map(Call::Decode);
    // Both are asked in any case.
    let are_same = calls.map(|call| tallies.ask(&Asked::new(on, call)));
    are_same == [true; 2]
}

/// So many decodings show that the sibling of `decode_soft` is one.
const SIBLINGS: usize = 300;

/// What build.rs made of `decode_soft` gives what that and `decode` give.
fn compare_sibling(random: &mut Random) {
    for on in codes::middle().take(SIBLINGS) {
        let built = on.built();
        let decoding = at_random(random, built);
        if decoding.is_above_degree(built) {
            continue;
        }
        let decoded = decoding.decoded(built);
        let metrics = plain(&decoding.metrics.floats);
        let [known, limit] = [decoding.known, decoding.limit].map(|count| count as usize);
        match built.decode_soft(&metrics, known, limit) {
            Ok(word) => assert!(decoded.word == Some(word), "the sibling's word"),
            Err(posteriors) => assert!(
                decoded.word.is_none() && decoded.posteriors == lent(posteriors),
                "the sibling's posteriors"
            ),
        }
        let word = built.decode(&metrics, known, limit);
        assert!(decoded.word == word, "the word of `decode`");
    }
}

/// Document 01's values: "n = 1, m = 1, degree 1, metrics all 0.0, one round: word 0", "Zero rounds,
/// same code: 10".
fn compare_starred(tallies: &mut Tallies) {
    let built = NbCode::new(1, 1, &[1], 0);
    let on = accepted("n 1, m 1, degree 1".to_string(), Code::of_new(&built));
    let metrics = metrics::of(&mut Random::new(), &[0], &[Kind::Same(0.0)]);
    for (known, number, rounds) in [(0, 0, 1), (1, 0, 1), (0, 10, 0)] {
        let decoding = Decoding::new(metrics.clone(), known, rounds);
        let decoded = decoding.decoded(on.built());
        assert_eq!(decoded.number, number, "document 01's value");
        assert_eq!(decoded.rounds, rounds, "document 01's value");
        let word = (number == 0).then_some(vec![0]);
        assert_eq!(decoded.word, word, "document 01's value");
        ask_both(tallies, &on, &decoding);
    }
}

/// "check degree 32, 33": one such check among others, at each place, with and without rounds.
fn compare_degrees(tallies: &mut Tallies, random: &mut Random) {
    for (m, place) in [(1, 0), (2, 0), (2, 1), (3, 1)] {
        for degree in [31, 32, 33, 34] {
            let mut checks: Checks = vec![vec![(35, 1), (0, 31)]; m];
            let coefs = random.symbols(degree, 31);
            checks[place] = (0..).zip(coefs).map(|(v, coef)| (v, coef + 1)).collect();
            let name = format!("check {place} of {m} has degree {degree}");
            let on = accepted(name, laid_out(random, 36, &checks));
            let are_same =
                [0, 1, 2].map(|limit| compare_degree(tallies, random, &on, limit, degree));
            // Ours finds the word in the first round too, or it might not end.
            if are_same == [true; 3] {
                compare_degree(tallies, random, &on, u32::MAX, degree);
            }
        }
    }
}

/// A word without noise, which the first round finds. Tells whether neither call differs.
fn compare_degree(
    tallies: &mut Tallies,
    random: &mut Random,
    on: &Judged,
    limit: u32,
    degree: usize,
) -> bool {
    let word = encoding(random, on.built());
    let metrics = metrics::of(random, &word, &[Kind::Certain(50.0)]);
    let decoding = Decoding::new(metrics, u32::MAX, limit);
    let number = match (limit, degree) {
        (0, _) => 10,
        (_, ..=32) => 0,
        _ => 9,
    };
    let asked = Asked::new(on, Call::Decode(decoding.clone()));
    assert_eq!(asked.answer().number, number, "{asked}");
    ask_both(tallies, on, &decoding)
}
