//! Peeling of a lent code: `hazgunek_peel_picks` and `hazgunek_with_peeled_info` beside the
//! original's `peel_picks` and `with_peeled_info`.

use crate::calls::encoding;
use crate::code::Code;
use crate::code_speed::{self, times_after};
use crate::codes::{self, accepted};
use crate::on_code::{Call, Judged, Tallies};
use crate::oracle::{NbCode, RATES, degrees_for};
use crate::preferences::{at_random, of_each_kind, of_numbers};
use crate::random::Random;
use std::cell::RefCell;
use std::hint::black_box;

/// So many draws of preferences of each kind for each code of the four rates.
const RATE_DRAWS: usize = 8;

/// All comparisons of this layer but the calls that are turned down.
pub fn compare(tallies: &mut Tallies) {
    let mut random = Random::new();
    for on in codes::small().chain(codes::ends()) {
        compare_each_kind(tallies, &mut random, &on);
    }
    compare_rates(tallies, &mut random);
    for on in codes::built().chain(codes::any()) {
        let by_degrees = peeled(tallies, &on, degrees_of(on.built()));
        compare_same_words(tallies, &mut random, &on, &by_degrees);
        for on in [&on, &by_degrees] {
            let prefer = at_random(&mut random, on.code.n);
            peeled(tallies, on, prefer);
        }
    }
}

/// The codes of the four rates with both information sets, by their degrees, as the original's
/// frames prefer them, and by others.
fn compare_rates(tallies: &mut Tallies, random: &mut Random) {
    for (rate, pair) in RATES.into_iter().zip(codes::rates().chunks(2)) {
        let [echelon, original] = pair else {
            panic!("each rate has two codes");
        };
        for on in pair {
            let by_degrees = peeled(tallies, on, of_numbers(&degrees_for(rate)));
            assert!(
                by_degrees.code == original.code,
                "the original's peeled code"
            );
            compare_same_words(tallies, random, echelon, &by_degrees);
            compare_same_words(tallies, random, &by_degrees, echelon);
            for _ in 0..RATE_DRAWS {
                compare_each_kind(tallies, random, on);
            }
        }
    }
}

/// A code peeled by its degrees and by preferences of each kind; what comes of it peeled again by
/// the same preferences and by others.
fn compare_each_kind(tallies: &mut Tallies, random: &mut Random, on: &Judged) {
    let mut kinds = of_each_kind(random, on.code.n);
    kinds.push(degrees_of(on.built()));
    for prefer in kinds {
        let once = peeled(tallies, on, prefer.clone());
        compare_same_words(tallies, random, on, &once);
        let again = peeled(tallies, &once, prefer);
        assert!(again.code == once.code, "peeling goes by the graph alone");
        let others = at_random(random, on.code.n);
        peeled(tallies, &once, others);
    }
}

fn degrees_of(built: &NbCode) -> Vec<i64> {
    let degrees: Vec<usize> = (0..built.n).map(|v| built.degree(v)).collect();
    of_numbers(&degrees)
}

/// Both calls on a code. Gives the peeled one, which is not refused.
fn peeled(tallies: &mut Tallies, on: &Judged, prefer: Vec<i64>) -> Judged {
    let name = format!("{}, peeled by {prefer:?}", on.name);
    let peeled = accepted(name, Code::peeled(on.built(), &prefer));
    let picks = Call::PeelPicks {
        prefer: prefer.clone(),
        picks: on.code.n,
    };
    tallies.ask_all(on, vec![picks, Call::WithPeeledInfo { prefer }]);
    peeled
}

/// A word of a code is one of the other: its information symbols there encode to it. All calls on
/// words of the other.
fn compare_same_words(tallies: &mut Tallies, random: &mut Random, on: &Judged, other: &Judged) {
    let word = encoding(random, on.built());
    let syms = other.built().info_of(&word);
    assert_eq!(other.built().encode(&syms), word, "the same words");
    assert!(other.built().checks_ok(&word), "the same words");
    let n = on.code.n;
    let calls = vec![
        Call::ChecksOk { word: word.clone() },
        Call::InfoOf { word, syms: n },
        Call::Encode { syms, word: n },
        Call::Degree {
            v: random.below(n + 1),
        },
        Call::K,
        Call::N,
        Call::InfoPositions { positions: n },
    ];
    tallies.ask_all(other, calls);
}

// The Rust's methods, behind functions that are not inlined, as the archive's calls are not.

#[inline(never)]
fn rust_peel_picks(built: &NbCode, prefer: &[i64]) -> Vec<usize> {
    built.peel_picks(|v| prefer[v])
}

#[inline(never)]
fn rust_with_peeled_info(built: NbCode, prefer: &[i64]) -> NbCode {
    built.with_peeled_info(|v| prefer[v])
}

const ROUNDS: usize = 300;

/// The speed of both calls at each of the four rates by the degrees, ours beside the Rust's: the
/// whole call, and without the test of the lent code, as for words.
pub fn measure() {
    for (rate, on) in RATES.into_iter().zip(code_speed::of_rates()) {
        measure_code(&on, &of_numbers(&degrees_for(rate)));
    }
}

fn measure_code(on: &Judged, prefer: &[i64]) {
    let Code { n, m, .. } = on.code;
    let calls = [
        Call::PeelPicks {
            prefer: prefer.to_vec(),
            picks: n,
        },
        Call::WithPeeledInfo {
            prefer: prefer.to_vec(),
        },
    ];
    let built = on.built();
    // The Rust's method takes its code. What it gives stands here until the next is copied, so that
    // neither copying nor dropping is timed.
    let taken = RefCell::new(None);
    let (test, [peel_picks, with_peeled_info], [rust_picks, rust_info]) = times_after(
        on,
        ROUNDS,
        &mut |code| {
            code.put(&on.code);
            taken.replace(Some(built.clone()));
        },
        calls,
        [
            &mut || {
                black_box(rust_peel_picks(black_box(built), black_box(prefer)));
            },
            &mut || {
                let code = taken.take().expect("a copy was made");
                let peeled = rust_with_peeled_info(black_box(code), black_box(prefer));
                taken.replace(Some(peeled));
            },
        ],
    );
    let sizes = format!("{n} variables and {m} checks");
    test.print_ratios("peel_picks", &sizes, peel_picks, rust_picks);
    test.print_ratios("with_peeled_info", &sizes, with_peeled_info, rust_info);
    test.print_unsure();
}
