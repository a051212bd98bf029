//! Words of a lent code: the seven calls on one beside the original's methods.

use crate::calls::{bad_symbols, every_call, some_calls};
use crate::code::Code;
use crate::code_speed::{self, times_on};
use crate::codes;
use crate::judge::judged;
use crate::on_code::{Asked, Call, Judged, Tallies};
use crate::oracle::NbCode;
use crate::random::Random;
use crate::speed::print_ratio;
use std::hint::black_box;

/// So many draws of words for each code of the four rates.
const RATE_DRAWS: usize = 20;

/// All comparisons of this layer but the calls that are turned down.
pub fn compare(tallies: &mut Tallies) {
    let mut random = Random::new();
    compare_starred(tallies);
    for on in codes::small() {
        tallies.ask_all(&on, every_call(&mut random, on.built()));
        tallies.ask_all(&on, bad_symbols(&mut random, on.built()));
    }
    for on in codes::ends() {
        tallies.ask_all(&on, every_call(&mut random, on.built()));
    }
    for on in codes::rates() {
        for _ in 0..RATE_DRAWS {
            tallies.ask_all(&on, every_call(&mut random, on.built()));
        }
    }
    for on in codes::built().chain(codes::any()) {
        tallies.ask_all(&on, some_calls(&mut random, on.built()));
    }
}

/// Document 01's value: "n = 3, m = 0: symbols 5, 37, 255 encode to 5, 5, 31".
fn compare_starred(tallies: &mut Tallies) {
    let built = NbCode::new(3, 0, &[0; 3], 0);
    let on = Judged::new("n 3, m 0".to_string(), Code::of_new(&built));
    let syms = vec![5, 37, 255];
    assert_eq!(on.built().encode(&syms), [5, 5, 31], "document 01's value");
    tallies.ask(&Asked::new(&on, Call::Encode { syms, word: 3 }));
}

// The Rust's methods, behind functions that are not inlined, as the archive's calls are not.

#[inline(never)]
fn rust_build_encoder(built: &mut NbCode, order: &[usize]) {
    built.build_encoder(order);
}

#[inline(never)]
fn rust_encode(built: &NbCode, syms: &[u8]) -> Vec<u8> {
    built.encode(syms)
}

#[inline(never)]
fn rust_checks_ok(built: &NbCode, word: &[u8]) -> bool {
    built.checks_ok(word)
}

/// The rounds of a measurement, and how often the Rust's short methods are called in one.
const ROUNDS: usize = 600;
const TURNS: usize = 16;

/// The speed of `encode` and `checks_ok` at each of the four rates, ours beside the Rust's: the
/// whole call, and without the test of the lent code, which the Rust does not make. `k` and `n` are
/// little else than that test, so its time is taken from them; `k` stands beside the Rust's
/// elimination, which is most of the test.
pub fn measure() {
    for on in code_speed::of_rates() {
        measure_code(&on);
    }
}

fn measure_code(on: &Judged) {
    let Code { n, m, .. } = on.code;
    let built = on.built();
    let syms = Random::new().symbols(built.k(), 32);
    let word = built.encode(&syms);
    let calls = [
        Call::K,
        Call::Encode {
            syms: syms.clone(),
            word: n,
        },
        Call::ChecksOk { word: word.clone() },
    ];
    let mut again = judged(&on.code).expect("the code is not refused");
    let order: Vec<usize> = (0..n).rev().collect();
    let (test, [k, encode, checks_ok], [build, rust_encode, rust_checks_ok]) = times_on(
        on,
        ROUNDS,
        calls,
        [
            &mut || rust_build_encoder(black_box(&mut again), black_box(&order)),
            &mut || {
                for _ in 0..TURNS {
                    black_box(rust_encode(black_box(built), black_box(&syms)));
                }
            },
            &mut || {
                for _ in 0..TURNS {
                    black_box(rust_checks_ok(black_box(built), black_box(&word)));
                }
            },
        ],
    );

    let sizes = format!("{n} variables and {m} checks");
    print_ratio(&format!("k beside build_encoder, {sizes}"), k, build);
    let timed = [
        ("encode", encode, rust_encode),
        ("checks_ok", checks_ok, rust_checks_ok),
    ];
    for (name, ours, rust) in timed {
        test.print_ratios(name, &sizes, ours, rust / TURNS as f64);
    }
    test.print_unsure();
}
