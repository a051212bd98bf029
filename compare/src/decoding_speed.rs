//! The speed of decoding, ours beside the Rust's and beside the bare arithmetic.

use crate::arithmetic::{self, Degrees};
use crate::code::Code;
use crate::code_speed::{self, times_on};
use crate::decode_call::Decoding;
use crate::decoding::FRAME;
use crate::filling::BEFORE;
use crate::float::plain;
use crate::lent_code::{LentCode, LentOwn};
use crate::metrics::{self, Kind};
use crate::on_code::{Call, Judged, WORK};
use crate::oracle::{NbCode, OwnCode};
use crate::random::Random;
use crate::speed::print_ratio;
use std::hint::black_box;

// The Rust's methods, behind functions that are not inlined, as the archive's calls are not.

#[inline(never)]
fn rust_decode_soft(built: &NbCode, metrics: &[f32], limit: u32) -> Result<Vec<u8>, Vec<f32>> {
    built.decode_soft(metrics, built.k(), limit as usize)
}

#[inline(never)]
fn rust_with_own_exp(built: &OwnCode, metrics: &[f32], limit: u32) -> Result<Vec<u8>, Vec<f32>> {
    built.decode_soft(metrics, built.k(), limit as usize)
}

const TIMES: usize = 200;

/// One round and a frame's hundred at each of the four rates: the whole call, and without the test of
/// the lent code, as for words. The Rust has document 01's exp here, and once its own. A further round,
/// which is what the hundred take more than the one, has no channel vectors to make, and stands beside
/// its bare arithmetic.
pub fn measure() {
    for on in code_speed::of_rates() {
        measure_code(&on);
    }
}

fn measure_code(on: &Judged) {
    let Code { n, m, .. } = on.code;
    let (built, own_exp) = (on.built(), OwnCode::from(on.built()));
    let sizes = format!("{n} variables and {m} checks");
    // Noise alone, so that no round satisfies all checks.
    let metrics = metrics::of(&mut Random::new(), &vec![0; n], &[Kind::Noise(2.0)]);
    let floats = plain(&metrics.floats);
    let [one, frame] =
        [1, FRAME].map(|limit| Decoding::new(metrics.clone(), built.k() as u32, limit));
    for decoding in [&one, &frame] {
        print_rounds(on, decoding, &sizes);
    }
    let degrees = Degrees::of(built);
    let (test, [one, frame], [rust_one, rust_frame, rust_own_exp, bare]) = times_on(
        on,
        TIMES,
        [Call::Decode(one), Call::Decode(frame)],
        [
            &mut || {
                black_box(rust_decode_soft(black_box(built), black_box(&floats), 1)).ok();
            },
            &mut || {
                black_box(rust_decode_soft(
                    black_box(built),
                    black_box(&floats),
                    FRAME,
                ))
                .ok();
            },
            &mut || {
                black_box(rust_with_own_exp(
                    black_box(&own_exp),
                    black_box(&floats),
                    1,
                ))
                .ok();
            },
            &mut || arithmetic::round(black_box(&degrees)),
        ],
    );
    test.print_ratios("decode_soft, 1 round", &sizes, one, rust_one);
    let name = format!("decode_soft, 1 round, beside the Rust's own exp, {sizes}");
    print_ratio(&name, one, rust_own_exp);
    test.print_ratios("decode_soft, 100 rounds", &sizes, frame, rust_frame);
    let further = |one: f64, frame: f64| (frame - one) / f64::from(FRAME - 1);
    let [ours, rust] = [further(one, frame), further(rust_one, rust_frame)];
    print_ratio(&format!("a further round, {sizes}"), ours, rust);
    println!(
        "  its bare arithmetic takes {bare:.0} ns: ours is {:.2} of that, the Rust {:.2}",
        ours / bare,
        rust / bare
    );
    test.print_unsure();
}

/// Prints how many rounds each side makes, since times of different work are not to be compared.
fn print_rounds(on: &Judged, decoding: &Decoding, sizes: &str) {
    let call = Call::Decode(decoding.clone());
    let mut code = LentCode::new(&on.code, WORK, &BEFORE[0]);
    let mut own = LentOwn::new(&call, &BEFORE[0]);
    own.call(&call, &mut code);
    let (ours, rust) = (own.rounds(), decoding.decoded(on.built()).rounds);
    assert_eq!(rust, decoding.limit, "the Rust makes all rounds");
    println!(
        "rounds made with a limit of {}, {sizes}: ours {ours}, Rust {rust}{}",
        decoding.limit,
        if ours == rust {
            ""
        } else {
            "; THE TIMES ARE OF DIFFERENT WORK"
        }
    );
}
