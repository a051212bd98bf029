//! The speed of list decoding, ours beside the Rust's.

use crate::code::Code;
use crate::code_speed::{self, times_on};
use crate::decode_call::Decoding;
use crate::decoding::FRAME;
use crate::list_decode_call::{ListDecoding, WIDEST};
use crate::metrics::{self, Kind};
use crate::on_code::{Call, Judged};
use crate::oracle::NbCode;
use crate::posteriors;
use crate::random::Random;
use std::hint::black_box;

/// The Rust's method, behind a function that is not inlined, as the archive's calls are not.
#[inline(never)]
fn rust_list_decode(built: &NbCode, metrics: &[f32], posteriors: &[f32], width: usize) -> Vec<u8> {
    built.list_decode(metrics, posteriors, width)
}

/// The width of a frame's list.
const OF_FRAME: usize = 10;

const TIMES: usize = 30;

/// The width of a frame and the widest at each of the four rates, around what a frame's rounds leave
/// of noise: the whole call, and without the test of the lent code, as for words.
pub fn measure() {
    for on in code_speed::of_rates() {
        measure_code(&on);
    }
}

fn measure_code(on: &Judged) {
    let Code { n, m, .. } = on.code;
    let built = on.built();
    // Noise alone, so that no round satisfies all checks.
    let metrics = metrics::of(&mut Random::new(), &vec![0; n], &[Kind::Noise(2.0)]);
    let decoding = Decoding::new(metrics.clone(), built.k() as u32, FRAME);
    let frame = ListDecoding::new(metrics, posteriors::after(&decoding, built), OF_FRAME);
    let widest = frame.with_width(WIDEST);
    let [metrics, posteriors] = frame.plain();
    let rust = |width| {
        let (built, metrics) = (black_box(built), black_box(&metrics));
        black_box(rust_list_decode(
            built,
            metrics,
            black_box(&posteriors),
            width,
        ));
    };
    let calls = [Call::ListDecode(frame), Call::ListDecode(widest)];
    let (test, [frame, widest], [rust_frame, rust_widest]) = times_on(
        on,
        TIMES,
        calls,
        [&mut || rust(OF_FRAME), &mut || rust(WIDEST)],
    );
    let sizes = format!("{n} variables and {m} checks");
    let name = |width| format!("list_decode, width {width}");
    test.print_ratios(&name(OF_FRAME), &sizes, frame, rust_frame);
    test.print_ratios(&name(WIDEST), &sizes, widest, rust_widest);
    test.print_unsure();
}
