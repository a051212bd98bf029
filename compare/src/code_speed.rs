//! Times calls of ours on a lent code, and the Rust's work beside them, in one run.

use crate::codes;
use crate::filling::BEFORE;
use crate::lent_code::{LentCode, LentOwn};
use crate::on_code::{Call, Judged, WORK};
use crate::speed::{Test, best_of};
use std::array::from_fn;
use std::cell::RefCell;
use std::hint::black_box;

/// The codes of the four rates that are timed: those of the first information set.
pub fn of_rates() -> impl Iterator<Item = Judged> {
    codes::rates().into_iter().step_by(2)
}

/// The best times of the calls and of the Rust's work, with that of the test of the code, which the
/// Rust does not make. `k` and `n` are little else than that test, so it is taken from them, each
/// timed twice.
pub fn times_on<const N: usize, const M: usize>(
    on: &Judged,
    rounds: usize,
    calls: [Call; N],
    rust: [&mut dyn FnMut(); M],
) -> (Test, [f64; N], [f64; M]) {
    times_after(on, rounds, &mut |_| {}, calls, rust)
}

/// The same, with something to be done to the lent code before each piece of work that is not timed.
pub fn times_after<const N: usize, const M: usize>(
    on: &Judged,
    rounds: usize,
    prepare: &mut dyn FnMut(&mut LentCode),
    calls: [Call; N],
    rust: [&mut dyn FnMut(); M],
) -> (Test, [f64; N], [f64; M]) {
    let code = RefCell::new(LentCode::new(&on.code, WORK, &BEFORE[0]));
    let mut tests = timed([Call::K, Call::N, Call::K, Call::N], &code);
    let mut ours = timed(calls, &code);
    let mut others = rust.map(|work| move || work());
    let mut works: Vec<&mut dyn FnMut()> = Vec::new();
    works.extend(tests.iter_mut().map(|work| work as &mut dyn FnMut()));
    works.extend(ours.iter_mut().map(|work| work as &mut dyn FnMut()));
    works.extend(others.iter_mut().map(|work| work as &mut dyn FnMut()));
    let best = best_of(rounds, &mut || prepare(&mut code.borrow_mut()), &mut works);
    (
        Test::new(&best[..4]),
        from_fn(|i| best[4 + i]),
        from_fn(|i| best[4 + N + i]),
    )
}

/// Calls on one lent code to be timed. All go over the same memory, since differences of their
/// times are taken.
fn timed<const N: usize>(calls: [Call; N], code: &RefCell<LentCode>) -> [impl FnMut() + '_; N] {
    calls.map(|call| {
        let mut own = LentOwn::new(&call, &BEFORE[0]);
        move || {
            black_box(own.call(black_box(&call), &mut code.borrow_mut()));
        }
    })
}
