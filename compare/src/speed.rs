//! Times ours and the Rust on the same work, in one run.

use crate::random::Random;
use std::time::Instant;

/// The best of so many rounds counts, since everything else that runs only adds time.
const ROUNDS: usize = 20;

/// Times both sides in turn and prints the ratio of their best times. `count` is how many answers
/// one round gives.
pub fn time_both(name: &str, count: usize, mut ours: impl FnMut(), mut rust: impl FnMut()) {
    let best = best_of(ROUNDS, &mut || {}, &mut [&mut ours, &mut rust]);
    print_ratio(name, best[0] / count as f64, best[1] / count as f64);
}

/// The best time of each piece of work in nanoseconds. All are done in each round, so that a slow
/// spell of the machine meets all of them, and in another order each time, so that what one leaves
/// to the next, in caches and predictions, meets all of them too. What is done before each piece of
/// work is not timed.
pub fn best_of(
    rounds: usize,
    prepare: &mut dyn FnMut(),
    works: &mut [&mut dyn FnMut()],
) -> Vec<f64> {
    let mut random = Random::new();
    let mut turns: Vec<usize> = (0..works.len()).collect();
    let mut best = vec![f64::INFINITY; works.len()];
    for _ in 0..rounds {
        random.shuffle(&mut turns);
        for &i in &turns {
            prepare();
            best[i] = best[i].min(nanoseconds(works[i]));
        }
    }
    best
}

/// Prints the times of one answer, in nanoseconds, and their ratio.
pub fn print_ratio(name: &str, ours: f64, rust: f64) {
    println!(
        "{name}: {:.2} of the Rust's time (ns each: ours {ours:.2}, Rust {rust:.2})",
        ours / rust,
    );
}

/// The time of the test of a lent code, which calls on one make and the Rust does not.
pub struct Test {
    time: f64,
    unsure: f64,
    times: usize,
}

impl Test {
    /// From the best times of calls that are little else than the test.
    pub fn new(times: &[f64]) -> Self {
        let [least, most] = [f64::min, f64::max].map(|f| times.iter().copied().reduce(f).unwrap());
        Self {
            time: times.iter().sum::<f64>() / times.len() as f64,
            unsure: most - least,
            times: times.len(),
        }
    }

    /// Prints a call beside the Rust's: the whole call, and without the test.
    pub fn print_ratios(&self, name: &str, sizes: &str, ours: f64, rust: f64) {
        print_ratio(&format!("{name}, {sizes}"), ours, rust);
        let name = format!("{name} without the test, {sizes}");
        print_ratio(&name, ours - self.time, rust);
    }

    pub fn print_unsure(&self) {
        println!(
            "  the test, timed {} times, is unsure by {:.0} ns",
            self.times, self.unsure
        );
    }
}

fn nanoseconds(work: &mut dyn FnMut()) -> f64 {
    let start = Instant::now();
    work();
    start.elapsed().as_secs_f64() * 1e9
}
