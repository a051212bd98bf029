//! Preferences to peel a code by: a signed number of 64 bits for each variable.

use crate::random::Random;

/// Numbers of a code, such as degrees.
pub fn of_numbers(numbers: &[usize]) -> Vec<i64> {
    numbers.iter().map(|&number| number as i64).collect()
}

/// Where signed numbers begin and end, and where their sign changes.
const ENDS: [i64; 5] = [i64::MIN, -1, 0, 1, i64::MAX];

/// n preferences of each kind, those with the most ties first.
pub fn of_each_kind(random: &mut Random, n: usize) -> Vec<Vec<i64>> {
    let ascending: Vec<i64> = (0..n as i64).collect();
    vec![
        vec![any(random); n],
        of_a_few(random, n),
        of_a_few(random, n),
        (0..n).map(|_| ENDS[random.below(ENDS.len())]).collect(),
        ascending.iter().map(|v| v - 2).collect(),
        ascending.iter().map(|v| 2 - v).collect(),
        (0..n).map(|_| any(random)).collect(),
    ]
}

/// n preferences of a kind at random.
pub fn at_random(random: &mut Random, n: usize) -> Vec<i64> {
    let mut kinds = of_each_kind(random, n);
    kinds.swap_remove(random.below(kinds.len()))
}

/// From one to three numbers.
fn of_a_few(random: &mut Random, n: usize) -> Vec<i64> {
    let count = 1 + random.below(3);
    let few: Vec<i64> = (0..count).map(|_| any(random)).collect();
    (0..n).map(|_| few[random.below(count)]).collect()
}

/// A number near 0, at an end, or of any 64 bits.
fn any(random: &mut Random) -> i64 {
    match random.below(4) {
        0 => random.below(7) as i64 - 3,
        1 => ENDS[random.below(ENDS.len())],
        // The lower 32 bits tell nothing.
        2 => (random.below(7) as i64 - 3) << 32,
        _ => random.next() as i64,
    }
}
