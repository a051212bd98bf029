//! The bare arithmetic of a round: as many additions, products and quotients as a graph asks for, and
//! nothing else. Nothing is permuted, compared or decided, and all stands in the first cache. It says
//! how near a round is to the least that it can take; its values mean nothing.

use crate::oracle::NbCode;
use std::hint::black_box;

type Vector = [f32; 32];

/// How many edges each check has, and each variable.
pub struct Degrees {
    checks: Vec<usize>,
    variables: Vec<usize>,
}

impl Degrees {
    pub fn of(built: &NbCode) -> Self {
        Self {
            checks: built.row.windows(2).map(|ends| ends[1] - ends[0]).collect(),
            variables: built.col.iter().map(Vec::len).collect(),
        }
    }
}

/// A message that sums and products of it leave far from the subnormals and from infinity.
fn message() -> Vector {
    let mut message = [0.5 / 31.0; 32];
    message[0] = 0.5;
    message
}

#[inline(never)]
pub fn round(degrees: &Degrees) {
    let message = message();
    for &degree in &degrees.checks {
        check(&message, degree);
    }
    for &degree in &degrees.variables {
        variable(&message, degree);
    }
}

fn check(message: &Vector, degree: usize) {
    let mut f = [[0.0; 32]; 32];
    let mut outs = [[0.0; 32]; 32];
    for t in &mut f[..degree] {
        *t = transformed(*black_box(message));
    }
    let mut pre = [1.0; 32];
    for (out, t) in outs.iter_mut().zip(&f[..degree]) {
        *out = pre;
        multiply(&mut pre, t);
    }
    let mut suf = [1.0; 32];
    for (out, t) in outs[..degree].iter_mut().zip(&f[..degree]).rev() {
        multiply(out, &suf);
        multiply(&mut suf, t);
    }
    for out in &outs[..degree] {
        black_box(normalized(transformed(*out)));
    }
}

/// The posterior, and then a message for each edge.
fn variable(message: &Vector, degree: usize) {
    for others in std::iter::once(degree).chain((0..degree).map(|_| degree - 1)) {
        let mut product = *black_box(message);
        for _ in 0..others {
            multiply(&mut product, black_box(message));
        }
        black_box(normalized(product));
    }
}

#[inline]
fn multiply(to: &mut Vector, by: &Vector) {
    for x in 0..32 {
        to[x] *= by[x];
    }
}

/// The sum goes one by one, as the source's does.
#[inline]
fn normalized(mut p: Vector) -> Vector {
    let mut sum = 0.0;
    for x in p {
        sum += x;
    }
    let k = 1.0 / sum;
    for x in &mut p {
        *x *= k;
    }
    p
}

/// As many sums and differences as a transform has, always of the same pairs, so that no step moves
/// an entry.
#[inline]
fn transformed(mut a: Vector) -> Vector {
    for _ in 0..5 {
        for x in 0..16 {
            (a[x], a[x + 16]) = (a[x] + a[x + 16], a[x] - a[x + 16]);
        }
    }
    a
}
