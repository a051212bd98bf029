//! The lines of the fixed list of frames whose calls decode.

use crate::float::{Float, plain};
use crate::frame::{
    BITS, DEFAULT_FALLBACK, DEFAULT_LAYOUT, DEFAULT_RATE, Pair, fallback_of, layout_of, rate_of,
};
use crate::frames_list::numbers;
use crate::line_floats::{Made, ZEROS};
use crate::list::digest;
use crate::oracle::{
    decode_bits, decode_bits_prior, decode_bits_prior_at, decode_bits_prior_fb,
    decode_bits_prior_with, decode_bits_told, encode_bits_at, mix, n_for,
};
use std::fmt::Write;

use Made::{Plain, Sevenths, Special};

/// A prior: how many entries, from which on they are made, and how.
#[derive(Clone, Copy)]
struct Prior(usize, usize, Made);

const NONE: Prior = Prior(0, 0, ZEROS);

/// The call, with its own arguments.
#[derive(Clone, Copy)]
enum Asks {
    At(usize, usize, Prior, usize),
    Fb(usize, Prior, usize),
    With(usize, Prior),
    Default(Prior),
    Blind,
}

use Asks::{At, Blind, Default, Fb, With};

/// The rate and the layout in which a notice was sent, how its metrics are made, and the call.
type Line = (usize, usize, Made, Asks);

/// Entries for 0 where a notice's bit is 0, and for 1 where it is 1, by about as much.
const fn prior(count: usize, strength: u64) -> Prior {
    Prior(count, 0, Sevenths(7, 9, strength))
}

/// Entries that are 0.0 up to the last.
const fn last(count: usize) -> Prior {
    Prior(count, count - 1, Plain(7, 1, 80))
}

const LINES: &[Line] = &[
    // At each rate: a word by rounds, without and with a prior, and by the list; 10; and 11, where what was
    // sent in another layout is so strong that it is found, by rounds and by the list.
    (0, 2, Plain(101, 64, 28), At(0, 2, NONE, 0)),
    (0, 7, Sevenths(201, 64, 24), At(0, 7, prior(256, 16), 1)),
    (0, 5, Sevenths(202, 64, 12), At(0, 5, prior(240, 16), 1)),
    (0, 1, Plain(103, 64, 16), At(0, 1, NONE, 1)),
    (0, 2, Plain(301, 64, 8_000), At(0, 4, NONE, 0)),
    (0, 6, Plain(401, 8_192, 4_000), At(0, 3, prior(40, 16), 1)),
    (1, 3, Plain(101, 64, 32), At(1, 3, NONE, 1)),
    (1, 4, Sevenths(202, 64, 24), At(1, 4, prior(257, 16), 0)),
    (1, 2, Sevenths(201, 64, 12), At(1, 2, prior(200, 16), 1)),
    (1, 6, Plain(103, 64, 16), At(1, 6, prior(96, 16), 0)),
    (1, 1, Plain(302, 64, 8_000), At(1, 2, NONE, 1)),
    (1, 5, Plain(401, 8_192, 4_000), At(1, 3, prior(40, 16), 1)),
    (2, 0, Plain(101, 64, 40), At(2, 0, NONE, 0)),
    (2, 6, Sevenths(201, 64, 28), At(2, 6, prior(255, 32), 1)),
    (2, 3, Sevenths(202, 64, 16), At(2, 3, prior(96, 80), 1)),
    (2, 4, Plain(103, 64, 16), At(2, 4, NONE, 1)),
    (2, 7, Plain(303, 64, 8_000), At(2, 0, prior(40, 16), 0)),
    (2, 2, Plain(401, 8_192, 4_000), At(2, 5, prior(40, 16), 1)),
    (3, 6, Plain(102, 64, 44), At(3, 6, NONE, 1)),
    (3, 1, Sevenths(201, 64, 36), At(3, 1, prior(240, 16), 0)),
    (3, 2, Sevenths(202, 64, 24), At(3, 2, prior(256, 32), 1)),
    (3, 7, Plain(103, 64, 16), At(3, 7, prior(256, 8), 0)),
    (3, 4, Plain(304, 64, 8_000), At(3, 1, NONE, 0)),
    (3, 0, Plain(401, 8_192, 4_000), At(3, 2, prior(40, 16), 1)),
    // The list is asked where an entry is not 0.0, which may be the 257th alone, or be NaN.
    (3, 3, Plain(205, 64, 20), At(3, 3, last(257), 1)),
    (3, 3, Plain(205, 64, 20), At(3, 3, last(257), 0)),
    (3, 3, Plain(205, 64, 20), At(3, 3, last(256), 1)),
    (3, 3, Plain(205, 64, 20), At(3, 3, last(1), 1)),
    (
        3,
        3,
        Plain(205, 64, 20),
        At(3, 3, Prior(257, 256, ZEROS), 1),
    ),
    (3, 3, Plain(205, 64, 20), At(3, 3, Prior(256, 0, ZEROS), 1)),
    (
        3,
        3,
        Plain(205, 64, 20),
        At(3, 3, Prior(257, 257, Plain(7, 1, 80)), 1),
    ),
    (
        3,
        3,
        Plain(205, 64, 20),
        At(3, 3, Prior(257, 256, Special(7, 1, 0)), 1),
    ),
    // NaN, infinities and the like in the prior, in the metrics, and in both.
    (
        3,
        5,
        Plain(206, 64, 48),
        At(3, 5, Prior(256, 0, Special(8, 7, 0)), 1),
    ),
    (
        1,
        0,
        Plain(207, 64, 40),
        At(1, 0, Prior(100, 60, Special(9, 16, 8)), 0),
    ),
    (3, 6, Special(208, 2_048, 1_600), At(3, 6, NONE, 1)),
    (
        2,
        1,
        Special(209, 512, 400),
        At(2, 1, Prior(256, 0, Special(10, 64, 16)), 1),
    ),
    (3, 4, Special(210, 7, 0), At(3, 4, prior(256, 16), 1)),
    (3, 2, ZEROS, At(3, 2, NONE, 0)),
    (3, 2, ZEROS, At(3, 2, prior(256, 800), 1)),
    // Number 1, also before 3; and 3.
    (0, 2, Plain(1, 64, 80), At(4, 2, NONE, 0)),
    (0, 2, Plain(1, 64, 80), At(usize::MAX, 2, NONE, 0)),
    (0, 2, Plain(1, 64, 80), At(1 << 32, 2, NONE, 0)),
    (0, 2, Plain(1, 64, 80), At(0, 8, NONE, 0)),
    (3, 2, Plain(1, 64, 80), At(3, 1 << 32, prior(1, 8), 1)),
    (3, 2, Plain(1, 64, 80), At(3, 2, prior(1, 8), 2)),
    (3, 2, Plain(1, 64, 80), At(3, 2, NONE, 257)),
    (0, 2, Plain(1, 64, 80), At(4, 8, NONE, 2)),
    (1, 2, Plain(1, 64, 80), At(4, 2, NONE, 0)),
    (1, 2, Plain(1, 64, 80), At(0, 8, NONE, 0)),
    (1, 2, Plain(1, 64, 80), At(0, 2, NONE, 2)),
    (1, 2, Plain(1, 64, 80), At(0, 2, NONE, 0)),
    (0, 2, Plain(1, 64, 80), At(3, 2, prior(256, 8), 1)),
    // The calls that take no rate, no fallback, no layout and no prior.
    (0, 6, Plain(101, 64, 32), Fb(6, prior(96, 16), 1)),
    (0, 3, Sevenths(202, 64, 12), Fb(3, prior(256, 8), 1)),
    (0, 3, Sevenths(202, 64, 12), Fb(3, prior(256, 8), 0)),
    (0, 7, Plain(301, 64, 8_000), Fb(2, NONE, 1)),
    (0, 2, Plain(1, 64, 80), Fb(8, NONE, 0)),
    (0, 2, Plain(1, 64, 80), Fb(2, NONE, 2)),
    (1, 2, Plain(1, 64, 80), Fb(2, NONE, 2)),
    (2, 2, Plain(1, 64, 80), Fb(2, NONE, 1)),
    (0, 4, Sevenths(201, 64, 24), With(4, prior(256, 16))),
    (0, 4, Sevenths(201, 64, 12), With(4, prior(240, 16))),
    (0, 0, Plain(301, 64, 8_000), With(2, NONE)),
    (0, 2, Plain(1, 64, 80), With(8, NONE)),
    (3, 2, Plain(1, 64, 80), With(8, NONE)),
    (3, 2, Plain(1, 64, 80), With(7, prior(1, 8))),
    (0, 2, Sevenths(201, 64, 24), Default(prior(200, 16))),
    (0, 2, Sevenths(201, 64, 12), Default(prior(256, 8))),
    (0, 5, Plain(301, 64, 8_000), Default(prior(40, 16))),
    (1, 2, Plain(1, 64, 80), Default(NONE)),
    (0, 2, Plain(102, 64, 32), Blind),
    (0, 2, Plain(102, 64, 16), Blind),
    (0, 1, Plain(301, 64, 8_000), Blind),
    (2, 2, Plain(1, 64, 80), Blind),
];

/// Adds all of them, by the original alone where a call is not turned down before its rounds.
pub fn list(text: &mut String) {
    for &line in LINES {
        list_line(text, line);
    }
}

/// A notice, and the metrics of its tones.
struct Sent {
    bits: Vec<u8>,
    metrics: Vec<Float>,
}

impl Sent {
    fn new(pair: Pair, made: Made) -> Self {
        let [_, mut state, ..] = made.arguments();
        let bits: Vec<u8> = (0..BITS).map(|_| (mix(&mut state) % 2) as u8).collect();
        let tones = encode_bits_at(pair.rate(), pair.layout(), &bits);
        let metrics = made.floats(&tones, state).floats;
        Self { bits, metrics }
    }

    fn prior(&self, Prior(count, from, made): Prior) -> Vec<Float> {
        let [_, mut state, spread, _] = made.arguments();
        let mut prior = Vec::new();
        for i in 0..count {
            let x = made.float(mix(&mut state) % spread, true);
            prior.push(match self.bits.get(i) {
                _ if i < from => 0.0.into(),
                Some(1) => (-f32::from(x)).into(),
                _ => x,
            });
        }
        prior
    }
}

fn list_line(text: &mut String, (rate, layout, made, asks): Line) {
    let sent = Sent::new(Pair { rate, layout }, made);
    let (name, own) = asks.words();
    let (number, rounds, bits, posteriors) = answer(&sent, asks);
    write!(text, "decode_bits{name}").unwrap();
    numbers(text, [rate as u64, layout as u64]);
    numbers(text, made.arguments());
    numbers(text, own);
    let bits = digest(bits.into_iter().map(u64::from));
    let posteriors = digest(posteriors.into_iter().map(|x| x.to_bits().into()));
    numbers(text, [number, rounds, bits, posteriors]);
    text.push('\n');
}

impl Asks {
    /// The rest of the call's name, and what a line gives it beside the frame that was sent.
    fn words(self) -> (&'static str, Vec<u64>) {
        let prior = |Prior(count, from, made): Prior| {
            [&[count as u64, from as u64], &made.arguments()[..]].concat()
        };
        let number = |number: usize| vec![number as u64];
        match self {
            At(rate, layout, p, fallback) => (
                "_prior_at",
                [number(rate), number(layout), prior(p), number(fallback)].concat(),
            ),
            Fb(layout, p, fallback) => (
                "_prior_fb",
                [number(layout), prior(p), number(fallback)].concat(),
            ),
            With(layout, p) => ("_prior_with", [number(layout), prior(p)].concat()),
            Default(p) => ("_prior", prior(p)),
            Blind => ("", vec![]),
        }
    }
}

/// The number, the count of rounds, and what is left in the two outputs.
fn answer(sent: &Sent, asks: Asks) -> (u64, u64, Vec<u8>, Vec<f32>) {
    let (rate, layout, prior, fallback) = match asks {
        At(rate, layout, prior, fallback) => (rate, layout, prior, fallback),
        Fb(layout, prior, fallback) => (DEFAULT_RATE, layout, prior, fallback),
        With(layout, prior) => (DEFAULT_RATE, layout, prior, DEFAULT_FALLBACK),
        Default(prior) => (DEFAULT_RATE, DEFAULT_LAYOUT, prior, DEFAULT_FALLBACK),
        Blind => (DEFAULT_RATE, DEFAULT_LAYOUT, NONE, DEFAULT_FALLBACK),
    };
    let metrics = plain(&sent.metrics);
    let prior = plain(&sent.prior(prior));
    let turned_down = |number| (number, 0, vec![1; BITS], vec![1.0; metrics.len()]);
    let asked = (rate_of(rate), layout_of(layout), fallback_of(fallback));
    let (Some(rate), Some(layout), Some(fallback)) = asked else {
        return turned_down(1);
    };
    if metrics.len() != 32 * n_for(rate) {
        return turned_down(3);
    }
    let own = match asks {
        At(..) => decode_bits_prior_at(rate, layout, &metrics, &prior, fallback),
        Fb(..) => decode_bits_prior_fb(layout, &metrics, &prior, fallback),
        With(..) => decode_bits_prior_with(layout, &metrics, &prior),
        Default(_) => decode_bits_prior(&metrics, &prior),
        Blind => decode_bits(&metrics),
    };
    let (bits, _, rounds, posteriors) = decode_bits_told(rate, layout, &metrics, &prior, fallback);
    assert_eq!(bits.clone().ok(), own, "the sibling found other bits");
    match bits {
        Ok(bits) => (0, rounds as u64, bits, posteriors),
        Err(number) => (number.into(), rounds as u64, vec![1; BITS], posteriors),
    }
}
