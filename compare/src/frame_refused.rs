//! Frames that are turned down: by 1, by 3, by both at once, and what is next to them and is not.

use crate::frame::{BITS, FALLBACKS, LAYOUTS, Pair, pairs, past, wrong};
use crate::frame_decoding::{By, Frame};
use crate::frame_tallies::FrameTallies;
use crate::frames::Sent;
use crate::metrics::{self, Kind};
use crate::oracle::{RATES, n_for};
use crate::priors::{Kind as Prior, Priors};
use crate::random::Random;

pub fn compare(tallies: &mut FrameTallies) {
    let mut random = Random::new();
    let sound = sound(&mut random, Pair::DEFAULT, 1);
    for by in By::ALL {
        let sound = sound.by(by);
        for frame in with_numbers(&sound) {
            expect(tallies, &frame, 1);
            for other in with_wrong_lengths(&frame) {
                expect(tallies, &other, 1);
            }
        }
        compare_lengths(tallies, &sound);
    }
    for pair in pairs() {
        for fallback in 0..FALLBACKS.len() {
            let frame = self::sound(&mut random, pair, fallback);
            compare_lengths(tallies, &frame);
        }
    }
    compare_long_priors(tallies, &mut random);
}

/// Nothing is wrong with it, and the first round finds its word.
fn sound(random: &mut Random, pair: Pair, fallback: usize) -> Frame {
    let sent = Sent::at_random(random, pair);
    let metrics = metrics::of(random, &sent.word, &[Kind::Certain(50.0)]);
    let priors = Priors::of(random, &sent.bits, 7, Prior::Right(1.0));
    Frame::new(pair, fallback, metrics, priors)
}

/// A frame with this number.
fn expect(tallies: &mut FrameTallies, frame: &Frame, number: u8) {
    let asked = tallies.ask(frame);
    assert_eq!(asked.answer.number, number, "{frame}");
}

/// The same with another rate, layout or fallback, past the end and at a cut, and with all of them; only
/// of those that the call takes.
fn with_numbers(frame: &Frame) -> Vec<Frame> {
    let mut all = Vec::new();
    if frame.by == By::At {
        all.extend(past(RATES.len()).into_iter().map(|rate| Frame {
            rate,
            ..frame.clone()
        }));
    }
    if !matches!(frame.by, By::Prior | By::Nothing) {
        all.extend(past(LAYOUTS).into_iter().map(|layout| Frame {
            layout,
            ..frame.clone()
        }));
    }
    if matches!(frame.by, By::At | By::Fb) {
        all.extend(past(FALLBACKS.len()).into_iter().map(|fallback| Frame {
            fallback,
            ..frame.clone()
        }));
        for past in [8, 1 << 32, usize::MAX] {
            all.push(Frame {
                rate: if frame.by == By::At { past } else { frame.rate },
                layout: past,
                fallback: past,
                ..frame.clone()
            });
        }
    }
    all
}

/// The frame is not turned down, but is where a part has another length.
fn compare_lengths(tallies: &mut FrameTallies, frame: &Frame) {
    expect(tallies, frame, 0);
    for other in with_wrong_lengths(frame) {
        expect(tallies, &other, 3);
    }
}

/// Each part one short, one long and empty; metrics and posteriors of other rates; all parts empty.
fn with_wrong_lengths(frame: &Frame) -> Vec<Frame> {
    let right = frame.posteriors;
    let of_rates = RATES.map(|rate| 32 * n_for(rate)).into_iter();
    let of_others = of_rates.filter(|&length| length != right);
    let metrics: Vec<usize> = wrong(right).chain(of_others).collect();
    let mut all = Vec::new();
    let mut changed = |change: &dyn Fn(&mut Frame)| {
        let mut frame = frame.clone();
        change(&mut frame);
        all.push(frame);
    };
    for length in metrics {
        changed(&|frame| frame.metrics.floats.resize(length, 0.0.into()));
        changed(&|frame| frame.posteriors = length);
        changed(&|frame| {
            frame.metrics.floats.resize(length, 0.0.into());
            frame.posteriors = length;
        });
    }
    for length in wrong(BITS) {
        changed(&|frame| frame.bits = length);
    }
    for length in wrong(frame.work.words) {
        changed(&|frame| frame.work.words = length);
    }
    for length in wrong(frame.work.bytes) {
        changed(&|frame| frame.work.bytes = length);
    }
    for length in wrong(frame.work.floats) {
        changed(&|frame| frame.work.floats = length);
    }
    changed(&|frame| {
        frame.metrics.floats.clear();
        (frame.bits, frame.posteriors) = (0, 0);
        (frame.work.words, frame.work.bytes, frame.work.floats) = (0, 0, 0);
    });
    all
}

/// No count of priors turns a frame down.
fn compare_long_priors(tallies: &mut FrameTallies, random: &mut Random) {
    for rate in 0..RATES.len() {
        for length in [0, 1, 255, 256, 257, 260, 512, 1_000, 65_536, 65_792] {
            let pair = Pair { rate, layout: 3 };
            let sent = Sent::at_random(random, pair);
            let metrics = metrics::of(random, &sent.word, &[Kind::Certain(50.0)]);
            let priors = Priors::of(random, &sent.bits, length, Prior::Right(3.0));
            expect(tallies, &Frame::new(pair, 1, metrics, priors), 0);
        }
    }
}
