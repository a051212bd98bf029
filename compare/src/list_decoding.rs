//! List decoding on a lent code: `hazgunek_list_decode` beside the original's `list_decode`.

use crate::calls::encoding;
use crate::codes;
use crate::decode_call::Decoding;
use crate::decoding::{FEW_ROUNDS, in_noise_of};
use crate::likelihoods::Likelihoods;
use crate::list_decode_call::{ListDecoding, WIDEST};
use crate::metrics::{self, LEVELS};
use crate::on_code::{Asked, Call, Judged, Tallies};
use crate::oracle::NbCode;
use crate::own_ln::OwnLn;
use crate::posteriors;
use crate::random::Random;
use std::iter;

/// All comparisons of list decoding but the calls that are turned down.
pub fn compare(tallies: &mut Tallies) {
    let mut random = Random::new();
    compare_random(tallies, &mut random);
    compare_rates(tallies, &mut random);
}

/// So many list decodings of each code: of those of a middle size, of those at the ends of what is
/// allowed.
const OF_MIDDLE: usize = 2;
const OF_ENDS: usize = 6;

/// So many codes of a middle size, and one of so many of any size and of those that `new` builds.
const MIDDLE: usize = 1_500;
const SAMPLE: usize = 4;

/// Small codes, down to those without variables, checks and information positions, by every width;
/// others by a width at random.
fn compare_random(tallies: &mut Tallies, random: &mut Random) {
    let mut own_ln = OwnLn::new("random codes and posteriors of every kind");
    for on in codes::small() {
        let list = at_random(random, on.built());
        compare_widths(tallies, &mut own_ln, &on, &list);
    }
    let middle = codes::middle().take(MIDDLE).map(|on| (on, OF_MIDDLE));
    let ends = codes::ends().into_iter().map(|on| (on, OF_ENDS));
    let sample = codes::built().chain(codes::any()).step_by(SAMPLE);
    for (on, times) in middle.chain(ends).chain(sample.map(|on| (on, 1))) {
        for _ in 0..times {
            let list = at_random(random, on.built());
            compare_one(tallies, &mut own_ln, &on, list);
        }
    }
    own_ln.finish();
}

/// So many words are tried for one that a few rounds do not find. There is none at the levels of
/// little noise.
const TRIES: usize = 10;

/// So many draws of each level and each kind of posteriors, and so many list decodings at random, for
/// each code of the four rates.
const RATE_DRAWS: usize = 2;
const OF_RATE: usize = 200;

/// The codes of the four rates with both information sets: around what belief propagation leaves of a
/// word in noise that it refuses, and around posteriors of each kind, by every width; by metrics of
/// each kind, and at random.
fn compare_rates(tallies: &mut Tallies, random: &mut Random) {
    let mut refused = OwnLn::new("the four rates, posteriors of refused decodings");
    let mut others = OwnLn::new("the four rates, posteriors of every kind");
    for on in codes::rates() {
        let built = on.built();
        for level in LEVELS.repeat(RATE_DRAWS) {
            if let Some(list) = of_refused(random, built, level) {
                compare_widths(tallies, &mut refused, &on, &list);
            }
        }
        for kind in posteriors::KINDS.repeat(RATE_DRAWS) {
            let word = encoding(random, built);
            let posteriors = posteriors::of(random, &word, &[kind]);
            let list = ListDecoding::new(metrics::at_random(random, &word), posteriors, 0);
            compare_widths(tallies, &mut others, &on, &list);
        }
        for kind in metrics::KINDS {
            let word = encoding(random, built);
            let metrics = metrics::of(random, &word, &[kind]);
            let posteriors = posteriors::at_random(random, &word);
            let list = ListDecoding::new(metrics, posteriors, width(random));
            compare_one(tallies, &mut others, &on, list);
        }
        for _ in 0..OF_RATE {
            let list = at_random(random, built);
            compare_one(tallies, &mut others, &on, list);
        }
    }
    refused.finish();
    others.finish();
}

/// A word in noise, and what a decoding that does not find it leaves.
fn of_refused(random: &mut Random, built: &NbCode, level: f32) -> Option<ListDecoding> {
    let sent = || in_noise_of(random, built, level, built.k() as u32, FEW_ROUNDS);
    let decoding = iter::repeat_with(sent)
        .take(TRIES)
        .find(|decoding| decoding.decoded(built).number == 10)?;
    let posteriors = posteriors::after(&decoding, built);
    Some(ListDecoding::new(decoding.metrics, posteriors, 0))
}

/// Metrics and posteriors of every kind of what is mostly a word, and a width.
fn at_random(random: &mut Random, built: &NbCode) -> ListDecoding {
    let word = match random.below(8) {
        0 => random.symbols(built.n, 32),
        _ => encoding(random, built),
    };
    let metrics = metrics::at_random(random, &word);
    let posteriors = match random.below(4) {
        0 => after_rounds(random, built, &metrics),
        _ => posteriors::at_random(random, &word),
    };
    ListDecoding::new(metrics, posteriors, width(random))
}

/// What none or a few rounds on the metrics leave, whatever they come to.
fn after_rounds(random: &mut Random, built: &NbCode, metrics: &Likelihoods) -> Likelihoods {
    let [known, limit] = [built.k() + 2, 4].map(|limit| random.below(limit) as u32);
    let decoding = Decoding::new(metrics.clone(), known, limit);
    let is_made = !decoding.is_above_degree(built);
    posteriors::after(&decoding.with_limit(if is_made { limit } else { 0 }), built)
}

/// Mostly up to that of a frame, since each step doubles the work.
fn width(random: &mut Random) -> usize {
    match random.below(4) {
        0 => random.below(WIDEST + 1),
        _ => random.below(11),
    }
}

fn compare_widths(tallies: &mut Tallies, own_ln: &mut OwnLn, on: &Judged, list: &ListDecoding) {
    for width in 0..=WIDEST {
        compare_one(tallies, own_ln, on, list.with_width(width));
    }
}

fn compare_one(tallies: &mut Tallies, own_ln: &mut OwnLn, on: &Judged, list: ListDecoding) {
    own_ln.count(on.built(), &list);
    tallies.ask(&Asked::new(on, Call::ListDecode(list)));
}
