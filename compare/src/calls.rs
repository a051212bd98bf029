//! Calls to make on a lent code: arguments of every kind.

use crate::decode_call::Decoding;
use crate::likelihoods::Likelihoods;
use crate::list_decode_call::{ListDecoding, WIDEST};
use crate::metrics;
use crate::on_code::Call;
use crate::oracle::NbCode;
use crate::posteriors;
use crate::preferences;
use crate::random::Random;

/// Each call once, of a code of n variables and k information positions; arguments are at times out
/// of range.
pub fn each_call(random: &mut Random, n: usize, k: usize) -> Vec<Call> {
    let limit = 32 + random.below(4) / 3;
    let count = random.below(k + 2);
    let (syms, word) = (random.symbols(count, 256), random.symbols(n, limit));
    let prefer = preferences::at_random(random, n);
    let sent = random.symbols(n, 32);
    let metrics = metrics::at_random(random, &sent);
    let list = list_decoding(random, metrics.clone(), &sent);
    let decoding = Decoding::new(metrics, random.below(k + 2) as u32, random.below(4) as u32);
    vec![
        Call::Encode { syms, word: n },
        Call::InfoOf {
            word: word.clone(),
            syms: n,
        },
        Call::ChecksOk { word },
        Call::Degree {
            v: random.below(n + 1),
        },
        Call::K,
        Call::N,
        Call::InfoPositions { positions: n },
        Call::PeelPicks {
            prefer: prefer.clone(),
            picks: n,
        },
        Call::WithPeeledInfo { prefer },
        Call::Decode(decoding.without_posteriors()),
        Call::Decode(decoding),
        Call::ListDecode(list),
    ]
}

/// A narrow one, or at times one that is too wide, and at times with a posterior that is not finite.
fn list_decoding(random: &mut Random, metrics: Likelihoods, sent: &[u8]) -> ListDecoding {
    let width = match random.below(8) {
        0 => WIDEST + 1,
        _ => random.below(6),
    };
    let mut posteriors = posteriors::at_random(random, sent);
    let place = random.below(8 * posteriors.floats.len().max(1));
    if let Some(posterior) = posteriors.floats.get_mut(place) {
        *posterior = [f32::NAN, f32::INFINITY, f32::NEG_INFINITY][random.below(3)].into();
    }
    ListDecoding::new(metrics, posteriors, width)
}

/// Each call, and two words more: an encoding, and one with a symbol changed.
pub fn some_calls(random: &mut Random, built: &NbCode) -> Vec<Call> {
    let mut all = each_call(random, built.n, built.k());
    let word = encoding(random, built);
    let changed = with_change(random, &word);
    all.extend([word, changed].map(|word| Call::ChecksOk { word }));
    all
}

/// Each call on words with its arguments at every end.
pub fn every_call(random: &mut Random, built: &NbCode) -> Vec<Call> {
    let (n, k) = (built.n, built.k());
    let mut all = vec![Call::K, Call::N, Call::InfoPositions { positions: n }];
    for count in [0, 1, k.saturating_sub(1), k, k + 1, n + 1] {
        let syms = random.symbols(count, 256);
        all.push(Call::Encode { syms, word: n });
    }
    let syms = random.symbols(k, 32);
    all.push(Call::Encode { syms, word: n });
    for word in words(random, built) {
        all.push(Call::InfoOf {
            word: word.clone(),
            syms: n,
        });
        all.push(Call::ChecksOk { word });
    }
    for v in [0, n.saturating_sub(1), random.below(n + 1), n, usize::MAX] {
        all.push(Call::Degree { v });
    }
    all
}

/// Words of n symbols: random ones, encodings, some with a symbol changed or above 31, all 0 and
/// all 31.
fn words(random: &mut Random, built: &NbCode) -> Vec<Vec<u8>> {
    let word = encoding(random, built);
    let mut all = vec![
        random.symbols(built.n, 32),
        random.symbols(built.n, 256),
        vec![0; built.n],
        vec![31; built.n],
        with_change(random, &word),
    ];
    for symbol in [32, 255] {
        let place = random.below(built.n.max(1));
        all.extend(with_symbol(&word, place, symbol));
    }
    all.push(word);
    all
}

/// Of symbols at random.
pub fn encoding(random: &mut Random, built: &NbCode) -> Vec<u8> {
    built.encode(&random.symbols(built.k(), 32))
}

/// One symbol changed, where there is one.
fn with_change(random: &mut Random, word: &[u8]) -> Vec<u8> {
    let mut word = word.to_vec();
    let place = random.below(word.len().max(1));
    if let Some(symbol) = word.get_mut(place) {
        *symbol ^= 1 + random.below(31) as u8;
    }
    word
}

/// Another symbol at a place, where there is one.
fn with_symbol(word: &[u8], place: usize, symbol: u8) -> Option<Vec<u8>> {
    let mut word = word.to_vec();
    *word.get_mut(place)? = symbol;
    Some(word)
}

/// 32 and 255 at every place, in a random word and in an encoding.
pub fn bad_symbols(random: &mut Random, built: &NbCode) -> Vec<Call> {
    let mut all = Vec::new();
    for word in [random.symbols(built.n, 32), encoding(random, built)] {
        for place in 0..built.n {
            for symbol in [32, 255] {
                let word = with_symbol(&word, place, symbol).expect("the place is below n");
                all.push(Call::InfoOf {
                    word: word.clone(),
                    syms: built.n,
                });
                all.push(Call::ChecksOk { word });
            }
        }
    }
    all
}
