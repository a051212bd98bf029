//! Where each bit of a notice stands in a word: the tables of the original's layouts beside what ours do,
//! which are not lent to anyone.
//!
//! A place is an information slot and which of the five bits of its symbol, counted from the most
//! significant: 5 · slot + bit. The original's tables say it of each of the 260 bits with the padding, by
//! `pos` and `slot`, and the other way round by `bit` and `slot`.
//!
//! - Of ours, `hazgunek_encode_bits_at` of a single bit shows where `pos` and `slot` put it: one symbol of
//!   the information positions that `hazgunek_code_at` gives is not 0, and one bit of it.
//! - `hazgunek_decode_bits_prior_at` of metrics that are all 0.0, with one prior that is not, shows where
//!   `bit` and `slot` look for it: the posteriors of that place alone favour a 0. The padding's four places
//!   are those that favour it without priors. By metrics of the tones of a single bit it shows that the bits
//!   handed back are read from the same places.
//!
//! So of the tables all is held that shows in an answer. Which of the padding's four bits stands in which
//! of its four places does not, since they are alike; nor do `pos` and `slot` one by one, but what they come
//! to together.

use crate::filling::BEFORE;
use crate::float::Float;
use crate::frame::{BITS, PADDED, Pair, SYMBOLS, pairs};
use crate::frame_decoding::Frame;
use crate::frame_encoding::{By, Encoding, EncodingTallies};
use crate::frame_tallies::FrameTallies;
use crate::lent_code_at::{self, LentCodeAt};
use crate::metrics::{self, Kind};
use crate::oracle::{Tables, encode_bits_at};
use crate::priors::{Kind as Prior, Priors};
use crate::random::Random;
use crate::report::{Case, HeldTo, Tally};

/// Gives the differences that are not of a call.
pub fn compare(encodings: &mut EncodingTallies, frames: &mut FrameTallies) -> u64 {
    let mut tally = Tally::new("places of bits");
    let mut random = Random::new();
    for pair in pairs() {
        let tables = pair.layout().tables(pair.rate());
        assert_tables(tables);
        let info = info_positions(pair);
        let mut case = Case::held_to(HeldTo::Rust);
        case.part(
            "encoded",
            &encoded(encodings, pair, &info),
            &places(tables)[..BITS],
        );
        let (decoded, padding) = decoded(frames, pair, &info);
        case.part("decoded", &decoded, &places_by_bit(tables)[..BITS]);
        let mut rest = places_by_bit(tables)[BITS..].to_vec();
        rest.sort_unstable();
        case.part("places of the padding", &padding, &rest);
        tally.count(case, || {
            format!("rate {}, layout {}", pair.rate, pair.layout)
        });
        compare_single_bits(frames, &mut random, pair);
    }
    tally.finish()
}

/// Each is one to one, and `bit` is the inverse of `pos`.
fn assert_tables(tables: &Tables) {
    let sorted = |mut numbers: Vec<usize>| {
        numbers.sort_unstable();
        numbers
    };
    let numbers = |table: &[u16]| table.iter().map(|&x| x.into()).collect();
    let all: Vec<usize> = (0..PADDED).collect();
    assert_eq!(sorted(numbers(&tables.pos)), all, "packed positions");
    assert_eq!(sorted(numbers(&tables.bit)), all, "padded bits");
    let slots = tables.slot.iter().map(|&slot| slot.into()).collect();
    assert_eq!(sorted(slots), all[..SYMBOLS], "slots");
    for (i, &position) in tables.pos.iter().enumerate() {
        let bit = tables.bit[usize::from(position)];
        assert_eq!(usize::from(bit), i, "the inverse of a packed position");
    }
}

/// By `pos`.
fn places(tables: &Tables) -> Vec<usize> {
    let place = |&position: &u16| {
        let position = usize::from(position);
        5 * usize::from(tables.slot[position / 5]) + position % 5
    };
    tables.pos.iter().map(place).collect()
}

/// By `bit`.
fn places_by_bit(tables: &Tables) -> Vec<usize> {
    let mut places = vec![PADDED; PADDED];
    for (position, &bit) in tables.bit.iter().enumerate() {
        places[usize::from(bit)] = 5 * usize::from(tables.slot[position / 5]) + position % 5;
    }
    places
}

/// Of the code that ours gives.
fn info_positions(pair: Pair) -> Vec<usize> {
    let mut lent = LentCodeAt::new(lent_code_at::LENGTHS, &BEFORE[0]);
    let number = lent.call(pair.rate, pair.layout().info as usize);
    assert_eq!(number, 0, "the code of rate {}", pair.rate);
    let mut info = lent.info_positions();
    info.truncate(SYMBOLS);
    info
}

/// Where ours puts each bit of a notice; `PADDED` where it is not in one place.
fn encoded(tallies: &mut EncodingTallies, pair: Pair, info: &[usize]) -> Vec<usize> {
    let mut place = |bit| {
        let by = By::RateAndLayout(pair.rate, pair.layout);
        // At times among bytes whose lowest bit is clear.
        let bits = [single(bit, 1, 0), single(bit, 255, 254)][bit % 2].clone();
        let lent = tallies.ask(&Encoding::new(by, bits));
        let tones = lent.tones.part();
        let is_set = |slot: &usize| tones[info[*slot]] != 0;
        let slots: Vec<usize> = (0..info.len()).filter(is_set).collect();
        match slots[..] {
            [slot] => place_of(slot, tones[info[slot]]),
            _ => PADDED,
        }
    };
    (0..BITS).map(&mut place).collect()
}

/// One bit as `one`, the others as `rest`.
fn single(bit: usize, one: u8, rest: u8) -> Vec<u8> {
    let byte = |i| if i == bit { one } else { rest };
    (0..BITS).map(byte).collect()
}

/// Of the one bit of a symbol that is set.
fn place_of(slot: usize, symbol: u8) -> usize {
    match symbol {
        1 | 2 | 4 | 8 | 16 => 5 * slot + 4 - symbol.trailing_zeros() as usize,
        _ => PADDED,
    }
}

/// Where ours looks for each bit of a notice, and for the padding, these ascending.
fn decoded(tallies: &mut FrameTallies, pair: Pair, info: &[usize]) -> (Vec<usize>, Vec<usize>) {
    let metrics = metrics::of(&mut Random::new(), &vec![0; pair.n()], &[Kind::Same(0.0)]);
    let blind = Frame::new(pair, 0, metrics, Priors::none());
    let mut favoured = |frame: &Frame| {
        let asked = tallies.ask(frame);
        assert_eq!(asked.answer.rounds, 1, "{frame}");
        favoured(asked.lent.posteriors(), info)
    };
    let padding = favoured(&blind);
    let mut place = |bit: usize| {
        let mut floats = vec![Float::from(0.0); bit + 1];
        floats[bit] = 2.0.into();
        let name = "2.0 alone at the end".to_string();
        let priors = Priors { name, floats };
        let places = favoured(&blind.with_priors(priors));
        let others: Vec<usize> = places
            .into_iter()
            .filter(|place| !padding.contains(place))
            .collect();
        match others[..] {
            [place] => place,
            _ => PADDED,
        }
    };
    let bits = (0..BITS).map(&mut place).collect();
    (bits, padding)
}

/// The places where the posteriors favour a 0: a symbol with that bit alone is less likely than 0.
fn favoured(posteriors: &[Float], info: &[usize]) -> Vec<usize> {
    let favours = |place: &usize| {
        let vector = 32 * info[place / 5];
        let one = vector + (16 >> (place % 5));
        let [zero, one] = [vector, one].map(|i| posteriors.get(i).map(|&x| f32::from(x)));
        one < zero
    };
    (0..PADDED).filter(favours).collect()
}

/// The tones of each single bit are read back.
fn compare_single_bits(tallies: &mut FrameTallies, random: &mut Random, pair: Pair) {
    for bit in 0..BITS {
        let bits = single(bit, 1, 0);
        let word = encode_bits_at(pair.rate(), pair.layout(), &bits);
        let metrics = metrics::of(random, &word, &[Kind::Certain(20.0)]);
        let priors = match bit % 4 {
            0 => Priors::of(random, &bits, BITS, Prior::Right(1.0)),
            _ => Priors::none(),
        };
        let answer = tallies
            .ask(&Frame::new(pair, bit % 2, metrics, priors))
            .answer;
        assert!(
            answer.bits == Some(bits),
            "the original reads bit {bit} back"
        );
    }
}
