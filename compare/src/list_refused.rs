//! List decodings that are turned down for a width or a posterior, each beside one that is not, and
//! which number goes first.

use crate::calls::encoding;
use crate::code::{A, Code, N, VAR};
use crate::codes::{self, accepted};
use crate::damage::{Change, changed};
use crate::float::Float;
use crate::list_decode_call::ListDecoding;
use crate::metrics;
use crate::on_code::{Asked, Call, Judged, Tallies};
use crate::oracle::NbCode;
use crate::posteriors;
use crate::random::Random;

pub fn compare(tallies: &mut Tallies) {
    let mut random = Random::new();
    for on in bases() {
        compare_widths(tallies, &mut random, &on);
        compare_posteriors(tallies, &mut random, &on);
    }
    compare_order(tallies, &mut random);
}

/// No variables, an information position alone, a parity position alone, both, the code of a rate, and
/// as many variables as there may be.
fn bases() -> Vec<Judged> {
    let mut all: Vec<Judged> = [(0, 0, 0), (1, 0, 0), (1, 1, 1), (5, 3, 2), (256, 128, 2)]
        .map(|(n, m, degree)| {
            let built = NbCode::new(n, m, &vec![degree; n], 0);
            let name = format!("n {n}, m {m}, degrees {degree}");
            accepted(name, Code::of_new(&built))
        })
        .into();
    all.extend(codes::rates().pop());
    all
}

/// "width 16, 17", and widths that are small in fewer bits.
const ALLOWED: [usize; 4] = [0, 1, 15, 16];
const TOO_WIDE: [usize; 13] = [
    17,
    18,
    31,
    32,
    33,
    64,
    256,
    256 + 5,
    65_536 + 5,
    1 << 32,
    (1 << 32) + 10,
    1 << 63,
    usize::MAX,
];

fn compare_widths(tallies: &mut Tallies, random: &mut Random, on: &Judged) {
    let list = sound(random, on.built());
    for width in ALLOWED {
        expect(tallies, on, list.with_width(width), 0);
    }
    for width in TOO_WIDE {
        expect(tallies, on, list.with_width(width), 8);
    }
}

/// NaNs of both signs, also one that signals, and infinities; and what is next to them.
const NOT_FINITE: [u32; 5] = [
    0x7FC0_0000,
    0xFFC0_0001,
    0x7F80_0001,
    0x7F80_0000,
    0xFF80_0000,
];
const FINITE: [u32; 4] = [0x7F7F_FFFF, 0xFF7F_FFFF, 0x8000_0000, 0x0000_0001];

/// At the first place and the last, of an information position and of a parity position, which the
/// original does not read.
fn compare_posteriors(tallies: &mut Tallies, random: &mut Random, on: &Judged) {
    let built = on.built();
    let ends = (built.n > 0).then_some([0, 32 * built.n - 1]);
    let positions = [built.info.last(), built.parity.last()];
    let inside = positions
        .into_iter()
        .flatten()
        .map(|v| 32 * v + random.below(32));
    let places: Vec<usize> = ends.into_iter().flatten().chain(inside).collect();
    for place in places {
        for width in [0, 3] {
            let list = sound(random, built).with_width(width);
            for (values, number) in [(&FINITE[..], 0), (&NOT_FINITE[..], 8)] {
                for &bits in values {
                    expect(tallies, on, with_posterior(&list, place, bits), number);
                }
            }
        }
    }
}

/// 2 goes before 3, 3 before 6, 6 before 7 and 7 before 8, whatever 8 is for.
fn compare_order(tallies: &mut Tallies, random: &mut Random) {
    let base = codes::rates().remove(0);
    let too_large = Change::new(N, 0, 257);
    let malformed = Change::new(VAR, 0, 65_535);
    let misencoded = Change::new(A, 0, 32);
    let list = sound(random, base.built());
    let wide = list.with_width(17);
    let not_finite = with_posterior(&list, 0, NOT_FINITE[0]);
    let both = not_finite.with_width(17);
    for list in [wide, not_finite, both] {
        let mut short = list.clone();
        short.posteriors.floats.pop();
        for (changes, numbers) in [
            (&[][..], [8, 3]),
            (&[misencoded], [7, 3]),
            (&[misencoded, malformed], [6, 3]),
            (&[misencoded, malformed, too_large], [2, 2]),
        ] {
            let on = changed(&base, changes);
            expect(tallies, &on, list.clone(), numbers[0]);
            expect(tallies, &on, short.clone(), numbers[1]);
        }
    }
}

/// Nothing is wrong with it.
fn sound(random: &mut Random, built: &NbCode) -> ListDecoding {
    let word = encoding(random, built);
    let posteriors = posteriors::at_random(random, &word);
    ListDecoding::new(metrics::at_random(random, &word), posteriors, 3)
}

fn with_posterior(list: &ListDecoding, place: usize, bits: u32) -> ListDecoding {
    let mut list = list.clone();
    list.posteriors.floats[place] = Float::of_bits(bits);
    list
}

/// A list decoding with this number.
fn expect(tallies: &mut Tallies, on: &Judged, list: ListDecoding, number: u8) {
    let asked = Asked::new(on, Call::ListDecode(list));
    assert_eq!(asked.answer().number, number, "{asked}");
    tallies.ask(&asked);
}
