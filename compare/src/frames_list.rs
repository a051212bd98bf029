//! The fixed list of the calls on frames.

use crate::code_lists::DIGEST_HEAD;
use crate::frame::{BITS, DEFAULT_LAYOUT, DEFAULT_RATE, Pair, layout_of, rate_of};
use crate::frame_decoding_lines;
use crate::line_floats::FLOATS_HEAD;
use crate::list::digest;
use crate::oracle::{bits_to_syms, encode_bits, encode_bits_at, encode_bits_with, n_for};
use crate::words_list::{Drawn, symbols};
use std::fmt::Write;

const CALLS_HEAD: &str = "\
# spread I P
# bits_to_syms COUNT DRAWS LIMIT LENGTH NUMBER SYMS
# encode_bits_at RATE LAYOUT COUNT DRAWS LIMIT LENGTH NUMBER TONES
# encode_bits_with LAYOUT COUNT DRAWS LIMIT LENGTH NUMBER TONES
# encode_bits COUNT DRAWS LIMIT LENGTH NUMBER TONES
# decode_bits_prior_at SENT RATE LAYOUT PRIOR FALLBACK NUMBER ROUNDS BITS POSTERIORS
# decode_bits_prior_fb SENT LAYOUT PRIOR FALLBACK NUMBER ROUNDS BITS POSTERIORS
# decode_bits_prior_with SENT LAYOUT PRIOR NUMBER ROUNDS BITS POSTERIORS
# decode_bits_prior SENT PRIOR NUMBER ROUNDS BITS POSTERIORS
# decode_bits SENT NUMBER ROUNDS BITS POSTERIORS
# By the map Spread padded bit I, which is 0 to 259, stands at the packed position P.
# RATE is 0 to 3 for 1/4, 1/3, 1/2 and 2/3. LAYOUT is 0 to 7, 4 x set + map: the echelon set and the peeled one, and the maps Plain,
# Heavy, Spread and SpreadHeavy. FALLBACK is 0 for none and 1 for the list. Other numbers are refused.
# COUNT bits, 0 to 257, are given to a call: the first draws of SplitMix64 from DRAWS, each mod LIMIT, which is 1 to 256. The first
# that are packed are 1, 0, 1, whose symbol is 20, then six times 1, whose symbols are 31 and 16, and then none.
# SYMS and TONES are parts of LENGTH entries, which is 0 to 257.
# SENT is RATE LAYOUT RULE DRAWS SPREAD PEAK. The first 256 draws of SplitMix64 from DRAWS, each mod 2, are the bits of a notice.
# What `encode_bits_at` answers to them at that rate and in that layout is the word that was sent. Its metrics are made after them.
";

const LIST_HEAD: &str = "\
# PRIOR is COUNT FROM RULE DRAWS SPREAD PEAK: COUNT entries, COUNT and FROM being 0 to 257. Every draw from DRAWS on gives one, as one
# gives a metric at the value that was sent; where the notice's bit is 1 it is the minus of that, and before entry FROM it is 0.0.
# NUMBER is the refusal's, 0 for none. ROUNDS is 0 where that is 1 or 3. BITS is a part of 256 entries, POSTERIORS one of as many
# floats as there are metrics, none of them a NaN; the bits of a float stand for it in the digest.
# Before a call every entry of every output and work part is 1, and 1.0 where it is a float.
";

/// The padded bits of which the packed position is listed.
const SPREAD: [usize; 5] = [1, 255, 256, 0, 259];

/// Bits to pack, and the length of the symbols' part. The first three are 1, 0, 1, six times 1, and none.
const PACKED: [(Drawn, usize); 13] = [
    (Drawn(3, 0, 2), 1),
    (Drawn(6, 21, 2), 2),
    (Drawn(0, 0, 1), 0),
    (Drawn(1, 1, 256), 1),
    (Drawn(4, 2, 256), 1),
    (Drawn(5, 3, 256), 1),
    (Drawn(256, 4, 256), 52),
    (Drawn(257, 5, 256), 52),
    (Drawn(0, 0, 1), 1),
    (Drawn(5, 3, 256), 0),
    (Drawn(5, 3, 256), 2),
    (Drawn(6, 21, 2), 1),
    (Drawn(256, 4, 256), 257),
];

/// The call that encodes, with its own arguments.
#[derive(Clone, Copy)]
enum Encodes {
    At(usize, usize),
    With(usize),
    Default,
}

use Encodes::{At, Default, With};

/// The calls that encode, their bits, and the length of the part for the tones.
const ENCODINGS: &[(Encodes, Drawn, usize)] = &[
    (At(0, 0), notice(0), 205),
    (At(0, 1), notice(1), 205),
    (At(0, 2), notice(2), 205),
    (At(0, 3), notice(3), 205),
    (At(0, 4), notice(4), 205),
    (At(0, 5), notice(5), 205),
    (At(0, 6), notice(6), 205),
    (At(0, 7), notice(7), 205),
    (At(1, 0), notice(10), 156),
    (At(1, 1), notice(11), 156),
    (At(1, 2), notice(12), 156),
    (At(1, 3), notice(13), 156),
    (At(1, 4), notice(14), 156),
    (At(1, 5), notice(15), 156),
    (At(1, 6), notice(16), 156),
    (At(1, 7), notice(17), 156),
    (At(2, 0), notice(20), 104),
    (At(2, 1), notice(21), 104),
    (At(2, 2), notice(22), 104),
    (At(2, 3), notice(23), 104),
    (At(2, 4), notice(24), 104),
    (At(2, 5), notice(25), 104),
    (At(2, 6), notice(26), 104),
    (At(2, 7), notice(27), 104),
    (At(3, 0), notice(30), 78),
    (At(3, 1), notice(31), 78),
    (At(3, 2), notice(32), 78),
    (At(3, 3), notice(33), 78),
    (At(3, 4), notice(34), 78),
    (At(3, 5), notice(35), 78),
    (At(3, 6), notice(36), 78),
    (At(3, 7), notice(37), 78),
    (At(1, 6), Drawn(BITS, 0, 1), 156),
    (At(2, 3), Drawn(BITS, 50, 2), 104),
    // Number 1, also before 3; and 3.
    (At(4, 0), notice(60), 205),
    (At(usize::MAX, 2), notice(60), 205),
    (At(1 << 32, 2), notice(60), 205),
    (At(0, 8), notice(60), 205),
    (At(3, usize::MAX), notice(60), 78),
    (At(4, 8), notice(60), 205),
    (At(4, 0), Drawn(255, 61, 256), 0),
    (At(0, 0), Drawn(255, 61, 256), 205),
    (At(0, 7), Drawn(257, 61, 256), 205),
    (At(1, 2), Drawn(0, 0, 1), 156),
    (At(0, 2), notice(62), 204),
    (At(1, 2), notice(62), 205),
    (At(2, 5), notice(62), 0),
    (At(3, 2), notice(62), 257),
    (With(0), notice(70), 205),
    (With(2), notice(70), 205),
    (With(5), notice(70), 205),
    (With(7), notice(70), 205),
    (With(8), notice(70), 205),
    (With(256), Drawn(255, 70, 256), 205),
    (With(1), Drawn(255, 70, 256), 205),
    (With(1), notice(70), 156),
    (Default, notice(80), 205),
    (Default, Drawn(BITS, 81, 2), 205),
    (Default, Drawn(255, 80, 256), 205),
    (Default, Drawn(257, 80, 256), 205),
    (Default, notice(80), 206),
];

/// This layer's fixed list, by the original alone where a call is not turned down before its rounds.
pub fn list() -> String {
    let heads = [CALLS_HEAD, FLOATS_HEAD, LIST_HEAD, DIGEST_HEAD];
    let mut text = heads.concat();
    let spread = Pair::DEFAULT.layout().tables(Pair::DEFAULT.rate());
    for i in SPREAD {
        writeln!(text, "spread {i} {}", spread.pos[i]).unwrap();
    }
    for (drawn, room) in PACKED {
        list_packing(&mut text, drawn, room);
    }
    for &(encodes, drawn, room) in ENCODINGS {
        list_encoding(&mut text, encodes, drawn, room);
    }
    frame_decoding_lines::list(&mut text);
    text
}

/// Bits of any value that a frame has.
const fn notice(draws: u64) -> Drawn {
    Drawn(BITS, draws, 256)
}

fn list_packing(text: &mut String, drawn: Drawn, room: usize) {
    let Drawn(count, draws, limit) = drawn;
    let syms = bits_to_syms(&symbols(drawn));
    let (number, syms) = match syms.len() == room {
        true => (0, syms),
        false => (3, vec![1; room]),
    };
    let syms = digest(syms.into_iter().map(u64::from));
    writeln!(
        text,
        "bits_to_syms {count} {draws} {limit} {room} {number} {syms}"
    )
    .unwrap();
}

fn list_encoding(text: &mut String, encodes: Encodes, drawn: Drawn, room: usize) {
    let (name, own, rate, layout) = match encodes {
        Encodes::At(rate, layout) => ("_at", vec![rate, layout], rate, layout),
        Encodes::With(layout) => ("_with", vec![layout], DEFAULT_RATE, layout),
        Encodes::Default => ("", vec![], DEFAULT_RATE, DEFAULT_LAYOUT),
    };
    let bits = symbols(drawn);
    let (number, tones) = match (rate_of(rate), layout_of(layout)) {
        (Some(rate), Some(layout)) if bits.len() == BITS && room == n_for(rate) => {
            let tones = match encodes {
                Encodes::At(..) => encode_bits_at(rate, layout, &bits),
                Encodes::With(_) => encode_bits_with(layout, &bits),
                Encodes::Default => encode_bits(&bits),
            };
            (0, tones)
        }
        (Some(_), Some(_)) => (3, vec![1; room]),
        _ => (1, vec![1; room]),
    };
    let Drawn(count, draws, limit) = drawn;
    write!(text, "encode_bits{name}").unwrap();
    numbers(text, own.into_iter().map(|number| number as u64));
    numbers(text, [count as u64, draws, limit, room as u64, number]);
    numbers(text, [digest(tones.into_iter().map(u64::from))]);
    text.push('\n');
}

/// Adds numbers to a line.
pub fn numbers(text: &mut String, numbers: impl IntoIterator<Item = u64>) {
    for number in numbers {
        write!(text, " {number}").unwrap();
    }
}
