//! The listed differences of rates and frames; listed.rs tries them.

use crate::listed::{
    Call,
    Outcome::{self, Answers, Panics},
};
use crate::oracle::{
    self, BitMap, Fallback, InfoSet, Layout, Rate, code_at, decode_bits, decode_bits_prior_at,
    degrees_for, encode_bits, encode_bits_at, encode_bits_with, n_for,
};

/// Each input, what the document says of the original, and the call.
pub const LISTED: &[(&str, Outcome, Call)] = &[
    ("n_for(3/4)", Panics, || n_for(Rate::R3_4)),
    ("n_for(5/6)", Panics, || n_for(Rate::R5_6)),
    ("degrees_for(3/4)", Panics, || degrees_for(Rate::R3_4).len()),
    ("degrees_for(5/6)", Panics, || degrees_for(Rate::R5_6).len()),
    ("code_at(3/4, echelon)", Panics, || {
        code_at(Rate::R3_4, InfoSet::Echelon).n
    }),
    ("code_at(5/6, peeled)", Panics, || {
        code_at(Rate::R5_6, InfoSet::Peeled).n
    }),
    ("encode_bits_at(3/4, 256 bits)", Panics, || {
        encode_bits_at(Rate::R3_4, LAYOUT, &[0; 256]).len()
    }),
    ("encode_bits_at(5/6, 256 bits)", Panics, || {
        encode_bits_at(Rate::R5_6, LAYOUT, &[0; 256]).len()
    }),
    ("encode_bits_at(2/3, 255 bits)", Panics, || {
        encode_bits_at(Rate::R2_3, LAYOUT, &[0; 255]).len()
    }),
    ("encode_bits_at(2/3, 257 bits)", Panics, || {
        encode_bits_at(Rate::R2_3, LAYOUT, &[0; 257]).len()
    }),
    ("encode_bits_with(255 bits)", Panics, || {
        encode_bits_with(LAYOUT, &[0; 255]).len()
    }),
    ("encode_bits(255 bits)", Panics, || {
        encode_bits(&[0; 255]).len()
    }),
    ("decode_bits_prior_at(3/4, no metrics)", Panics, || {
        decode_bits_prior_at(Rate::R3_4, LAYOUT, &[], &[], Fallback::Bp)
            .map_or(0, |bits| bits.len())
    }),
    (
        "decode_bits_prior_at(2/3, 32*78 - 1 metrics)",
        Panics,
        || decoded_of(32 * 78 - 1),
    ),
    (
        "decode_bits_prior_at(2/3, 32*78 + 1 metrics)",
        Panics,
        || decoded_of(32 * 78 + 1),
    ),
    ("decode_bits_prior_at(2/3, no metrics)", Panics, || {
        decoded_of(0)
    }),
    ("decode_bits(no metrics)", Panics, || {
        decode_bits(&[]).map_or(0, |bits| bits.len())
    }),
    (
        "decode_bits_prior_at(2/3, plain, 2496*0.0), bits of the last information symbol's posterior 1",
        Answers(0x13AD_70C9),
        own_posterior,
    ),
];

const LAYOUT: Layout = Layout::new(InfoSet::Echelon, BitMap::Spread);

/// How many bits a frame of so many metrics has at rate 2/3.
fn decoded_of(metrics: usize) -> usize {
    let metrics = vec![0.0; metrics];
    let bits = decode_bits_prior_at(Rate::R2_3, LAYOUT, &metrics, &[], Fallback::Bp);
    bits.map_or(0, |bits| bits.len())
}

/// With the Rust's own exp: a padding bit of 1 is as unlikely as exp of -60 says.
fn own_posterior() -> usize {
    use oracle::own::{BitMap, Fallback, InfoSet, Layout, decode_bits_told};
    let layout = Layout::new(InfoSet::Echelon, BitMap::Plain);
    let metrics = [0.0; 32 * 78];
    let (_, _, _, posteriors) = decode_bits_told(Rate::R2_3, layout, &metrics, &[], Fallback::Bp);
    posteriors[32 * 51 + 1].to_bits() as usize
}
