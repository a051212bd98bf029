//! The static library's calls on rates and frames, each behind a safe function that lends its parts.
//!
//! As in abi.rs, nothing checks the declarations: they are kept in step with include/hazgunek.h by
//! hand, and stand in its order.

use crate::float::Float;

unsafe extern "C" {
    fn hazgunek_n_for(rate: usize, n: *mut usize) -> u8;
    fn hazgunek_degrees_for(rate: usize, degrees: *mut usize, degrees_len: usize) -> u8;
    fn hazgunek_code_at(
        rate: usize,
        set: usize,
        n: *mut usize,
        m: *mut usize,
        edges: *mut usize,
        rank: *mut usize,
        var: *mut u16,
        var_len: usize,
        coef: *mut u8,
        coef_len: usize,
        row: *mut u16,
        row_len: usize,
        start: *mut u16,
        start_len: usize,
        col: *mut u16,
        col_len: usize,
        order: *mut u16,
        order_len: usize,
        parity: *mut u16,
        parity_len: usize,
        info: *mut u16,
        info_len: usize,
        a: *mut u8,
        a_len: usize,
        words: *mut u16,
        words_len: usize,
        bytes: *mut u8,
        bytes_len: usize,
    ) -> u8;
    fn hazgunek_bits_to_syms(
        bits: *const u8,
        bits_len: usize,
        syms: *mut u8,
        syms_len: usize,
    ) -> u8;
}

/// Declares calls that encode a frame; before the parts that all have stand a call's own.
macro_rules! frame_encodings {
    ($(fn $name:ident($($own:ident: $kind:ty),*);)*) => {
        unsafe extern "C" {
            $(fn $name(
                $($own: $kind,)*
                bits: *const u8,
                bits_len: usize,
                tones: *mut u8,
                tones_len: usize,
                words: *mut u16,
                words_len: usize,
                bytes: *mut u8,
                bytes_len: usize,
            ) -> u8;)*
        }
    };
}

frame_encodings! {
    fn hazgunek_encode_bits_at(rate: usize, layout: usize);
    fn hazgunek_encode_bits_with(layout: usize);
    fn hazgunek_encode_bits();
}

/// Declares calls that decode a frame, in the same way.
macro_rules! frame_decodings {
    ($(fn $name:ident($($own:ident: $kind:ty),*);)*) => {
        unsafe extern "C" {
            $(fn $name(
                $($own: $kind,)*
                rounds: *mut u32,
                bits: *mut u8,
                bits_len: usize,
                posteriors: *mut Float,
                posteriors_len: usize,
                words: *mut u16,
                words_len: usize,
                bytes: *mut u8,
                bytes_len: usize,
                floats: *mut Float,
                floats_len: usize,
            ) -> u8;)*
        }
    };
}

frame_decodings! {
    fn hazgunek_decode_bits_prior_at(
        rate: usize,
        layout: usize,
        metrics: *const Float,
        metrics_len: usize,
        prior: *const Float,
        prior_len: usize,
        fallback: usize
    );
    fn hazgunek_decode_bits_prior_fb(
        layout: usize,
        metrics: *const Float,
        metrics_len: usize,
        prior: *const Float,
        prior_len: usize,
        fallback: usize
    );
    fn hazgunek_decode_bits_prior_with(
        layout: usize,
        metrics: *const Float,
        metrics_len: usize,
        prior: *const Float,
        prior_len: usize
    );
    fn hazgunek_decode_bits_prior(
        metrics: *const Float,
        metrics_len: usize,
        prior: *const Float,
        prior_len: usize
    );
    fn hazgunek_decode_bits(metrics: *const Float, metrics_len: usize);
}

// As in abi.rs, what the library asks of every pointer is true of Rust's references.

pub fn n_for(rate: usize, n: &mut usize) -> u8 {
    unsafe { hazgunek_n_for(rate, n) }
}

pub fn degrees_for(rate: usize, degrees: &mut [usize]) -> u8 {
    unsafe { hazgunek_degrees_for(rate, degrees.as_mut_ptr(), degrees.len()) }
}

/// The parts that `code_at` is lent: its numbers n, m, edges and rank, and then those with a length by
/// the width of their entries, each kind in the order of the call.
pub struct CodeAtParts<'a> {
    pub numbers: [&'a mut usize; 4],
    pub wide: [&'a mut [u16]; 8],
    pub narrow: [&'a mut [u8]; 3],
}

pub fn code_at(rate: usize, set: usize, parts: CodeAtParts) -> u8 {
    let [n, m, edges, rank] = parts.numbers;
    let [var, row, start, col, order, parity, info, words] = parts.wide;
    let [coef, a, bytes] = parts.narrow;
    unsafe {
        hazgunek_code_at(
            rate,
            set,
            n,
            m,
            edges,
            rank,
            var.as_mut_ptr(),
            var.len(),
            coef.as_mut_ptr(),
            coef.len(),
            row.as_mut_ptr(),
            row.len(),
            start.as_mut_ptr(),
            start.len(),
            col.as_mut_ptr(),
            col.len(),
            order.as_mut_ptr(),
            order.len(),
            parity.as_mut_ptr(),
            parity.len(),
            info.as_mut_ptr(),
            info.len(),
            a.as_mut_ptr(),
            a.len(),
            words.as_mut_ptr(),
            words.len(),
            bytes.as_mut_ptr(),
            bytes.len(),
        )
    }
}

pub fn bits_to_syms(bits: &[u8], syms: &mut [u8]) -> u8 {
    unsafe { hazgunek_bits_to_syms(bits.as_ptr(), bits.len(), syms.as_mut_ptr(), syms.len()) }
}

/// The work parts of a call on a frame; one that encodes has no floats.
pub struct Work<'a> {
    pub words: &'a mut [u16],
    pub bytes: &'a mut [u8],
    pub floats: &'a mut [Float],
}

/// The parts of every call that encodes a frame.
pub struct EncodingParts<'a> {
    pub bits: &'a [u8],
    pub tones: &'a mut [u8],
    pub work: Work<'a>,
}

/// Makes a call that encodes a frame, with its own arguments.
macro_rules! encode_frame {
    ($parts:ident, $name:ident($($own:expr),*)) => {
        unsafe {
            $name(
                $($own,)*
                $parts.bits.as_ptr(),
                $parts.bits.len(),
                $parts.tones.as_mut_ptr(),
                $parts.tones.len(),
                $parts.work.words.as_mut_ptr(),
                $parts.work.words.len(),
                $parts.work.bytes.as_mut_ptr(),
                $parts.work.bytes.len(),
            )
        }
    };
}

pub fn encode_bits_at(rate: usize, layout: usize, parts: EncodingParts) -> u8 {
    encode_frame!(parts, hazgunek_encode_bits_at(rate, layout))
}

pub fn encode_bits_with(layout: usize, parts: EncodingParts) -> u8 {
    encode_frame!(parts, hazgunek_encode_bits_with(layout))
}

pub fn encode_bits(parts: EncodingParts) -> u8 {
    encode_frame!(parts, hazgunek_encode_bits())
}

/// The parts that every call that decodes a frame writes or works in, and the metrics.
pub struct DecodingParts<'a> {
    pub metrics: &'a [Float],
    pub rounds: &'a mut u32,
    pub bits: &'a mut [u8],
    pub posteriors: &'a mut [Float],
    pub work: Work<'a>,
}

/// Makes a call that decodes a frame, with its own arguments.
macro_rules! decode_frame {
    ($parts:ident, $name:ident($($own:expr),*)) => {
        unsafe {
            $name(
                $($own,)*
                $parts.rounds,
                $parts.bits.as_mut_ptr(),
                $parts.bits.len(),
                $parts.posteriors.as_mut_ptr(),
                $parts.posteriors.len(),
                $parts.work.words.as_mut_ptr(),
                $parts.work.words.len(),
                $parts.work.bytes.as_mut_ptr(),
                $parts.work.bytes.len(),
                $parts.work.floats.as_mut_ptr(),
                $parts.work.floats.len(),
            )
        }
    };
}

pub fn decode_bits_prior_at(
    rate: usize,
    layout: usize,
    prior: &[Float],
    fallback: usize,
    parts: DecodingParts,
) -> u8 {
    let (metrics, length) = (parts.metrics.as_ptr(), parts.metrics.len());
    decode_frame!(
        parts,
        hazgunek_decode_bits_prior_at(
            rate,
            layout,
            metrics,
            length,
            prior.as_ptr(),
            prior.len(),
            fallback
        )
    )
}

pub fn decode_bits_prior_fb(
    layout: usize,
    prior: &[Float],
    fallback: usize,
    parts: DecodingParts,
) -> u8 {
    let (metrics, length) = (parts.metrics.as_ptr(), parts.metrics.len());
    decode_frame!(
        parts,
        hazgunek_decode_bits_prior_fb(
            layout,
            metrics,
            length,
            prior.as_ptr(),
            prior.len(),
            fallback
        )
    )
}

pub fn decode_bits_prior_with(layout: usize, prior: &[Float], parts: DecodingParts) -> u8 {
    let (metrics, length) = (parts.metrics.as_ptr(), parts.metrics.len());
    decode_frame!(
        parts,
        hazgunek_decode_bits_prior_with(layout, metrics, length, prior.as_ptr(), prior.len())
    )
}

pub fn decode_bits_prior(prior: &[Float], parts: DecodingParts) -> u8 {
    let (metrics, length) = (parts.metrics.as_ptr(), parts.metrics.len());
    decode_frame!(
        parts,
        hazgunek_decode_bits_prior(metrics, length, prior.as_ptr(), prior.len())
    )
}

pub fn decode_bits(parts: DecodingParts) -> u8 {
    let (metrics, length) = (parts.metrics.as_ptr(), parts.metrics.len());
    decode_frame!(parts, hazgunek_decode_bits(metrics, length))
}
