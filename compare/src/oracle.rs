//! The original: build.rs's copies of nb.rs, beside the enum `Rate` of fec.rs, which they use.

// Not all of the original is called.
#[allow(dead_code)]
mod fec {
    include!(concat!(env!("OUT_DIR"), "/rate.rs"));

    /// With document 01's stand-ins: what ours is held to.
    pub mod nb {
        include!(concat!(env!("OUT_DIR"), "/nb.rs"));
    }

    /// With the Rust's own exp and ln.
    pub mod nb_own {
        include!(concat!(env!("OUT_DIR"), "/nb_own.rs"));
    }
}

pub use fec::Rate;
pub use fec::nb::{
    BitMap, CHECKIN_VARIABLE_BITS, Fallback, GF, InfoSet, Layout, NbCode, RATES, Tables,
    bits_to_syms, code_at, decode_bits, decode_bits_prior, decode_bits_prior_at,
    decode_bits_prior_fb, decode_bits_prior_with, decode_bits_told, degrees_for, encode_bits,
    encode_bits_at, encode_bits_with, even_degrees, mix, n_for,
};
pub use fec::nb_own::NbCode as OwnCode;

/// A frame's decoding with the Rust's own exp and ln.
pub mod own {
    pub use super::fec::nb_own::{BitMap, Fallback, InfoSet, Layout, decode_bits_told};
}

/// Since `with_peeled_info` takes a code and gives another.
impl Clone for NbCode {
    fn clone(&self) -> Self {
        Self {
            n: self.n,
            m: self.m,
            edges: self.edges.clone(),
            row: self.row.clone(),
            col: self.col.clone(),
            info: self.info.clone(),
            parity: self.parity.clone(),
            a: self.a.clone(),
        }
    }
}

/// The same code for the Rust's own exp and ln.
impl From<&NbCode> for OwnCode {
    fn from(code: &NbCode) -> Self {
        Self {
            n: code.n,
            m: code.m,
            edges: code.edges.clone(),
            row: code.row.clone(),
            col: code.col.clone(),
            info: code.info.clone(),
            parity: code.parity.clone(),
            a: code.a.clone(),
        }
    }
}
