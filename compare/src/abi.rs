//! The static library's calls, each behind a safe function that lends its parts.
//!
//! Nothing checks the declarations: the linker goes by names alone. They are kept in step with
//! include/hazgunek.h by hand, and stand in its order.

use crate::float::Float;

unsafe extern "C" {
    fn hazgunek_mul(a: u8, b: u8, product: *mut u8) -> u8;
    fn hazgunek_inv(a: u8, inverse: *mut u8) -> u8;
    fn hazgunek_draws(state: *mut u64, draws: *mut u64, draws_len: usize) -> u8;
    fn hazgunek_even_degrees(n: usize, e: usize, degrees: *mut usize, degrees_len: usize) -> u8;
    fn hazgunek_new(
        n: usize,
        m: usize,
        seed: u64,
        degrees: *const usize,
        degrees_len: usize,
        edges: *mut usize,
        rank: *mut usize,
        var: *mut u16,
        var_len: usize,
        coef: *mut u8,
        coef_len: usize,
        row: *mut u16,
        row_len: usize,
        start: *mut u16,
        start_len: usize,
        col: *mut u16,
        col_len: usize,
        order: *mut u16,
        order_len: usize,
        parity: *mut u16,
        parity_len: usize,
        info: *mut u16,
        info_len: usize,
        a: *mut u8,
        a_len: usize,
        chk: *mut u8,
        chk_len: usize,
        load: *mut u16,
        load_len: usize,
        own: *mut u8,
        own_len: usize,
        deg: *mut u16,
        deg_len: usize,
    ) -> u8;
}

/// Declares calls on a lent code, its rank being lent as said, and by the pointers said the parts that
/// go by its column order. Before a call's own arguments stand those of the code, after them the work
/// parts that all have, and then what stands past a semicolon.
macro_rules! calls_on_code {
    (
        rank: $rank:ty, encoder: *$encoder:tt;
        $(fn $name:ident($($own:ident: $kind:ty),*$(; $($more:ident: $more_kind:ty),*)?);)*
    ) => {
        unsafe extern "C" {
            $(fn $name(
                n: usize,
                m: usize,
                edges: usize,
                rank: $rank,
                var: *const u16,
                var_len: usize,
                coef: *const u8,
                coef_len: usize,
                row: *const u16,
                row_len: usize,
                start: *const u16,
                start_len: usize,
                col: *const u16,
                col_len: usize,
                order: *$encoder u16,
                order_len: usize,
                parity: *$encoder u16,
                parity_len: usize,
                info: *$encoder u16,
                info_len: usize,
                a: *$encoder u8,
                a_len: usize,
                $($own: $kind,)*
                h: *mut u8,
                h_len: usize,
                pivots: *mut u16,
                pivots_len: usize,
                $($($more: $more_kind,)*)?
            ) -> u8;)*
        }
    };
}

calls_on_code! {
    rank: usize, encoder: *const;
    fn hazgunek_encode(syms: *const u8, syms_len: usize, word: *mut u8, word_len: usize);
    fn hazgunek_info_of(
        word: *const u8,
        word_len: usize,
        count: *mut usize,
        syms: *mut u8,
        syms_len: usize
    );
    fn hazgunek_checks_ok(word: *const u8, word_len: usize, ok: *mut u8);
    fn hazgunek_degree(v: usize, degree: *mut usize);
    fn hazgunek_k(k: *mut usize);
    fn hazgunek_n(symbols: *mut usize);
    fn hazgunek_info_positions(count: *mut usize, positions: *mut u16, positions_len: usize);
    fn hazgunek_peel_picks(
        prefer: *const i64,
        prefer_len: usize,
        count: *mut usize,
        picks: *mut u16,
        picks_len: usize
    );
    fn hazgunek_decode_soft(
        metrics: *const Float,
        metrics_len: usize,
        known: u32,
        limit: u32,
        rounds: *mut u32,
        word: *mut u8,
        word_len: usize,
        posteriors: *mut Float,
        posteriors_len: usize;
        vectors: *mut Float,
        vectors_len: usize
    );
    fn hazgunek_decode(
        metrics: *const Float,
        metrics_len: usize,
        known: u32,
        limit: u32,
        rounds: *mut u32,
        word: *mut u8,
        word_len: usize;
        vectors: *mut Float,
        vectors_len: usize
    );
    fn hazgunek_list_decode(
        metrics: *const Float,
        metrics_len: usize,
        posteriors: *const Float,
        posteriors_len: usize,
        width: usize,
        rounds: *mut u32,
        word: *mut u8,
        word_len: usize
    );
}

calls_on_code! {
    rank: *mut usize, encoder: *mut;
    fn hazgunek_with_peeled_info(prefer: *const i64, prefer_len: usize);
}

// What the library asks of every pointer (not null, as many elements as said, no overlap) is true
// of Rust's references, so each call below is safe.

#[inline]
pub fn mul(a: u8, b: u8, product: &mut u8) -> u8 {
    unsafe { hazgunek_mul(a, b, product) }
}

#[inline]
pub fn inv(a: u8, inverse: &mut u8) -> u8 {
    unsafe { hazgunek_inv(a, inverse) }
}

#[inline]
pub fn draws(state: &mut u64, draws: &mut [u64]) -> u8 {
    unsafe { hazgunek_draws(state, draws.as_mut_ptr(), draws.len()) }
}

#[inline]
pub fn even_degrees(n: usize, e: usize, degrees: &mut [usize]) -> u8 {
    unsafe { hazgunek_even_degrees(n, e, degrees.as_mut_ptr(), degrees.len()) }
}

/// The parts that `new` is lent beside the degrees. Those with a length stand by the width of their
/// entries, each kind in the order of the call.
pub struct NewParts<'a> {
    pub edges: &'a mut usize,
    pub rank: &'a mut usize,
    pub wide: [&'a mut [u16]; 9],
    pub narrow: [&'a mut [u8]; 4],
}

#[inline]
pub fn new(n: usize, m: usize, seed: u64, degrees: &[usize], parts: NewParts) -> u8 {
    let [var, row, start, col, order, parity, info, load, deg] = parts.wide;
    let [coef, a, chk, own] = parts.narrow;
    unsafe {
        hazgunek_new(
            n,
            m,
            seed,
            degrees.as_ptr(),
            degrees.len(),
            parts.edges,
            parts.rank,
            var.as_mut_ptr(),
            var.len(),
            coef.as_mut_ptr(),
            coef.len(),
            row.as_mut_ptr(),
            row.len(),
            start.as_mut_ptr(),
            start.len(),
            col.as_mut_ptr(),
            col.len(),
            order.as_mut_ptr(),
            order.len(),
            parity.as_mut_ptr(),
            parity.len(),
            info.as_mut_ptr(),
            info.len(),
            a.as_mut_ptr(),
            a.len(),
            chk.as_mut_ptr(),
            chk.len(),
            load.as_mut_ptr(),
            load.len(),
            own.as_mut_ptr(),
            own.len(),
            deg.as_mut_ptr(),
            deg.len(),
        )
    }
}

/// A lent code of which a call writes over all but the graph, and the call's work parts. Of the graph
/// and of what goes by the column order the parts with wide entries stand in the order of the call.
pub struct OverCode<'a> {
    pub n: usize,
    pub m: usize,
    pub edges: usize,
    pub rank: &'a mut usize,
    pub graph: [&'a [u16]; 4],
    pub coef: &'a [u8],
    pub encoder: [&'a mut [u16]; 3],
    pub a: &'a mut [u8],
    pub h: &'a mut [u8],
    pub pivots: &'a mut [u16],
}

/// The same of a code that a call only reads.
pub struct OnCode<'a> {
    n: usize,
    m: usize,
    edges: usize,
    rank: usize,
    graph: [&'a [u16]; 4],
    coef: &'a [u8],
    encoder: [&'a [u16]; 3],
    a: &'a [u8],
    h: &'a mut [u8],
    pivots: &'a mut [u16],
}

impl<'a> OverCode<'a> {
    pub fn read_only(self) -> OnCode<'a> {
        OnCode {
            n: self.n,
            m: self.m,
            edges: self.edges,
            rank: *self.rank,
            graph: self.graph,
            coef: self.coef,
            encoder: self.encoder.map(|part| &*part),
            a: self.a,
            h: self.h,
            pivots: self.pivots,
        }
    }
}

/// Makes a call on a lent code, with its own arguments; `$pointer` gives the pointers to the parts
/// that go by the column order.
macro_rules! call_on_code {
    ($on:ident, $pointer:ident, $name:ident($($own:expr),*$(; $($more:expr),*)?)) => {{
        let [var, row, start, col] = $on.graph;
        let [order, parity, info] = $on.encoder;
        unsafe {
            $name(
                $on.n,
                $on.m,
                $on.edges,
                $on.rank,
                var.as_ptr(),
                var.len(),
                $on.coef.as_ptr(),
                $on.coef.len(),
                row.as_ptr(),
                row.len(),
                start.as_ptr(),
                start.len(),
                col.as_ptr(),
                col.len(),
                order.$pointer(),
                order.len(),
                parity.$pointer(),
                parity.len(),
                info.$pointer(),
                info.len(),
                $on.a.$pointer(),
                $on.a.len(),
                $($own,)*
                $on.h.as_mut_ptr(),
                $on.h.len(),
                $on.pivots.as_mut_ptr(),
                $on.pivots.len(),
                $($($more,)*)?
            )
        }
    }};
}

pub fn encode(on: OnCode, syms: &[u8], word: &mut [u8]) -> u8 {
    call_on_code!(
        on,
        as_ptr,
        hazgunek_encode(syms.as_ptr(), syms.len(), word.as_mut_ptr(), word.len())
    )
}

pub fn info_of(on: OnCode, word: &[u8], count: &mut usize, syms: &mut [u8]) -> u8 {
    call_on_code!(
        on,
        as_ptr,
        hazgunek_info_of(
            word.as_ptr(),
            word.len(),
            count,
            syms.as_mut_ptr(),
            syms.len()
        )
    )
}

pub fn checks_ok(on: OnCode, word: &[u8], ok: &mut u8) -> u8 {
    call_on_code!(
        on,
        as_ptr,
        hazgunek_checks_ok(word.as_ptr(), word.len(), ok)
    )
}

pub fn degree(on: OnCode, v: usize, degree: &mut usize) -> u8 {
    call_on_code!(on, as_ptr, hazgunek_degree(v, degree))
}

pub fn k(on: OnCode, k: &mut usize) -> u8 {
    call_on_code!(on, as_ptr, hazgunek_k(k))
}

pub fn n(on: OnCode, symbols: &mut usize) -> u8 {
    call_on_code!(on, as_ptr, hazgunek_n(symbols))
}

pub fn info_positions(on: OnCode, count: &mut usize, positions: &mut [u16]) -> u8 {
    call_on_code!(
        on,
        as_ptr,
        hazgunek_info_positions(count, positions.as_mut_ptr(), positions.len())
    )
}

pub fn peel_picks(on: OnCode, prefer: &[i64], count: &mut usize, picks: &mut [u16]) -> u8 {
    call_on_code!(
        on,
        as_ptr,
        hazgunek_peel_picks(
            prefer.as_ptr(),
            prefer.len(),
            count,
            picks.as_mut_ptr(),
            picks.len()
        )
    )
}

pub fn with_peeled_info(over: OverCode, prefer: &[i64]) -> u8 {
    call_on_code!(
        over,
        as_mut_ptr,
        hazgunek_with_peeled_info(prefer.as_ptr(), prefer.len())
    )
}

/// What a decoding is given beside the code.
pub struct Received<'a> {
    pub metrics: &'a [Float],
    pub known: u32,
    pub limit: u32,
}

/// The parts that both decodings write.
pub struct Worked<'a> {
    pub rounds: &'a mut u32,
    pub word: &'a mut [u8],
    pub vectors: &'a mut [Float],
}

pub fn decode_soft(on: OnCode, received: Received, worked: Worked, posteriors: &mut [Float]) -> u8 {
    call_on_code!(
        on,
        as_ptr,
        hazgunek_decode_soft(
            received.metrics.as_ptr(),
            received.metrics.len(),
            received.known,
            received.limit,
            worked.rounds,
            worked.word.as_mut_ptr(),
            worked.word.len(),
            posteriors.as_mut_ptr(),
            posteriors.len();
            worked.vectors.as_mut_ptr(),
            worked.vectors.len()
        )
    )
}

pub fn decode(on: OnCode, received: Received, worked: Worked) -> u8 {
    call_on_code!(
        on,
        as_ptr,
        hazgunek_decode(
            received.metrics.as_ptr(),
            received.metrics.len(),
            received.known,
            received.limit,
            worked.rounds,
            worked.word.as_mut_ptr(),
            worked.word.len();
            worked.vectors.as_mut_ptr(),
            worked.vectors.len()
        )
    )
}

pub fn list_decode(
    on: OnCode,
    metrics: &[Float],
    posteriors: &[Float],
    width: usize,
    rounds: &mut u32,
    word: &mut [u8],
) -> u8 {
    call_on_code!(
        on,
        as_ptr,
        hazgunek_list_decode(
            metrics.as_ptr(),
            metrics.len(),
            posteriors.as_ptr(),
            posteriors.len(),
            width,
            rounds,
            word.as_mut_ptr(),
            word.len()
        )
    )
}
