//! The parts that a call on a lent code is lent, each guarded, and what must stand in them after
//! it.

use crate::abi::{self, OverCode, Received, Worked};
use crate::code::{
    A, COEF, COL, Code, INFO, NAMES, ORDER, PARITY, RANK, ROW, START, VAR, narrowed,
};
use crate::filling::Filling;
use crate::float::Float;
use crate::guarded::Guarded;
use crate::on_code::{Answer, Call};
use crate::report::Case;

/// A code's parts by the width of their entries, each kind in the order of a call.
const WIDE: [usize; 7] = [VAR, ROW, START, COL, ORDER, PARITY, INFO];
const NARROW: [usize; 2] = [COEF, A];

/// A code and the work parts as they are lent to a call.
pub struct LentCode {
    sizes: [usize; 3],
    rank: Guarded<usize>,
    wide: [Guarded<u16>; WIDE.len()],
    narrow: [Guarded<u8>; NARROW.len()],
    h: Guarded<u8>,
    pivots: Guarded<u16>,
}

impl LentCode {
    /// The filling stands in the work parts, which have these lengths, and around every part.
    pub fn new(code: &Code, [h, pivots]: [usize; 2], filling: &Filling) -> Self {
        let narrow = |part: usize| Guarded::new(&narrowed(&code.parts[part]), filling.narrow);
        Self {
            sizes: [code.n, code.m, code.edges],
            rank: Guarded::new(&[code.rank], filling.number),
            wide: WIDE.map(|part| Guarded::new(&code.parts[part], filling.wide)),
            narrow: NARROW.map(narrow),
            h: Guarded::new(&vec![filling.narrow; h], filling.narrow),
            pivots: Guarded::new(&vec![filling.wide; pivots], filling.wide),
        }
    }

    /// To a call that writes over the code, or only reads it.
    fn lend(&mut self) -> OverCode<'_> {
        let [n, m, edges] = self.sizes;
        let [var, row, start, col, order, parity, info] = self.wide.each_mut().map(Guarded::lend);
        let [coef, a] = self.narrow.each_mut().map(Guarded::lend);
        OverCode {
            n,
            m,
            edges,
            rank: self.rank.lend_one(),
            graph: [var, row, start, col],
            coef,
            encoder: [order, parity, info],
            a,
            h: self.h.lend(),
            pivots: self.pivots.lend(),
        }
    }

    /// Puts back what a call wrote over: rank and parts of a code of the same sizes.
    pub fn put(&mut self, code: &Code) {
        *self.rank.lend_one() = code.rank;
        for (lent, part) in self.wide.iter_mut().zip(WIDE) {
            lent.lend().copy_from_slice(&code.parts[part]);
        }
        for (lent, part) in self.narrow.iter_mut().zip(NARROW) {
            lent.lend().copy_from_slice(&narrowed(&code.parts[part]));
        }
    }

    /// A call leaves this code, and 0 in the work parts; only numbers 2 and 3 leave those as they
    /// were.
    pub fn compare(&self, case: &mut Case, code: &Code, filling: &Filling, number: u8) {
        self.rank.compare_one(case, NAMES[RANK], code.rank);
        for (lent, part) in self.wide.iter().zip(WIDE) {
            lent.compare(case, NAMES[part], &code.parts[part]);
        }
        for (lent, part) in self.narrow.iter().zip(NARROW) {
            lent.compare(case, NAMES[part], &narrowed(&code.parts[part]));
        }
        let (narrow, wide) = match number {
            2 | 3 => (filling.narrow, filling.wide),
            _ => (0, 0),
        };
        let (h, pivots) = (self.h.part().len(), self.pivots.part().len());
        self.h.compare(case, "work part h", &vec![narrow; h]);
        self.pivots
            .compare(case, "work part pivots", &vec![wide; pivots]);
    }
}

/// The parts that a call has beside the code: what it reads, an output of each kind, and the work
/// part of a decoding. Those that it does not have are not lent to it.
pub struct LentOwn {
    given: Guarded<u8>,
    prefer: Guarded<i64>,
    metrics: Guarded<Float>,
    found: Guarded<usize>,
    ok: Guarded<u8>,
    symbols: Guarded<u8>,
    positions: Guarded<u16>,
    rounds: Guarded<u32>,
    posteriors: Guarded<Float>,
    vectors: Guarded<Float>,
}

impl LentOwn {
    /// The filling stands in every output and work part, and around every part.
    pub fn new(call: &Call, filling: &Filling) -> Self {
        let (symbols, positions) = match *call {
            Call::Encode { word, .. } => (word, 0),
            Call::InfoOf { syms, .. } => (syms, 0),
            Call::InfoPositions { positions } => (0, positions),
            Call::PeelPicks { picks, .. } => (0, picks),
            Call::Decode(ref decoding) => (decoding.word, 0),
            Call::ListDecode(ref list) => (list.word, 0),
            _ => (0, 0),
        };
        let vectors = match call {
            Call::Decode(decoding) => decoding.vectors,
            _ => 0,
        };
        Self {
            given: Guarded::new(call.given(), filling.narrow),
            prefer: Guarded::new(call.prefer(), filling.number as i64),
            metrics: Guarded::new(call.metrics(), filling.float()),
            found: Guarded::new(&[filling.number], filling.number),
            ok: Guarded::new(&[filling.narrow], filling.narrow),
            symbols: Guarded::new(&vec![filling.narrow; symbols], filling.narrow),
            positions: Guarded::new(&vec![filling.wide; positions], filling.wide),
            rounds: Guarded::new(&[filling.long()], filling.long()),
            posteriors: Guarded::new(&call.posteriors(filling), filling.float()),
            vectors: Guarded::new(&vec![filling.float(); vectors], filling.float()),
        }
    }

    /// Makes the call, and gives its number.
    pub fn call(&mut self, call: &Call, code: &mut LentCode) -> u8 {
        let (given, prefer) = (self.given.lend(), self.prefer.lend());
        if let Call::WithPeeledInfo { .. } = call {
            return abi::with_peeled_info(code.lend(), prefer);
        }
        let (on, found) = (code.lend().read_only(), self.found.lend_one());
        let (symbols, positions) = (self.symbols.lend(), self.positions.lend());
        match *call {
            Call::Encode { .. } => abi::encode(on, given, symbols),
            Call::InfoOf { .. } => abi::info_of(on, given, found, symbols),
            Call::ChecksOk { .. } => abi::checks_ok(on, given, self.ok.lend_one()),
            Call::Degree { v } => abi::degree(on, v, found),
            Call::K => abi::k(on, found),
            Call::N => abi::n(on, found),
            Call::InfoPositions { .. } => abi::info_positions(on, found, positions),
            Call::PeelPicks { .. } => abi::peel_picks(on, prefer, found, positions),
            Call::WithPeeledInfo { .. } => unreachable!("it writes over the code"),
            Call::Decode(ref decoding) => {
                let received = Received {
                    metrics: self.metrics.lend(),
                    known: decoding.known,
                    limit: decoding.limit,
                };
                let worked = Worked {
                    rounds: self.rounds.lend_one(),
                    word: symbols,
                    vectors: self.vectors.lend(),
                };
                match decoding.posteriors {
                    Some(_) => abi::decode_soft(on, received, worked, self.posteriors.lend()),
                    None => abi::decode(on, received, worked),
                }
            }
            Call::ListDecode(ref list) => abi::list_decode(
                on,
                self.metrics.lend(),
                self.posteriors.lend(),
                list.width,
                self.rounds.lend_one(),
                symbols,
            ),
        }
    }

    /// The rounds that a decoding reported.
    pub fn rounds(&self) -> u32 {
        self.rounds.part()[0]
    }

    /// A call leaves what it reads as it was, and the answer in its outputs, or what was there. The
    /// work part is as those of the code are.
    pub fn compare(&self, case: &mut Case, call: &Call, filling: &Filling, answer: &Answer) {
        self.given.compare(case, "symbols read", call.given());
        self.prefer.compare(case, "preferences", call.prefer());
        self.metrics.compare(case, "metrics", call.metrics());
        let found = answer.found.unwrap_or(filling.number);
        self.found.compare_one(case, "number found", found);
        let ok = answer.ok.unwrap_or(filling.narrow);
        self.ok.compare_one(case, "ok", ok);
        let before = vec![filling.narrow; self.symbols.part().len()];
        let symbols = answer.symbols.as_ref().unwrap_or(&before);
        self.symbols.compare(case, "symbols", symbols);
        let before = vec![filling.wide; self.positions.part().len()];
        let positions = answer.positions.as_ref().unwrap_or(&before);
        self.positions.compare(case, "positions", positions);
        self.compare_decoding(case, call, filling, answer);
    }

    fn compare_decoding(&self, case: &mut Case, call: &Call, filling: &Filling, answer: &Answer) {
        let rounds = answer.rounds.unwrap_or(filling.long());
        self.rounds.compare_one(case, "rounds", rounds);
        let before = call.posteriors(filling);
        let posteriors = answer.posteriors.as_ref().unwrap_or(&before);
        self.posteriors.compare(case, "posteriors", posteriors);
        let left = match answer.number {
            2 | 3 => filling.float(),
            _ => Float::of_bits(0),
        };
        let vectors = vec![left; self.vectors.part().len()];
        self.vectors.compare(case, "work part vectors", &vectors);
    }
}
