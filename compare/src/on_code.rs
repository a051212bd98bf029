//! One call on a lent code: what it is asked, and what document 01 and the original make of it.

use crate::candidates::Candidates;
use crate::code::{Code, NAMES};
use crate::decode_call::Decoding;
use crate::filling::{BEFORE, Filling};
use crate::float::Float;
use crate::judge::judged;
use crate::lent_code::{LentCode, LentOwn};
use crate::list_decode_call::ListDecoding;
use crate::oracle::NbCode;
use crate::report::{Case, HeldTo, Tally};
use crate::rounds::Rounds;
use crate::ties::Ties;
use std::fmt;

/// A lent code: its name in a report, and what document 01 says of it.
pub struct Judged {
    pub name: String,
    pub code: Code,
    pub verdict: Result<NbCode, u8>,
}

impl Judged {
    pub fn new(name: String, code: Code) -> Self {
        let verdict = judged(&code);
        Self {
            name,
            code,
            verdict,
        }
    }

    /// The original's code, where the lent one is not refused.
    pub fn built(&self) -> &NbCode {
        match &self.verdict {
            Ok(built) => built,
            Err(number) => panic!("{} is refused by {number}", self.name),
        }
    }
}

/// A call with what it reads beside the code, and the length of the part that it fills. `Decode` is
/// `decode_soft` where it has posteriors, and `decode` where it has none.
#[derive(Clone)]
pub enum Call {
    Encode { syms: Vec<u8>, word: usize },
    InfoOf { word: Vec<u8>, syms: usize },
    ChecksOk { word: Vec<u8> },
    Degree { v: usize },
    K,
    N,
    InfoPositions { positions: usize },
    PeelPicks { prefer: Vec<i64>, picks: usize },
    WithPeeledInfo { prefer: Vec<i64> },
    Decode(Decoding),
    ListDecode(ListDecoding),
}

/// The calls' names, in the order of the header.
pub const CALLS: [&str; 12] = [
    "encode",
    "info_of",
    "checks_ok",
    "degree",
    "k",
    "n",
    "info_positions",
    "peel_picks",
    "with_peeled_info",
    "decode_soft",
    "decode",
    "list_decode",
];

impl Call {
    /// Its place among all calls.
    pub fn index(&self) -> usize {
        match self {
            Call::Encode { .. } => 0,
            Call::InfoOf { .. } => 1,
            Call::ChecksOk { .. } => 2,
            Call::Degree { .. } => 3,
            Call::K => 4,
            Call::N => 5,
            Call::InfoPositions { .. } => 6,
            Call::PeelPicks { .. } => 7,
            Call::WithPeeledInfo { .. } => 8,
            Call::Decode(decoding) if decoding.posteriors.is_some() => 9,
            Call::Decode(_) => 10,
            Call::ListDecode(_) => 11,
        }
    }

    /// The symbols that it reads.
    pub fn given(&self) -> &[u8] {
        match self {
            Call::Encode { syms, .. } => syms,
            Call::InfoOf { word, .. } | Call::ChecksOk { word } => word,
            _ => &[],
        }
    }

    /// The preferences that it reads.
    pub fn prefer(&self) -> &[i64] {
        match self {
            Call::PeelPicks { prefer, .. } | Call::WithPeeledInfo { prefer } => prefer,
            _ => &[],
        }
    }

    /// The metrics that it reads.
    pub fn metrics(&self) -> &[Float] {
        match self {
            Call::Decode(decoding) => &decoding.metrics.floats,
            Call::ListDecode(list) => &list.metrics.floats,
            _ => &[],
        }
    }

    /// What stands in its posteriors beforehand: what it reads there, or the filling.
    pub fn posteriors(&self, filling: &Filling) -> Vec<Float> {
        match self {
            Call::Decode(decoding) => vec![filling.float(); decoding.posteriors.unwrap_or(0)],
            Call::ListDecode(list) => list.posteriors.floats.clone(),
            _ => vec![],
        }
    }

    /// Whether its own parts have their lengths: "preferences, words .. n", and the output parts,
    /// which docs/PARTS.md gives that length. Information symbols for `encode` may have any.
    fn fits(&self, n: usize) -> bool {
        let lengths = match self {
            Call::Encode { word, .. } => vec![*word],
            Call::InfoOf { word, syms } => vec![word.len(), *syms],
            Call::ChecksOk { word } => vec![word.len()],
            Call::InfoPositions { positions } => vec![*positions],
            Call::PeelPicks { prefer, picks } => vec![prefer.len(), *picks],
            Call::WithPeeledInfo { prefer } => vec![prefer.len()],
            Call::Degree { .. } | Call::K | Call::N => vec![],
            Call::Decode(decoding) => return decoding.fits(n),
            Call::ListDecode(list) => return list.fits(n),
        };
        lengths.iter().all(|&length| length == n)
    }

    /// Number 8: "A word symbol above 31 .., a position not below n, more information symbols than
    /// the code has, a list width above 16, or a posterior not finite".
    fn is_out_of_range(&self, built: &NbCode) -> bool {
        match self {
            Call::Encode { syms, .. } => syms.len() > built.info.len(),
            Call::InfoOf { word, .. } | Call::ChecksOk { word } => word.iter().any(|&x| x > 31),
            Call::Degree { v } => *v >= built.n,
            Call::ListDecode(list) => list.is_out_of_range(),
            _ => false,
        }
    }
}

impl fmt::Display for Call {
    fn fmt(&self, f: &mut fmt::Formatter) -> fmt::Result {
        write!(f, "{}", CALLS[self.index()])?;
        match self {
            Call::Encode { syms, word } => write!(f, "({syms:?}, word of {word})"),
            Call::InfoOf { word, syms } => write!(f, "({word:?}, symbols of {syms})"),
            Call::ChecksOk { word } => write!(f, "({word:?})"),
            Call::Degree { v } => write!(f, "({v})"),
            Call::K | Call::N => Ok(()),
            Call::InfoPositions { positions } => write!(f, "(positions of {positions})"),
            Call::PeelPicks { prefer, picks } => write!(f, "({prefer:?}, picks of {picks})"),
            Call::WithPeeledInfo { prefer } => write!(f, "({prefer:?})"),
            Call::Decode(decoding) => write!(f, "{decoding}"),
            Call::ListDecode(list) => write!(f, "{list}"),
        }
    }
}

/// The lengths of the work parts `h` and `pivots`.
pub const WORK: [usize; 2] = [65_536, 256];

/// What a call is asked: the code, the call, and the lengths of its work parts.
pub struct Asked<'a> {
    pub on: &'a Judged,
    pub call: Call,
    pub work: [usize; 2],
}

/// Document 01's number, 0 where the call is not turned down, and what it puts in its outputs;
/// nothing where it has none of that kind or leaves it as it was.
#[derive(Default)]
pub struct Answer {
    pub number: u8,
    /// The count, the degree, k or n.
    pub found: Option<usize>,
    pub ok: Option<u8>,
    pub symbols: Option<Vec<u8>>,
    pub positions: Option<Vec<u16>>,
    /// A decoding has them whatever its number is.
    pub rounds: Option<u32>,
    pub posteriors: Option<Vec<Float>>,
    /// The code, where it is written over.
    pub code: Option<Code>,
}

impl Answer {
    /// Positions at the front of a part of n, and how many they are.
    fn set_positions(&mut self, positions: &[usize], n: usize) {
        let narrow = positions.iter().map(|&position| position as u16).collect();
        self.found = Some(positions.len());
        self.positions = Some(padded(narrow, n));
    }
}

impl<'a> Asked<'a> {
    pub fn new(on: &'a Judged, call: Call) -> Self {
        Self {
            on,
            call,
            work: WORK,
        }
    }

    /// Document 01's number where the call is turned down before its work, else 0.
    fn refusal(&self) -> u8 {
        match (&self.on.verdict, &self.call) {
            (Err(2), _) => 2,
            _ if self.work != WORK || !self.call.fits(self.on.code.n) => 3,
            (Err(number), _) => *number,
            (Ok(built), call) if call.is_out_of_range(built) => 8,
            (Ok(built), Call::Decode(decoding)) if decoding.is_above_degree(built) => 9,
            _ => 0,
        }
    }

    /// The original's answer, nothing but a number where the call is turned down before its work.
    pub fn answer(&self) -> Answer {
        let mut answer = Answer {
            number: self.refusal(),
            // "zero for refusals 1 to 9"; "the list decoder called by itself reports 0"
            rounds: matches!(self.call, Call::Decode(_) | Call::ListDecode(_)).then_some(0),
            ..Answer::default()
        };
        if answer.number != 0 {
            return answer;
        }
        let built = self.on.built();
        match &self.call {
            Call::Encode { syms, .. } => answer.symbols = Some(built.encode(syms)),
            Call::InfoOf { word, .. } => {
                let symbols = built.info_of(word);
                answer.found = Some(symbols.len());
                answer.symbols = Some(padded(symbols, built.n));
            }
            Call::ChecksOk { word } => answer.ok = Some(built.checks_ok(word).into()),
            Call::Degree { v } => answer.found = Some(built.degree(*v)),
            Call::K => answer.found = Some(built.k()),
            Call::N => answer.found = Some(built.n()),
            Call::InfoPositions { .. } => answer.set_positions(built.info_positions(), built.n),
            Call::PeelPicks { prefer, .. } => {
                answer.set_positions(&built.peel_picks(|v| prefer[v]), built.n);
            }
            Call::WithPeeledInfo { prefer } => answer.code = Some(Code::peeled(built, prefer)),
            Call::Decode(decoding) => {
                let decoded = decoding.decoded(built);
                answer.number = decoded.number;
                answer.rounds = Some(decoded.rounds);
                answer.symbols = decoded.word;
                answer.posteriors = decoding.posteriors.map(|_| decoded.posteriors);
            }
            Call::ListDecode(list) => answer.symbols = Some(list.decoded(built)),
        }
        answer
    }

    /// The call with both fillings.
    fn compare(&self, tally: &mut Tally, answer: &Answer) {
        let left = answer.code.as_ref().unwrap_or(&self.on.code);
        let held_to = match answer.number {
            // The original's rounds end without a word too.
            0 | 10 => HeldTo::Rust,
            _ => HeldTo::Document,
        };
        for filling in &BEFORE {
            let mut code = LentCode::new(&self.on.code, self.work, filling);
            let mut own = LentOwn::new(&self.call, filling);
            let mut case = Case::held_to(held_to);
            case.value("number", own.call(&self.call, &mut code), answer.number);
            code.compare(&mut case, left, filling, answer.number);
            own.compare(&mut case, &self.call, filling, answer);
            tally.count(case, || {
                format!("{self} with {} in each byte", filling.narrow)
            });
        }
    }
}

/// A code of no more edges is printed whole, each part up to its last entry that is not 0.
const PRINTED_EDGES: usize = 12;

impl fmt::Display for Asked<'_> {
    fn fmt(&self, f: &mut fmt::Formatter) -> fmt::Result {
        write!(f, "{} of {}", self.call, self.on.name)?;
        let Code {
            n, m, edges, rank, ..
        } = self.on.code;
        write!(f, " (n {n}, m {m}, edges {edges}, rank {rank}")?;
        if edges <= PRINTED_EDGES {
            for (name, part) in NAMES.iter().zip(&self.on.code.parts) {
                let used = part.iter().rposition(|&entry| entry != 0);
                write!(f, ", {name} {:?}", &part[..used.map_or(0, |last| last + 1)])?;
            }
        }
        write!(f, ")")?;
        if self.work != WORK {
            write!(f, " with work parts of {:?}", self.work)?;
        }
        Ok(())
    }
}

/// "Where an answer is shorter than its output part, .. the rest of the part is 0."
fn padded<T: Clone + Default>(mut answer: Vec<T>, length: usize) -> Vec<T> {
    answer.resize(length, T::default());
    answer
}

/// The cases of each call, the ties among those of `peel_picks` that are not turned down, the rounds
/// of those of `decode_soft`, and the candidates of those of `list_decode`.
pub struct Tallies {
    calls: [Tally; CALLS.len()],
    ties: Ties,
    rounds: Rounds,
    candidates: Candidates,
}

impl Tallies {
    pub fn new() -> Self {
        Self {
            calls: CALLS.map(Tally::new),
            ties: Ties::default(),
            rounds: Rounds::default(),
            candidates: Candidates::default(),
        }
    }

    /// Tells whether nothing differs.
    pub fn ask(&mut self, asked: &Asked) -> bool {
        let answer = asked.answer();
        let tally = &mut self.calls[asked.call.index()];
        let before = tally.differences();
        asked.compare(tally, &answer);
        let are_same = tally.differences() == before;
        match (&asked.call, answer.number) {
            (Call::PeelPicks { prefer, .. }, 0) => self.ties.count(asked.on.built(), prefer),
            (Call::Decode(decoding), number) if decoding.posteriors.is_some() => {
                self.rounds.count(number, answer.rounds.unwrap_or(0));
            }
            (Call::ListDecode(list), 0) => {
                let word = answer.symbols.expect("a word is found");
                self.candidates.count(asked.on.built(), list, &word);
            }
            (Call::ListDecode(_), number) => self.candidates.turn_down(number),
            _ => (),
        }
        are_same
    }

    pub fn ask_all(&mut self, on: &Judged, calls: Vec<Call>) {
        for call in calls {
            self.ask(&Asked::new(on, call));
        }
    }

    /// Prints each call's line and gives the differences of all.
    pub fn finish(self) -> u64 {
        let differences = self.calls.into_iter().map(Tally::finish).sum();
        self.ties.finish();
        self.rounds.finish();
        self.candidates.finish();
        differences
    }
}
