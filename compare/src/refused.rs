//! Lent codes that are refused, by each number, and damaged ones that are not.

use crate::calls::each_call;
use crate::code::{Code, EDGES, LENGTHS, N, NAMES, ROW, START, VAR};
use crate::codes;
use crate::damage::{Change, at_random, changed, each_change, number_changes};
use crate::decode_call::{Decoding, VECTORS};
use crate::likelihoods::Likelihoods;
use crate::list_decode_call::ListDecoding;
use crate::on_code::{Asked, Call, Judged, Tallies, WORK};
use crate::oracle::NbCode;
use crate::random::Random;

pub fn compare(tallies: &mut Tallies) {
    compare_lengths(tallies);
    compare_numbers(tallies);
    compare_edge_counts(tallies);
    compare_damage(tallies);
}

/// A small code, and one with a check without edges and a rank below m: both small enough for every
/// damage.
fn bases() -> [Judged; 2] {
    let mut random = Random::new();
    let built = NbCode::new(6, 3, &[2, 1, 2, 1, 0, 2], 1);
    let small = Code::of_new(&built);
    let twice = vec![(0, 3), (2, 31), (4, 1)];
    let checks = vec![twice.clone(), vec![], vec![(3, 7), (0, 1)], twice];
    [
        Judged::new("a small code".to_string(), small),
        Judged::new(
            "a small code of lower rank".to_string(),
            codes::laid_out(&mut random, 5, &checks),
        ),
    ]
}

/// Each part of each call one short, one long and empty, also together with other faults.
fn compare_lengths(tallies: &mut Tallies) {
    let mut random = Random::new();
    let ends = codes::ends();
    let greatest = ends.iter().max_by_key(|on| (on.code.n, on.code.edges));
    for base in bases().iter().chain(greatest) {
        // 2 goes before 3, and 3 before 6.
        let too_large = changed(base, &[Change::new(N, 0, 257)]);
        let malformed = changed(base, &[Change::new(VAR, 0, 65_535)]);
        for on in [base, &too_large, &malformed] {
            let calls = each_call(&mut random, base.code.n, base.built().k());
            compare_code_lengths(tallies, on, &calls);
            compare_own_lengths(tallies, on, &calls);
        }
    }
    for on in &ends {
        let calls = each_call(&mut random, on.code.n, on.built().k());
        compare_own_lengths(tallies, on, &calls);
    }
}

/// The nine parts of a code.
fn compare_code_lengths(tallies: &mut Tallies, on: &Judged, calls: &[Call]) {
    for (part, right) in LENGTHS.into_iter().enumerate() {
        for length in wrong(right) {
            let mut code = on.code.clone();
            code.parts[part].resize(length, 0);
            let name = format!("{}, {length} entries of {}", on.name, NAMES[part]);
            tallies.ask_all(&Judged::new(name, code), calls.to_vec());
        }
    }
}

fn wrong(right: usize) -> impl Iterator<Item = usize> {
    let lengths = [right.saturating_sub(1), right + 1, 0];
    lengths.into_iter().filter(move |&length| length != right)
}

/// The parts that a call has beside the code's: the work parts, and its own.
fn compare_own_lengths(tallies: &mut Tallies, on: &Judged, calls: &[Call]) {
    for call in calls {
        for (part, right) in WORK.into_iter().enumerate() {
            for length in wrong(right) {
                let mut asked = Asked::new(on, call.clone());
                asked.work[part] = length;
                tallies.ask(&asked);
            }
        }
        let n = on.code.n.min(256);
        match call {
            Call::Decode(decoding) => {
                let wrong = with_wrong_lengths(decoding, &parts_of_decoding(decoding, n));
                tallies.ask_all(on, wrong.into_iter().map(Call::Decode).collect());
            }
            Call::ListDecode(list) => {
                let wrong = with_wrong_lengths(list, &parts_of_list_decoding(n));
                tallies.ask_all(on, wrong.into_iter().map(Call::ListDecode).collect());
            }
            _ => (),
        }
        for length in wrong(n) {
            tallies.ask_all(on, with_own_length(call, length));
        }
    }
}

/// A part of a decoding's own: its right length, and how it is given another.
type Part<D> = (usize, fn(&mut D, usize));

/// Another length of each of a decoding's own parts.
fn with_wrong_lengths<D: Clone>(decoding: &D, parts: &[Part<D>]) -> Vec<D> {
    let mut all = Vec::new();
    for &(right, set) in parts {
        for length in wrong(right) {
            let mut decoding = decoding.clone();
            set(&mut decoding, length);
            all.push(decoding);
        }
    }
    all
}

fn parts_of_decoding(decoding: &Decoding, n: usize) -> Vec<Part<Decoding>> {
    let mut parts: Vec<Part<Decoding>> = vec![
        (32 * n, |decoding, length| {
            resize(&mut decoding.metrics, length)
        }),
        (n, |decoding, length| decoding.word = length),
        (VECTORS, |decoding, length| decoding.vectors = length),
    ];
    if decoding.posteriors.is_some() {
        parts.push((32 * n, |decoding, length| {
            decoding.posteriors = Some(length);
        }));
    }
    parts
}

fn parts_of_list_decoding(n: usize) -> [Part<ListDecoding>; 3] {
    [
        (32 * n, |list, length| resize(&mut list.metrics, length)),
        (32 * n, |list, length| resize(&mut list.posteriors, length)),
        (n, |list, length| list.word = length),
    ]
}

fn resize(likelihoods: &mut Likelihoods, length: usize) {
    likelihoods.floats.resize(length, 0.0.into());
}

/// The call with another length of each of its own parts that must have n entries, but a decoding.
fn with_own_length(call: &Call, length: usize) -> Vec<Call> {
    match call.clone() {
        Call::Encode { syms, .. } => vec![Call::Encode { syms, word: length }],
        Call::InfoOf { word, syms } => vec![
            Call::InfoOf {
                word: resized(&word, length, 31),
                syms,
            },
            Call::InfoOf { word, syms: length },
        ],
        Call::ChecksOk { word } => vec![Call::ChecksOk {
            word: resized(&word, length, 31),
        }],
        Call::InfoPositions { .. } => vec![Call::InfoPositions { positions: length }],
        Call::PeelPicks { prefer, picks } => vec![
            Call::PeelPicks {
                prefer: resized(&prefer, length, 0),
                picks,
            },
            Call::PeelPicks {
                prefer,
                picks: length,
            },
        ],
        Call::WithPeeledInfo { prefer } => vec![Call::WithPeeledInfo {
            prefer: resized(&prefer, length, 0),
        }],
        Call::Degree { .. } | Call::K | Call::N => vec![],
        Call::Decode(_) | Call::ListDecode(_) => vec![],
    }
}

/// Another length, what is more being `rest`.
fn resized<T: Clone>(part: &[T], length: usize, rest: T) -> Vec<T> {
    let mut part = part.to_vec();
    part.resize(length, rest);
    part
}

/// Every change of one of the four numbers, with all calls.
fn compare_numbers(tallies: &mut Tallies) {
    let mut random = Random::new();
    let ends = codes::ends();
    let rates = codes::rates();
    let full = ends.iter().find(|on| on.code.edges == 512);
    for base in bases().iter().chain(full).chain(rates.first()) {
        for change in number_changes(&mut random, &base.code) {
            let on = changed(base, &[change]);
            // Words of the code's own n, so that numbers after 3 are met, and of the n before.
            for n in [on.code.n.min(256), base.code.n] {
                tallies.ask_all(&on, each_call(&mut random, n, base.built().k()));
            }
        }
    }
}

/// Edge counts above 512 with row starts and lists by variable that go up to them, so that nothing
/// else is wrong before an entry past the parts is read.
fn compare_edge_counts(tallies: &mut Tallies) {
    let mut random = Random::new();
    let ends = codes::ends();
    let full = ends.iter().find(|on| on.code.edges == 512);
    for base in bases().iter().chain(full) {
        let Code { n, m, .. } = base.code;
        for edges in [513, 514, 1_024, 65_535] {
            let changes = [
                Change::new(EDGES, 0, edges),
                Change::new(ROW, m, edges),
                Change::new(START, n, edges),
            ];
            let on = changed(base, &changes);
            tallies.ask_all(&on, each_call(&mut random, n, base.built().k()));
        }
    }
}

/// Lent codes that are damaged, by what becomes of them.
#[derive(Default)]
struct Damaged {
    accepted: u64,
    by_2: u64,
    by_6: u64,
    by_7: u64,
}

/// So many times each code of the four rates is damaged at random, and so many times each of so
/// many random graphs.
const OF_A_RATE: usize = 600;
const OF_A_GRAPH: usize = 12;
const GRAPHS: usize = 2_000;

/// All calls for one of so many damaged codes; the others are asked for k.
const SAMPLE: u64 = 16;

fn compare_damage(tallies: &mut Tallies) {
    let mut random = Random::new();
    let mut damaged = Damaged::default();
    for base in bases() {
        for change in each_change(&mut random, &base.code) {
            damaged.compare(tallies, &mut random, &changed(&base, &[change]));
        }
    }
    let rates = codes::rates().into_iter().map(|base| (base, OF_A_RATE));
    let graphs = codes::middle().take(GRAPHS).map(|base| (base, OF_A_GRAPH));
    for (base, times) in rates.chain(graphs) {
        for _ in 0..times {
            let on = at_random(&mut random, &base);
            if on.code != base.code {
                damaged.compare(tallies, &mut random, &on);
            }
        }
    }
    damaged.finish();
}

impl Damaged {
    fn compare(&mut self, tallies: &mut Tallies, random: &mut Random, on: &Judged) {
        let count = match on.verdict {
            Ok(_) => &mut self.accepted,
            Err(2) => &mut self.by_2,
            Err(6) => &mut self.by_6,
            Err(7) => &mut self.by_7,
            Err(number) => panic!("{} is refused by {number}", on.name),
        };
        *count += 1;
        if count.is_multiple_of(SAMPLE) {
            let n = on.code.n.min(256);
            tallies.ask_all(on, each_call(random, n, n.saturating_sub(on.code.rank)));
        } else {
            tallies.ask(&Asked::new(on, Call::K));
        }
    }

    fn finish(self) {
        let Self {
            accepted,
            by_2,
            by_6,
            by_7,
        } = self;
        println!(
            "damaged codes: {}, of them accepted {accepted}, refused by 2 {by_2}, by 6 {by_6}, by 7 {by_7}",
            accepted + by_2 + by_6 + by_7
        );
        assert!(
            [accepted, by_2, by_6, by_7].iter().all(|&count| count > 0),
            "damage of every kind"
        );
    }
}
