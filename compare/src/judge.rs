//! What document 01 says of a lent code: numbers 2, 3, 6 and 7, "Turning a call down, in this
//! order". It reads the parts as they are lent, and knows nothing of how `Code` lays them out but
//! which part is which: the lengths here are the document's own.

use crate::code::{A, COEF, COL, Code, INFO, ORDER, PARITY, PARTS, ROW, START, VAR};
use crate::oracle::NbCode;

/// The original's code that stands in the parts, with its own elimination, or the number by which
/// the lent code is refused.
pub fn judged(code: &Code) -> Result<NbCode, u8> {
    if code.n > 256 || code.m > 256 {
        return Err(2);
    }
    if !lengths_fit(code) {
        return Err(3);
    }
    if !is_graph(code) || !has_clear_rest(code) {
        return Err(6);
    }
    let eliminated = eliminated(code);
    if !is_encoded(code, &eliminated) {
        return Err(7);
    }
    Ok(eliminated)
}

/// "code parts at the maxima 512 edges, 257 row starts, 256 positions, 16,384 table entries"
fn lengths_fit(code: &Code) -> bool {
    let right = |part: usize| match part {
        VAR | COEF | COL => 512,
        ROW | START => 257,
        ORDER | PARITY | INFO => 256,
        A => 16_384,
        _ => panic!("a code has no part {part}"),
    };
    (0..PARTS).all(|part| code.parts[part].len() == right(part))
}

/// All that number 6 asks but the unused entries.
fn is_graph(code: &Code) -> bool {
    code.edges <= 512
        && starts_fit(&code.parts[ROW], code.m, code.edges)
        && edges_fit(code)
        && starts_fit(&code.parts[START], code.n, code.edges)
        && lists_agree(code)
        && holds_each_once(&code.parts[ORDER][..code.n])
}

/// The starts of so many lists "go from 0 to the edge count without falling".
fn starts_fit(starts: &[u16], lists: usize, edges: usize) -> bool {
    let starts = &starts[..=lists];
    starts[0] == 0 && usize::from(starts[lists]) == edges && starts.is_sorted()
}

/// No "variable is not below n or stands twice in a check", no "coefficient is not 1 to 31".
fn edges_fit(code: &Code) -> bool {
    let coefs = &code.parts[COEF][..code.edges];
    let checks = lists(&code.parts[ROW], code.m, &code.parts[VAR]);
    coefs.iter().all(|coef| (1..=31).contains(coef))
        && checks.iter().all(|variables| {
            let mut variables = variables.to_vec();
            variables.sort();
            variables.is_sorted_by(|a, b| a < b)
                && variables.last().is_none_or(|&v| usize::from(v) < code.n)
        })
}

/// Each "edge list by variable" has the places of its variable's edges, in any order.
fn lists_agree(code: &Code) -> bool {
    let mut places = vec![Vec::new(); code.n];
    for (place, &v) in code.parts[VAR][..code.edges].iter().enumerate() {
        places[usize::from(v)].push(place as u16);
    }
    let lists = lists(&code.parts[START], code.n, &code.parts[COL]);
    lists.into_iter().zip(places).all(|(list, places)| {
        let mut list = list.to_vec();
        list.sort();
        list == places
    })
}

/// Entries are the numbers below their count, in any order.
fn holds_each_once(entries: &[u16]) -> bool {
    let mut sorted = entries.to_vec();
    sorted.sort();
    sorted.into_iter().map(usize::from).eq(0..entries.len())
}

/// No "unused entry is not 0", in any part: what is used goes by the code's own numbers.
fn has_clear_rest(code: &Code) -> bool {
    let info = code.n.saturating_sub(code.rank);
    let table = if info == 0 { 0 } else { code.rank * info };
    let used = |part: usize| match part {
        VAR | COEF | COL => code.edges,
        ROW => code.m + 1,
        START => code.n + 1,
        ORDER => code.n,
        PARITY => code.rank,
        INFO => info,
        A => table,
        _ => panic!("a code has no part {part}"),
    };
    (0..PARTS).all(|part| {
        let unused = code.parts[part].get(used(part)..).unwrap_or_default();
        unused.iter().all(|&entry| entry == 0)
    })
}

/// The graph as the original keeps it, eliminated by the original in the lent column order.
fn eliminated(code: &Code) -> NbCode {
    let numbers = |part: &[u16]| {
        part.iter()
            .map(|&entry| entry.into())
            .collect::<Vec<usize>>()
    };
    let edge = |(&v, &coef): (&u16, &u16)| (v, coef as u8);
    let [var, coef] = [VAR, COEF].map(|part| code.parts[part][..code.edges].iter());
    let cols = lists(&code.parts[START], code.n, &code.parts[COL]);
    let mut built = NbCode {
        n: code.n,
        m: code.m,
        edges: var.zip(coef).map(edge).collect(),
        row: numbers(&code.parts[ROW][..=code.m]),
        col: cols.into_iter().map(numbers).collect(),
        info: Vec::new(),
        parity: Vec::new(),
        a: Vec::new(),
    };
    built.build_encoder(&numbers(&code.parts[ORDER][..code.n]));
    built
}

/// "parity, information or table" are "what elimination gives"; a rank that is not has no parity
/// positions that are.
fn is_encoded(code: &Code, eliminated: &NbCode) -> bool {
    let starts_with = |part: usize, numbers: &[usize]| {
        let front = &code.parts[part][..numbers.len()];
        front
            .iter()
            .map(|&x| usize::from(x))
            .eq(numbers.iter().copied())
    };
    let table: Vec<usize> = eliminated.a.concat().into_iter().map(usize::from).collect();
    code.rank == eliminated.parity.len()
        && starts_with(PARITY, &eliminated.parity)
        && starts_with(INFO, &eliminated.info)
        && starts_with(A, &table)
}

/// So many lists, by where each starts and the next one does.
fn lists<'a>(starts: &[u16], count: usize, entries: &'a [u16]) -> Vec<&'a [u16]> {
    let between = |pair: &[u16]| &entries[pair[0].into()..pair[1].into()];
    starts[..=count].windows(2).map(between).collect()
}
