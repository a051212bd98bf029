//! What the original's layouts are, where its comments say something else: the numbers of
//! docs/DIFFERENCES.md, which stay true of the original's tables.

use crate::frame::{SETS, SYMBOLS};
use crate::oracle::{BitMap, CHECKIN_VARIABLE_BITS, InfoSet, NbCode, RATES, Tables, code_at};
use crate::report::{Case, HeldTo, Tally};

/// Of each rate, for the echelon set and then the peeled one: how many information slots have a degree
/// above 2.
const HEAVY_SLOTS: [[usize; 2]; 4] = [[20, 17], [16, 16], [12, 12], [12, 12]];

/// By SpreadHeavy: in how many of these slots five variable bits stand, and in how many four.
const FIVES: [[usize; 2]; 4] = [[16, 17], [16, 16], [12, 12], [12, 12]];
const FOURS: [[usize; 2]; 4] = [[4, 0], [0, 0], [0, 0], [0, 0]];

/// By Heavy: the packed symbols that hold variable bits, in the order in which they take the strongest
/// slots.
const VARIABLE_SYMBOLS: [usize; 22] = [
    19, 20, 21, 22, 24, 25, 44, 45, 46, 47, 48, 49, 50, 51, 11, 12, 13, 14, 15, 16, 17, 18,
];

/// The echelon set's last position at each rate, and which of those before it are not in the set.
const ECHELON: [(usize, &[usize]); 4] = [
    (55, &[28, 48, 52, 53]),
    (54, &[47, 48, 52]),
    (56, &[41, 45, 48, 53, 55]),
    (51, &[]),
];

pub fn compare() -> u64 {
    let mut tally = Tally::new("facts of layouts");
    for (rate, name) in RATES.into_iter().enumerate() {
        for (set, info) in SETS.into_iter().enumerate() {
            let code = code_at(name, info);
            let mut case = Case::held_to(HeldTo::Listed);
            let heavy = heavy_slots(code);
            case.value("heavy slots", heavy.len(), HEAVY_SLOTS[rate][set]);
            compare_heavy(&mut case, code, heavy.len());
            let dealt = dealt(code);
            let of_count = |count| heavy.iter().filter(|&&slot| dealt[slot] == count).count();
            case.value("slots with five", of_count(5), FIVES[rate][set]);
            case.value("slots with four", of_count(4), FOURS[rate][set]);
            let with_less = heavy.len() - of_count(5) - of_count(4);
            case.value("slots with other counts", with_less, 0);
            if info == InfoSet::Echelon {
                compare_positions(&mut case, code, rate);
            }
            tally.count(case, || format!("rate {rate}, set {set}"));
        }
    }
    tally.finish()
}

/// Those of a degree above 2.
fn heavy_slots(code: &NbCode) -> Vec<usize> {
    let is_heavy = |&slot: &usize| code.degree(code.info[slot]) > 2;
    (0..SYMBOLS).filter(is_heavy).collect()
}

fn variable_bits() -> Vec<usize> {
    CHECKIN_VARIABLE_BITS.into_iter().flatten().collect()
}

/// The variable symbols take the slots from the strongest on, so that the heavy slots hold the first of
/// them and the others do not.
fn compare_heavy(case: &mut Case, code: &NbCode, heavy: usize) {
    let tables = Tables::new(BitMap::Heavy, code);
    let mut symbols = Vec::new();
    for bit in variable_bits() {
        let symbol = usize::from(tables.pos[bit]) / 5;
        if !symbols.contains(&symbol) {
            symbols.push(symbol);
        }
    }
    case.part("variable symbols", &symbols, &VARIABLE_SYMBOLS);
    let degree = |&symbol: &usize| code.degree(code.info[usize::from(tables.slot[symbol])]);
    let degrees: Vec<usize> = symbols.iter().map(degree).collect();
    let first = degrees.iter().take_while(|&&degree| degree > 2).count();
    case.value("variable symbols on heavy slots", first, heavy);
    let rest = &degrees[first..];
    let of_two = rest.iter().filter(|&&degree| degree == 2).count();
    case.value("variable symbols on others", of_two, rest.len());
}

/// How many variable bits SpreadHeavy puts in each slot.
fn dealt(code: &NbCode) -> [usize; SYMBOLS] {
    let tables = Tables::new(BitMap::SpreadHeavy, code);
    let mut counts = [0; SYMBOLS];
    for bit in variable_bits() {
        let symbol = usize::from(tables.pos[bit]) / 5;
        counts[usize::from(tables.slot[symbol])] += 1;
    }
    counts
}

fn compare_positions(case: &mut Case, code: &NbCode, rate: usize) {
    let (last, without) = ECHELON[rate];
    let positions: Vec<usize> = (0..=last).filter(|v| !without.contains(v)).collect();
    case.part("positions", &code.info, &positions);
}
