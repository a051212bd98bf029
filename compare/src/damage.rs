//! Damage to a lent code: every change of one value, and changes at random. Some of it leaves a
//! code that is not refused.

use crate::code::{Code, EDGES, M, N, NAMES, PARTS, RANK, greatest};
use crate::codes::{checks_of, laid_out};
use crate::on_code::Judged;
use crate::random::Random;
use std::fmt;

/// Another value at a place of a code.
#[derive(Clone, Copy)]
pub struct Change {
    pub part: usize,
    pub entry: usize,
    pub value: usize,
}

impl Change {
    pub const fn new(part: usize, entry: usize, value: usize) -> Self {
        Self { part, entry, value }
    }
}

impl fmt::Display for Change {
    fn fmt(&self, f: &mut fmt::Formatter) -> fmt::Result {
        match self.part {
            PARTS.. => write!(f, "{} = {}", NAMES[self.part], self.value),
            part => write!(f, "{}[{}] = {}", NAMES[part], self.entry, self.value),
        }
    }
}

/// The code with changes, judged anew.
pub fn changed(base: &Judged, changes: &[Change]) -> Judged {
    let mut code = base.code.clone();
    let mut name = base.name.clone();
    for change in changes {
        code.set(change.part, change.entry, change.value);
        name += &format!(", {change}");
    }
    Judged::new(name, code)
}

/// So many first entries of each part are given all values of `values`, the others two: a small
/// code uses no more.
const FULLY: usize = 64;

/// Every place of a code with several other values.
pub fn each_change(random: &mut Random, code: &Code) -> Vec<Change> {
    let mut all = Vec::new();
    for (part, entries) in code.parts.iter().enumerate() {
        let (fully, rest) = entries.split_at(FULLY);
        assert!(rest.iter().all(|&entry| entry == 0), "the code is small");
        for entry in 0..fully.len() {
            let value = |value| Change::new(part, entry, value);
            all.extend(values(random, code, part, entry).into_iter().map(value));
        }
        for entry in FULLY..entries.len() {
            let any = 1 + random.below(greatest(part));
            all.extend([1, any].map(|value| Change::new(part, entry, value)));
        }
    }
    all.extend(number_changes(random, code));
    all
}

/// Each of the four numbers with several other values.
pub fn number_changes(random: &mut Random, code: &Code) -> Vec<Change> {
    let mut all = Vec::new();
    for part in [N, M, EDGES, RANK] {
        let value = |value| Change::new(part, 0, value);
        all.extend(values(random, code, part, 0).into_iter().map(value));
    }
    all
}

/// Other values for a place: at the ends of what is allowed there, next to its own, the code's
/// numbers, and any.
fn values(random: &mut Random, code: &Code, part: usize, entry: usize) -> Vec<usize> {
    let own = code.get(part, entry);
    let most = greatest(part);
    let mut all = vec![0, 1, own.wrapping_sub(1), own.wrapping_add(1), 31, 32, most];
    all.extend([code.n, code.m, code.edges, code.rank]);
    all.push(random.next() as usize);
    // The same in 5, 8, 16 and 32 bits.
    all.extend([5, 8, 16, 32].map(|bits| own.wrapping_add(1 << bits)));
    if part >= PARTS {
        all.extend([255, 256, 257, 512, 513, 65_535, 65_536, 1 << 32, 1 << 63]);
        all.push(random.below(257));
    }
    for value in &mut all {
        *value &= most;
    }
    all.sort();
    all.dedup();
    all.retain(|&value| value != own);
    all
}

/// The code damaged at random, in a way that may be none.
pub fn at_random(random: &mut Random, base: &Judged) -> Judged {
    match random.below(8) {
        0 => with_neighbours_exchanged(random, base),
        1 => with_parts_of_another(random, base),
        2 => with_a_variable_twice(random, base),
        3 => {
            let part = random.below(PARTS);
            let [one, other] = [(); 2].map(|_| random_entry(random, &base.code, part));
            changed(base, &exchange(&base.code, part, one, other))
        }
        _ => {
            let count = 1 + random.below(3);
            let changes: Vec<_> = (0..count)
                .map(|_| random_change(random, &base.code))
                .collect();
            changed(base, &changes)
        }
    }
}

/// Two entries of a part that stand side by side, exchanged: in a variable's list or past the last
/// pivot nothing is wrong with it.
fn with_neighbours_exchanged(random: &mut Random, base: &Judged) -> Judged {
    let part = random.below(PARTS);
    let entry = random_entry(random, &base.code, part).saturating_sub(1);
    changed(base, &exchange(&base.code, part, entry, entry + 1))
}

fn exchange(code: &Code, part: usize, one: usize, other: usize) -> [Change; 2] {
    let [at_one, at_other] = [one, other].map(|entry| code.get(part, entry));
    [(one, at_other), (other, at_one)].map(|(entry, value)| Change::new(part, entry, value))
}

/// Some parts from the same graph laid out otherwise: where those that hang together are taken
/// together, nothing is wrong with it.
fn with_parts_of_another(random: &mut Random, base: &Judged) -> Judged {
    let mut checks = checks_of(base.built());
    for check in &mut checks {
        random.shuffle(check);
    }
    let another = laid_out(random, base.built().n, &checks);
    let mut code = base.code.clone();
    let mut name = base.name.clone();
    // The graph and the elimination each from one side or the other, and then perhaps one more.
    let taken = [
        (0..5, random.below(2) == 0),
        (5..PARTS, random.below(2) == 0),
    ];
    let mut parts: Vec<usize> = taken
        .into_iter()
        .filter_map(|(parts, is_taken)| is_taken.then_some(parts))
        .flatten()
        .collect();
    if random.below(2) == 0 {
        parts.push(random.below(PARTS));
    }
    for part in parts {
        code.parts[part].clone_from(&another.parts[part]);
        name += &format!(", {} of another layout", NAMES[part]);
    }
    Judged::new(name, code)
}

/// An edge more, of a variable that stands in its check already: all else is laid out and
/// eliminated as for a sound graph, so that only this is wrong.
fn with_a_variable_twice(random: &mut Random, base: &Judged) -> Judged {
    let mut checks = checks_of(base.built());
    let room = 512 - base.code.edges;
    let c = random.below(checks.len().max(1));
    if let Some(check) = checks
        .get_mut(c)
        .filter(|check| room > 0 && !check.is_empty())
    {
        let (v, coef) = check[random.below(check.len())];
        let coefs = [coef, 1 + random.below(31) as u8];
        check.push((v, coefs[random.below(2)]));
        random.shuffle(check);
    }
    let name = format!("{}, a variable twice in check {c}", base.name);
    Judged::new(name, laid_out(random, base.code.n, &checks))
}

/// A value at random at a place at random.
fn random_change(random: &mut Random, code: &Code) -> Change {
    let part = random.below(NAMES.len());
    let entry = match part {
        PARTS.. => 0,
        _ => random_entry(random, code, part),
    };
    let values = values(random, code, part, entry);
    let value = values[random.below(values.len())];
    Change::new(part, entry, value)
}

/// Mostly one of those up to the last that is not 0, or the next.
fn random_entry(random: &mut Random, code: &Code, part: usize) -> usize {
    let entries = &code.parts[part];
    let used = entries.iter().rposition(|&entry| entry != 0);
    let reach = match random.below(8) {
        0 => entries.len(),
        _ => used.map_or(1, |last| last + 2).min(entries.len()),
    };
    random.below(reach)
}
