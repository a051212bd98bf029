//! A plain peeling that owes nothing to the original's: by document 01's words, counting anew at
//! every turn. It shows how many ties the preferences, and then the positions, have settled.

use crate::codes::{Checks, checks_of};
use crate::oracle::NbCode;

/// The choices of all peelings.
#[derive(Default)]
pub struct Ties {
    peelings: u64,
    picks: u64,
    /// Picks where another symbol frees as many checks.
    in_freed: u64,
    /// Picks where another symbol frees as many checks and has the same preference.
    in_preference: u64,
}

impl Ties {
    /// Peels a code, and counts its choices.
    pub fn count(&mut self, built: &NbCode, prefer: &[i64]) {
        let checks = checks_of(built);
        let mut known = vec![false; built.n];
        let mut picks = Vec::new();
        while let Some(lowest) = known.iter().position(|is_known| !is_known) {
            let v = following(&checks, &known).unwrap_or_else(|| {
                let v = self.choose(&checks, &known, prefer, lowest);
                picks.push(v);
                v
            });
            known[v] = true;
        }
        self.peelings += 1;
        self.picks += picks.len() as u64;
        let original = built.peel_picks(|v| prefer[v]);
        assert_eq!(original, picks, "the original peels as document 01 says");
    }

    /// The unknown symbol to pick, `lowest` being one: most freed checks, then the higher
    /// preference, then the highest position.
    fn choose(&mut self, checks: &Checks, known: &[bool], prefer: &[i64], lowest: usize) -> usize {
        let freed = freed(checks, known);
        let unknown: Vec<usize> = (lowest..known.len()).filter(|&v| !known[v]).collect();
        let freeing = greatest(&unknown, |v| freed[v]);
        let preferred = greatest(&freeing, |v| prefer[v]);
        self.in_freed += u64::from(freeing.len() > 1);
        self.in_preference += u64::from(preferred.len() > 1);
        preferred[preferred.len() - 1]
    }

    /// Prints the counts.
    pub fn finish(self) {
        let Self {
            peelings,
            picks,
            in_freed,
            in_preference,
        } = self;
        println!(
            "peelings: {peelings}, picks {picks}, of them ties in freed checks {in_freed}, and in preference too {in_preference}"
        );
        assert!(
            in_preference > 0 && in_preference < in_freed && in_freed < picks,
            "picks of every kind"
        );
    }
}

/// The symbol that follows from the first check with exactly one unknown symbol, if there is one.
fn following(checks: &Checks, known: &[bool]) -> Option<usize> {
    let mut unknown = checks.iter().map(|check| unknown_in(check, known));
    unknown.find(|symbols| symbols.len() == 1).map(|one| one[0])
}

fn unknown_in(check: &[(u16, u8)], known: &[bool]) -> Vec<usize> {
    let symbols = check.iter().map(|edge| usize::from(edge.0));
    symbols.filter(|&v| !known[v]).collect()
}

/// How many checks have two unknown symbols, this one of them.
fn freed(checks: &Checks, known: &[bool]) -> Vec<usize> {
    let mut freed = vec![0; known.len()];
    for check in checks {
        if let [one, other] = unknown_in(check, known)[..] {
            freed[one] += 1;
            freed[other] += 1;
        }
    }
    freed
}

/// Those of the positions that have the greatest key, in their order.
fn greatest<K: Ord>(positions: &[usize], key: impl Fn(usize) -> K) -> Vec<usize> {
    let most = positions.iter().map(|&v| key(v)).max();
    let has_most = |v: &usize| Some(key(*v)) == most;
    positions.iter().copied().filter(has_most).collect()
}
