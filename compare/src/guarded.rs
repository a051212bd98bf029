//! A part to lend that lies within a longer vector, so that a call that writes past it is seen.

use crate::report::Case;
use std::fmt::Display;
use std::hint::black_box;

/// So many entries stand on each side of a part.
const GUARDS: usize = 8;

pub struct Guarded<T> {
    entries: Vec<T>,
    guard: T,
}

impl<T: Copy + PartialEq + Display> Guarded<T> {
    /// The part as it is before a call, and `guard` in each entry around it.
    pub fn new(part: &[T], guard: T) -> Self {
        let entries = [&[guard; GUARDS], part, &[guard; GUARDS]].concat();
        Self { entries, guard }
    }

    pub fn lend(&mut self) -> &mut [T] {
        let end = self.entries.len() - GUARDS;
        &mut self.entries[GUARDS..end]
    }

    /// Lends the entry of a part that has only one.
    pub fn lend_one(&mut self) -> &mut T {
        let [one] = self.lend() else {
            panic!("a part of one entry was expected");
        };
        one
    }

    /// The entries before the part, the part, and the entries past it. The compiler may not go by
    /// what a lent slice can reach, since the archive may have written past it.
    fn split(&self) -> (&[T], &[T], &[T]) {
        let (before, rest) = black_box(&self.entries[..]).split_at(GUARDS);
        let (part, past) = rest.split_at(rest.len() - GUARDS);
        (before, part, past)
    }

    /// The part as a call left it.
    pub fn part(&self) -> &[T] {
        self.split().1
    }

    /// Compares the part with what a call must leave in it, and what stands around it.
    pub fn compare(&self, case: &mut Case, name: &str, left: &[T]) {
        case.part(name, self.part(), left);
        self.compare_guards(case, name);
    }

    /// The same of a part that has only one entry.
    pub fn compare_one(&self, case: &mut Case, name: &str, left: T) {
        case.value(name, self.part()[0], left);
        self.compare_guards(case, name);
    }

    /// Compares the entries around the part with what stood there.
    fn compare_guards(&self, case: &mut Case, name: &str) {
        let (before, _, past) = self.split();
        if let Some(i) = before.iter().rposition(|entry| *entry != self.guard) {
            let place = format!("entry {} before the {name}", GUARDS - i);
            case.value(&place, before[i], self.guard);
        }
        if let Some(i) = past.iter().position(|entry| *entry != self.guard) {
            let place = format!("entry {} past the {name}", i + 1);
            case.value(&place, past[i], self.guard);
        }
    }
}
