//! Counts cases and differences, and prints them.

use std::fmt::Display;

/// Differences printed for one call; the rest are only counted.
const PRINTED: u64 = 5;

/// What a call is held to.
#[derive(Clone, Copy, PartialEq)]
pub enum HeldTo {
    /// The original's answer, where the call is not turned down.
    Rust,
    /// The number and the untouched parts that document 01 gives a call that is turned down.
    Document,
    /// What docs/DIFFERENCES.md says of the original.
    Listed,
}

impl HeldTo {
    /// What is compared, and what it is held to.
    fn names(self) -> (&'static str, &'static str) {
        match self {
            HeldTo::Rust => ("ours", "the Rust"),
            HeldTo::Document => ("ours", "document 01"),
            HeldTo::Listed => ("the Rust", "docs/DIFFERENCES.md"),
        }
    }
}

/// One call compared: the parts that differ, as they are and as they should be.
pub struct Case {
    held_to: HeldTo,
    /// Entries of slices that were compared.
    entries: usize,
    ours: Vec<String>,
    expected: Vec<String>,
}

impl Case {
    pub fn held_to(held_to: HeldTo) -> Self {
        Self {
            held_to,
            entries: 0,
            ours: Vec::new(),
            expected: Vec::new(),
        }
    }

    /// Compares one value of the answer.
    pub fn value<T: PartialEq + Display>(&mut self, name: &str, ours: T, expected: T) {
        if ours != expected {
            self.differs(format!("{name} {ours}"), format!("{name} {expected}"));
        }
    }

    /// Compares one part of the answer; where it differs, its first differing place is printed.
    pub fn part<T: PartialEq + Display>(&mut self, name: &str, ours: &[T], expected: &[T]) {
        self.entries += expected.len();
        // Most parts are the same, and this is the fast way to see it.
        if ours == expected {
            return;
        }
        if let Some(i) = ours.iter().zip(expected).position(|(o, e)| o != e) {
            let place = format!("{name}[{i}]");
            self.differs(
                format!("{place} {}", ours[i]),
                format!("{place} {}", expected[i]),
            );
        } else if ours.len() != expected.len() {
            self.value(&format!("length of {name}"), ours.len(), expected.len());
        }
    }

    fn differs(&mut self, ours: String, expected: String) {
        self.ours.push(ours);
        self.expected.push(expected);
    }
}

/// The cases of one call.
pub struct Tally {
    call: &'static str,
    cases: u64,
    turned_down: u64,
    entries: usize,
    differences: u64,
}

impl Tally {
    pub fn new(call: &'static str) -> Self {
        Self {
            call,
            cases: 0,
            turned_down: 0,
            entries: 0,
            differences: 0,
        }
    }

    /// Counts a case, and prints it where it differs and is among the first to do so. It is printed
    /// at once, so that nothing is lost where a later call should end the program.
    pub fn count(&mut self, case: Case, asked: impl FnOnce() -> String) {
        self.cases += 1;
        self.turned_down += u64::from(case.held_to == HeldTo::Document);
        self.entries += case.entries;
        if case.ours.is_empty() {
            return;
        }
        self.differences += 1;
        if self.differences <= PRINTED {
            let (compared, held_to) = case.held_to.names();
            println!(
                "  {}: {compared} {}; {held_to} {}",
                asked(),
                case.ours.join(", "),
                case.expected.join(", ")
            );
        }
    }

    /// So far.
    pub fn differences(&self) -> u64 {
        self.differences
    }

    /// So far.
    pub fn cases(&self) -> u64 {
        self.cases
    }

    /// Prints the call's line and gives its number of differences.
    pub fn finish(self) -> u64 {
        println!(
            "{}: cases {} (turned down {}, entries of slices {}), differences {}",
            self.call, self.cases, self.turned_down, self.entries, self.differences
        );
        self.differences
    }
}
