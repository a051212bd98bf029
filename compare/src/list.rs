//! The fixed lists of the original's answers, one to a layer, and whether the committed ones are
//! still the same.
//!
//! A proved program replays them where no Rust is at hand.

use crate::decoding_list;
use crate::field;
use crate::frames_list;
use crate::graph;
use crate::list_decoding_list;
use crate::peeling_list;
use crate::rates_list;
use crate::report::{Case, HeldTo, Tally};
use crate::words_list;
use std::fs;

struct List {
    layer: &'static str,
    text: fn() -> String,
}

const LISTS: &[List] = &[
    List {
        layer: "field",
        text: field::list,
    },
    List {
        layer: "graph",
        text: graph::list,
    },
    List {
        layer: "words",
        text: words_list::list,
    },
    List {
        layer: "peeling",
        text: peeling_list::list,
    },
    List {
        layer: "decoding",
        text: decoding_list::list,
    },
    List {
        layer: "list_decoding",
        text: list_decoding_list::list,
    },
    List {
        layer: "rates",
        text: rates_list::list,
    },
    List {
        layer: "frames",
        text: frames_list::list,
    },
];

/// A list stays below so many bytes, since the program that replays it has a part of fixed length.
const LIMIT: usize = 60_000;

/// What every list begins with.
const HEAD: &str = "\
# Answers of the original Rust, one case to a line, in decimal numbers.
# Made from the Rust of ion-hf at commit 1eb7dca018 alone, by `compare/run list LAYER`.
";

/// The list of a layer, where there is one.
pub fn text(layer: &str) -> Option<String> {
    LISTS.iter().find(|list| list.layer == layer).map(whole)
}

fn whole(list: &List) -> String {
    let text = HEAD.to_string() + &(list.text)();
    assert!(
        text.len() < LIMIT,
        "the list of {} has {} bytes, more than its reader takes",
        list.layer,
        text.len()
    );
    text
}

/// Holds each committed list to what is printed for it, line by line, and gives the differences.
pub fn compare() -> u64 {
    let mut tally = Tally::new("lists");
    for list in LISTS {
        let committed = format!("crates/replay/data/{}.txt", list.layer);
        let mut case = Case::held_to(HeldTo::Rust);
        match fs::read_to_string(format!("{}/../{committed}", env!("CARGO_MANIFEST_DIR"))) {
            Ok(text) => case.part("lines", &lines(&text), &lines(&whole(list))),
            Err(e) => case.value("file", format!("not read: {e}"), "read".to_string()),
        }
        tally.count(case, || committed);
    }
    tally.finish()
}

/// Splits at line feeds alone, so that texts with the same lines are the same bytes.
fn lines(text: &str) -> Vec<&str> {
    text.split('\n').collect()
}

/// A number below 65,521, a prime number of which 17 is a primitive root: no change of one entry
/// and no exchange of two goes unseen.
pub fn digest(entries: impl Iterator<Item = u64>) -> u64 {
    entries.fold(0, |digest, entry| {
        (17 * digest + entry % 65_521 + 1) % 65_521
    })
}
