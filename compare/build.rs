//! Makes the copies of the original that are compared, by exact replacements, and links the static
//! library.
//!
//! The copies go to cargo's output folder and are never committed. Their arithmetic is the
//! original's: the replacements open private items, make the text fit to be included and set a
//! sibling beside `decode_soft` and one beside `decode_bits_prior_at`. One copy keeps the Rust's own
//! exp and ln; in the one that ours is held to stand-ins take their place, as docs/DIFFERENCES.md
//! says. Where the original is not as expected, the build stops and says what did not fit. The
//! SHA-256 of the source is checked by compare/run; the exact replacements hold also without it.

use std::path::{Path, PathBuf};
use std::{env, fs};

struct Replacement {
    purpose: &'static str,
    old: &'static str,
    new: &'static str,
    times: usize,
}

/// What both copies of nb.rs differ in, in the order of the text.
const REPLACEMENTS: &[Replacement] = &[
    Replacement {
        purpose: "inner doc lines as plain comments, since include! takes none",
        old: "//!",
        new: "//",
        times: 10,
    },
    Replacement {
        purpose: "open the field's tables",
        old: "struct Gf {",
        new: "pub struct Gf {",
        times: 1,
    },
    Replacement {
        purpose: "open the product",
        old: "    fn mul(&self, a: u8, b: u8) -> u8 {",
        new: "    pub fn mul(&self, a: u8, b: u8) -> u8 {",
        times: 1,
    },
    Replacement {
        purpose: "open the inverse",
        old: "    fn inv(&self, a: u8) -> u8 {",
        new: "    pub fn inv(&self, a: u8) -> u8 {",
        times: 1,
    },
    Replacement {
        purpose: "open the field",
        old: "static GF: Gf = Gf::new();",
        new: "pub static GF: Gf = Gf::new();",
        times: 1,
    },
    Replacement {
        purpose: "open the generator",
        old: "fn mix(s: &mut u64) -> u64 {",
        new: "pub fn mix(s: &mut u64) -> u64 {",
        times: 1,
    },
    Replacement {
        purpose: "open a code's sizes",
        old: "pub struct NbCode {\n    n: usize,\n    m: usize,",
        new: "pub struct NbCode {\n    pub n: usize,\n    pub m: usize,",
        times: 1,
    },
    Replacement {
        purpose: "open a code's edges",
        old: "\n    edges: Vec<(u16, u8)>,",
        new: "\n    pub edges: Vec<(u16, u8)>,",
        times: 1,
    },
    Replacement {
        purpose: "open a code's row starts",
        old: "\n    row: Vec<usize>,",
        new: "\n    pub row: Vec<usize>,",
        times: 1,
    },
    Replacement {
        purpose: "open a code's lists by variable",
        old: "\n    col: Vec<Vec<usize>>,",
        new: "\n    pub col: Vec<Vec<usize>>,",
        times: 1,
    },
    Replacement {
        purpose: "open a code's information positions",
        old: "\n    info: Vec<usize>,",
        new: "\n    pub info: Vec<usize>,",
        times: 1,
    },
    Replacement {
        purpose: "open a code's parity positions",
        old: "\n    parity: Vec<usize>,",
        new: "\n    pub parity: Vec<usize>,",
        times: 1,
    },
    Replacement {
        purpose: "open a code's table",
        old: "\n    a: Vec<Vec<u8>>,",
        new: "\n    pub a: Vec<Vec<u8>>,",
        times: 1,
    },
    Replacement {
        purpose: "open the elimination",
        old: "    fn build_encoder(&mut self, order: &[usize]) {",
        new: "    pub fn build_encoder(&mut self, order: &[usize]) {",
        times: 1,
    },
    Replacement {
        purpose: "open the count of bits with padding",
        old: "\nconst PADDED_BITS: usize = 5 * K;",
        new: "\npub const PADDED_BITS: usize = 5 * K;",
        times: 1,
    },
    Replacement {
        purpose: "open a layout's code",
        old: "    fn code(self, rate: Rate) -> &'static NbCode {",
        new: "    pub fn code(self, rate: Rate) -> &'static NbCode {",
        times: 1,
    },
    Replacement {
        purpose: "open a layout's tables",
        old: "    fn tables(self, rate: Rate) -> &'static Tables {",
        new: "    pub fn tables(self, rate: Rate) -> &'static Tables {",
        times: 1,
    },
    Replacement {
        purpose: "open the tables",
        old: "\nstruct Tables {",
        new: "\npub struct Tables {",
        times: 1,
    },
    Replacement {
        purpose: "open the packed positions",
        old: "\n    pos: [u16; PADDED_BITS],",
        new: "\n    pub pos: [u16; PADDED_BITS],",
        times: 1,
    },
    Replacement {
        purpose: "open the padded bits",
        old: "\n    bit: [u16; PADDED_BITS],",
        new: "\n    pub bit: [u16; PADDED_BITS],",
        times: 1,
    },
    Replacement {
        purpose: "open the slots",
        old: "\n    slot: [u8; K],",
        new: "\n    pub slot: [u8; K],",
        times: 1,
    },
    Replacement {
        purpose: "open the build of the tables",
        old: "    fn new(map: BitMap, code: &NbCode) -> Self {",
        new: "    pub fn new(map: BitMap, code: &NbCode) -> Self {",
        times: 1,
    },
];

/// A function that stands beside one of the original's and is made of it.
struct Sibling {
    /// How the original's begins, and what ends it.
    head: &'static str,
    end: &'static str,
    /// All that the sibling differs in.
    differences: &'static [Replacement],
}

/// It also tells how many rounds were done, and the posteriors of a word that is found.
const DECODE_ROUNDS: Sibling = Sibling {
    head: "    pub fn decode_soft(",
    end: "\n    }\n",
    differences: &[
        Replacement {
            purpose: "another name and a longer answer",
            old: "pub fn decode_soft(&self, metrics: &[f32], known: usize, max_iter: usize) \
                -> Result<Vec<u8>, Vec<f32>> {",
            new: "pub fn decode_rounds(&self, metrics: &[f32], known: usize, max_iter: usize) \
                -> (Option<Vec<u8>>, usize, Vec<f32>) {",
            times: 1,
        },
        Replacement {
            purpose: "number the rounds from 1",
            old: "for _ in 0..max_iter {",
            new: "for round in 1..=max_iter {",
            times: 1,
        },
        Replacement {
            purpose: "tell the satisfied round and its posteriors",
            old: "return Ok(hard);",
            new: "return (Some(hard), round, posts);",
            times: 1,
        },
        Replacement {
            purpose: "tell that all rounds were done",
            old: "Err(posts)",
            new: "(None, max_iter, posts)",
            times: 1,
        },
    ],
};

/// It also tells which of its two ends without bits was met, 10 or 11; whether the word is from the
/// list; how many rounds were done; and the last round's posteriors. All of it is what the sibling of
/// `decode_soft` tells, or which way was taken.
const DECODE_BITS_TOLD: Sibling = Sibling {
    head: "pub fn decode_bits_prior_at(",
    end: "\n}\n",
    differences: &[
        Replacement {
            purpose: "another name",
            old: "pub fn decode_bits_prior_at(",
            new: "pub fn decode_bits_told(",
            times: 1,
        },
        Replacement {
            purpose: "a longer answer",
            old: ") -> Option<Vec<u8>> {",
            new: ") -> (Result<Vec<u8>, u8>, bool, usize, Vec<f32>) {",
            times: 1,
        },
        Replacement {
            purpose: "decode by the sibling of `decode_soft`",
            old: "    let x = match c.decode_soft(&m, K, MAX_ITER) {\n        Ok(x) => x,\n",
            new: "    let (word, rounds, post) = c.decode_rounds(&m, K, MAX_ITER);\n    \
                let from_list = word.is_none();\n    \
                let x = match word {\n        Some(x) => x,\n",
            times: 1,
        },
        Replacement {
            purpose: "tell 10 where there is no prior",
            old: "Err(_) if !with_prior => return None,",
            new: "None if !with_prior => return (Err(10), false, rounds, post),",
            times: 1,
        },
        Replacement {
            purpose: "go on with a prior",
            old: "Err(post) => match fb {",
            new: "None => match fb {",
            times: 1,
        },
        Replacement {
            purpose: "tell 10 without the list",
            old: "Fallback::Bp => return None,",
            new: "Fallback::Bp => return (Err(10), false, rounds, post),",
            times: 1,
        },
        Replacement {
            purpose: "tell 11",
            old: "        return None;\n",
            new: "        return (Err(11), from_list, rounds, post);\n",
            times: 1,
        },
        Replacement {
            purpose: "tell the bits",
            old: "    Some((0..K_BITS).map(|i| packed[t.pos[i] as usize]).collect())\n",
            new: "    let bits = (0..K_BITS).map(|i| packed[t.pos[i] as usize]).collect();\n    \
                (Ok(bits), from_list, rounds, post)\n",
            times: 1,
        },
    ],
};

/// Document 01's stand-ins, in the copy that ours is held to; `decode_soft` and its sibling have one
/// exp each.
const STAND_INS: &[Replacement] = &[
    Replacement {
        purpose: "document 01's exp",
        old: "*o = (l - mx).max(-60.0).exp();",
        new: "*o = crate::stand_ins::exp((l - mx).max(-60.0));",
        times: 2,
    },
    Replacement {
        purpose: "document 01 drops ln: the quotient itself is the margin",
        old: "(pv[b[0]].max(1e-30) / pv[b[1]].max(1e-30)).ln()",
        new: "pv[b[0]].max(1e-30) / pv[b[1]].max(1e-30)",
        times: 1,
    },
];

/// The first lines of the enum that is cut out of fec.rs, and what ends it.
const RATE_HEAD: &str = "#[derive(Clone, Copy, Debug, PartialEq, Eq, Hash)]\npub enum Rate {\n";
const RATE_END: &str = "\n}\n";

fn main() {
    println!("cargo:rerun-if-changed=build.rs");
    let here = PathBuf::from(given("CARGO_MANIFEST_DIR"));
    let root = here.parent().expect("compare/ stands in the project");
    let out = PathBuf::from(given("OUT_DIR"));

    let source = folder("HAZGUNEK_SOURCE", root.join("../shared/docs/src"));
    let nb = text(&source.join("crates/ion/src/fec/nb.rs"));
    let fec = text(&source.join("crates/ion/src/fec.rs"));
    let opened = REPLACEMENTS.iter().fold(nb, replaced);
    let own = [DECODE_ROUNDS, DECODE_BITS_TOLD]
        .iter()
        .fold(opened, with_sibling);
    write(&out.join("nb_own.rs"), &own);
    write(&out.join("nb.rs"), &STAND_INS.iter().fold(own, replaced));
    write(
        &out.join("rate.rs"),
        cut("fec.rs", &fec, RATE_HEAD, RATE_END),
    );

    link(&folder("HAZGUNEK_ARCHIVE_DIR", root.join("crates/abi/out")));
}

/// A variable that cargo sets.
fn given(name: &str) -> String {
    env::var(name).unwrap_or_else(|e| panic!("{name}: {e}"))
}

/// The folder that an environment variable names, or the one that stands in where it is not set.
fn folder(name: &str, otherwise: PathBuf) -> PathBuf {
    println!("cargo:rerun-if-env-changed={name}");
    env::var_os(name)
        .filter(|value| !value.is_empty())
        .map_or(otherwise, PathBuf::from)
}

fn text(path: &Path) -> String {
    println!("cargo:rerun-if-changed={}", path.display());
    fs::read_to_string(path).unwrap_or_else(|e| panic!("{}: {e}", path.display()))
}

fn write(path: &Path, text: &str) {
    fs::write(path, text).unwrap_or_else(|e| panic!("{}: {e}", path.display()));
}

/// The text after one replacement, which must fit as many times as it says.
fn replaced(text: String, r: &Replacement) -> String {
    let found = text.matches(r.old).count();
    assert!(
        found == r.times,
        "nb.rs: the replacement '{}' does not fit: {:?} must occur {} times and occurs {found} times",
        r.purpose,
        r.old,
        r.times,
    );
    text.replace(r.old, r.new)
}

/// The text with a sibling after the function that it is made of.
fn with_sibling(text: String, sibling: &Sibling) -> String {
    let original = cut("nb.rs", &text, sibling.head, sibling.end);
    let made = sibling
        .differences
        .iter()
        .fold(original.to_string(), replaced);
    text.replacen(original, &format!("{original}\n{made}"), 1)
}

/// The piece of a file from `head`, which must occur once, to the first `end` after it, both kept.
fn cut<'a>(file: &str, text: &'a str, head: &str, end: &str) -> &'a str {
    let found = text.matches(head).count();
    assert!(
        found == 1,
        "{file}: {head:?} must occur once and occurs {found} times"
    );
    let from = &text[text.find(head).unwrap()..];
    let length = from
        .find(end)
        .unwrap_or_else(|| panic!("{file}: no {end:?} after {head:?}"));
    &from[..length + end.len()]
}

fn link(archive_dir: &Path) {
    let archive = archive_dir.join("libabi.a");
    println!("cargo:rerun-if-changed={}", archive.display());
    assert!(
        archive.is_file(),
        "no {}: `rt lib` in crates/abi makes it, and compare/run calls that",
        archive.display(),
    );
    println!("cargo:rustc-link-search=native={}", archive_dir.display());
    println!("cargo:rustc-link-lib=static=abi");
}
