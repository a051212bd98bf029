//! Compares the original Rust with the static library, and prints the fixed lists of the original's
//! answers. `compare/run` builds and starts it.

mod abi;
mod arithmetic;
mod asked;
mod calls;
mod candidates;
mod code;
mod code_lists;
mod code_speed;
mod codes;
mod damage;
mod decode_call;
mod decoding;
mod decoding_list;
mod decoding_speed;
mod encodings;
mod field;
mod filling;
mod float;
mod frame;
mod frame_abi;
mod frame_decoding;
mod frame_decoding_lines;
mod frame_encoding;
mod frame_ends;
mod frame_refused;
mod frame_speed;
mod frame_tallies;
mod frame_traps;
mod frames;
mod frames_list;
mod graph;
mod guarded;
mod judge;
mod layout_facts;
mod lent;
mod lent_code;
mod lent_code_at;
mod lent_frame;
mod likelihoods;
mod line_floats;
mod list;
mod list_decode_call;
mod list_decoding;
mod list_decoding_list;
mod list_decoding_speed;
mod list_refused;
mod listed;
mod listed_frames;
mod metrics;
mod on_code;
mod oracle;
mod own_exp;
mod own_frame;
mod own_ln;
mod peeling;
mod peeling_list;
mod places;
mod posteriors;
mod preferences;
mod priors;
mod random;
mod rates;
mod rates_list;
mod refused;
mod report;
mod rounds;
mod speed;
mod stand_ins;
mod ties;
mod words;
mod words_list;
mod work_parts;

use frame_encoding::EncodingTallies;
use frame_tallies::FrameTallies;
use on_code::Tallies;
use std::process::ExitCode;

fn main() -> ExitCode {
    let words: Vec<String> = std::env::args().skip(1).collect();
    match words.iter().map(String::as_str).collect::<Vec<_>>()[..] {
        [] => compare(),
        ["list", layer] => print_list(layer),
        _ => {
            eprintln!("usage: compare/run [list LAYER]");
            ExitCode::from(2)
        }
    }
}

fn print_list(layer: &str) -> ExitCode {
    match list::text(layer) {
        Some(text) => {
            print!("{text}");
            ExitCode::SUCCESS
        }
        None => {
            eprintln!("compare/run: no list of {layer}");
            ExitCode::from(2)
        }
    }
}

/// All comparisons, lowest layer first, and then the speeds.
fn compare() -> ExitCode {
    let differences = field::compare()
        + graph::compare()
        + compare_on_codes()
        + rates::compare()
        + encodings::compare_bits_to_syms()
        + compare_frames()
        + layout_facts::compare()
        + listed::compare()
        + list::compare();
    field::measure();
    graph::measure();
    words::measure();
    peeling::measure();
    decoding_speed::measure();
    list_decoding_speed::measure();
    frame_speed::measure();
    if differences == 0 {
        println!("no differences");
        ExitCode::SUCCESS
    } else {
        println!("DIFFERENCES: {differences}");
        ExitCode::FAILURE
    }
}

/// The calls that encode a frame and those that decode one; gives the differences.
fn compare_frames() -> u64 {
    for name in ["ION_NB_LAYOUT", "ION_NB_FALLBACK"] {
        let is_set = std::env::var_os(name).is_some();
        assert!(!is_set, "by {name} the original has another default");
    }
    let mut encoded = EncodingTallies::new();
    let mut decoded = FrameTallies::new();
    let differences = places::compare(&mut encoded, &mut decoded);
    encodings::compare(&mut encoded);
    frames::compare(&mut decoded);
    frame_traps::compare(&mut decoded);
    frame_refused::compare(&mut decoded);
    differences + encoded.finish() + decoded.finish()
}

/// The calls on a lent code; gives the differences.
fn compare_on_codes() -> u64 {
    let mut tallies = Tallies::new();
    words::compare(&mut tallies);
    peeling::compare(&mut tallies);
    decoding::compare(&mut tallies);
    list_decoding::compare(&mut tallies);
    list_refused::compare(&mut tallies);
    refused::compare(&mut tallies);
    tallies.finish()
}
