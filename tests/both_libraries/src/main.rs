//! Makes the same calls of the proved library, which is linked, and of the portable one, which is loaded, and compares all that they
//! answer and write, word for word. tests/portable builds and runs it.
//!
//!     both_libraries PORTABLE.so [--seeds N] [--seed FIRST]      compare
//!     both_libraries --vectors FILE                              write the test vectors, with the proved library's answers
//!     both_libraries --soak CALLS [--seed FIRST] [PORTABLE.so]   a queue of 32 owners, by the proved library or by the one named
//!
//! Woods, uploads, plans, calls and damage come from the generators of bindings/rust's property tests.

#[path = "../../../bindings/rust/tests/properties/evaluation/mod.rs"]
#[allow(dead_code)]
mod evaluation;
#[path = "../../../bindings/rust/tests/properties/inputs/mod.rs"]
#[allow(dead_code)]
mod inputs;

mod comparing;
mod histories;
mod lending;
mod libraries;
mod soak;
mod strings;
mod vectors;

use std::env;
use std::process::exit;

/// What the command line asks for.
struct Options {
    portable: Option<String>,
    vectors: Option<String>,
    soak: Option<u64>,
    seeds: u64,
    first: u64,
}

fn options() -> Option<Options> {
    let mut found = Options {
        portable: None,
        vectors: None,
        soak: None,
        seeds: 10_000,
        first: 0,
    };
    let mut words = env::args().skip(1);
    while let Some(word) = words.next() {
        match &word[..] {
            "--seeds" => found.seeds = words.next()?.parse().ok()?,
            "--seed" => found.first = words.next()?.parse().ok()?,
            "--vectors" => found.vectors = Some(words.next()?),
            "--soak" => found.soak = Some(words.next()?.parse().ok()?),
            _ => found.portable = Some(word),
        }
    }
    Some(found)
}

fn main() {
    match options() {
        Some(Options { vectors: Some(file), .. }) => vectors::write(&file),
        Some(Options {
            soak: Some(calls),
            portable,
            first,
            ..
        }) => soak::soak(portable.as_deref(), calls, first),
        Some(Options {
            portable: Some(file),
            seeds,
            first,
            ..
        }) => comparing::compare(&file, first..first + seeds),
        _ => {
            eprintln!(
                "usage: both_libraries PORTABLE.so [--seeds N] [--seed FIRST] | both_libraries --vectors FILE | \
                 both_libraries --soak CALLS [--seed FIRST] [PORTABLE.so]"
            );
            exit(2);
        }
    }
}
