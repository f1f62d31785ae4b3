//! Sotjarn's calls as Rust, made at build time from the proved source: contracts and ghost lines left out, crates as modules, all
//! else as it stands there (build.rs says how). The translation and rustc are not proved; index and overflow checks stay on.
//!
//! `sotjarn_make`, `sotjarn_view`, `sotjarn_grow`, `sotjarn_open`, `sotjarn_turn`, `sotjarn_merge` and `sotjarn_report` take slices, and so do
//! `sotjarn_join`, `sotjarn_serve` and `sotjarn_top_up`, of words and of each [`Entry`], and `sotjarn_number`, `sotjarn_find` and `sotjarn_string`,
//! of bytes and words. With the feature `exports` they are there for C too, in the module of that name, the only one with unsafe code. Nothing here
//! needs Rust's standard library. bindings/rust has a client's side.
//!
//! ```
//! use sotjarn_portable::{sotjarn_find, sotjarn_make, sotjarn_open, sotjarn_turn, DONE, NAMES, PRESENT};
//!
//! let row = [0x4000_07EA, 1, 10, 100]; // i2026 n1 n10 n100
//! let upload = [row, row].concat(); // sent twice
//! let (mut rows, mut pos, mut osp, mut report) = ([0; 4], [0; 1], [0; 1], [0; 2]);
//! let made = sotjarn_make(&upload, &mut rows, &mut pos, &mut osp, &mut report);
//! assert_eq!((made.refused, rows, report), (0, row, [1, 2])); // the row at 1 is a repeat
//!
//! let plan = [0x1000_0001, 0x2000_0001, 0xC000_0000, 10, 100, 0x3000_0000, 0x8000_0001, 0xC000_0000];
//! let (mut state, mut output) = ([0; 11], [0; 1]);
//! let opened = sotjarn_open(&rows, &pos, &osp, 7, &plan, &mut state); // survey 7
//! assert_eq!((opened.refused, opened.words), (0, 4));
//! let turned = sotjarn_turn(&rows, &pos, &osp, 7, &plan, &mut state, opened.words, 10, &[], &mut output);
//! assert_eq!((turned.ending, turned.steps, output), (DONE, 2, [1]));
//!
//! let found = sotjarn_find(NAMES, b"ashoak", &[3, 6], b"oak"); // in a dictionary of two names
//! assert_eq!((found.refused, found.present, found.number), (0, PRESENT, 1));
//! ```

#![no_std]
#![deny(unsafe_code)]

mod standard;

include!(concat!(env!("OUT_DIR"), "/library/modules.rs"));

pub use queues::Entry;

#[cfg(feature = "exports")]
pub mod exports;
