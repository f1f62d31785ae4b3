//! The portable library for programs in other languages: the calls that bindings/c/sotjarn.h declares, with nothing of Rust's standard
//! library. All of it is in crate sotjarn_portable; this one has what a library by itself needs beside.

#![no_std]
#![deny(unsafe_code)]

pub use engine::exports::*;

/// A failed index or overflow check ends the program.
#[cfg(not(test))]
#[panic_handler]
fn failed(_: &core::panic::PanicInfo) -> ! {
    stop()
}

// Rust's ready-made helpers, which the static library has beside the calls, name the function that unwinds. Nothing unwinds here, and a
// program leaves those helpers out; one that takes the archive whole finds the name here, unless it has Rust's own.
#[allow(unsafe_code)]
#[cfg(all(target_family = "unix", not(target_vendor = "apple")))]
mod unwinding {
    core::arch::global_asm!(".weak rust_eh_personality", "rust_eh_personality:", ".long 0");
}
