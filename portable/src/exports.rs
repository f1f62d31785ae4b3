//! The calls over addresses and lengths, as bindings/c/sotjarn.h declares them. The functions are made by build.rs from the
//! signatures of crate sotjarn; a slice there is an address and a length here.
#![allow(unsafe_code)]

/// The items at an address, so many. Of none the address does not matter.
unsafe fn lent<'a, T>(start: *const T, count: usize) -> &'a [T] {
    match count {
        0 => &[],
        _ => core::slice::from_raw_parts(start, count),
    }
}

/// The items at an address, so many, that may be written.
unsafe fn lent_mut<'a, T>(start: *mut T, count: usize) -> &'a mut [T] {
    match count {
        0 => &mut [],
        _ => core::slice::from_raw_parts_mut(start, count),
    }
}

/// Ends the program.
#[cfg(target_family = "wasm")]
pub fn stop() -> ! {
    core::arch::wasm32::unreachable()
}

/// Ends the program, by the C library.
#[cfg(not(target_family = "wasm"))]
pub fn stop() -> ! {
    extern "C" {
        fn abort() -> !;
    }
    // Sound: C's abort takes nothing and does not return.
    unsafe { abort() }
}

include!(concat!(env!("OUT_DIR"), "/exports.rs"));
