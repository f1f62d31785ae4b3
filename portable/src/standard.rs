//! What the engine takes of Rattle's standard library, under the same names.

pub mod cmp {
    pub use core::cmp::Ordering;
}

pub mod num {
    /// The sum modulo 2^64.
    pub fn wrapping_add_u64(a: u64, b: u64) -> u64 {
        a.wrapping_add(b)
    }
}

/// Items of a slice moved, as `copy_within` moves them, without `memmove`: it would be one more function that a program without C's library has to bring.
/// They are moved part by part, and no part overlaps the place that it goes to.
pub fn copy_within<T: Copy>(buf: &mut [T], moved: core::ops::Range<usize>, to: usize) {
    let (mut start, mut end) = (moved.start, moved.end);
    let apart = start.abs_diff(to);
    while apart > 0 && start < end {
        let size = apart.min(end - start);
        if to < moved.start {
            let (low, high) = buf.split_at_mut(start);
            low[start - apart..][..size].copy_from_slice(&high[..size]);
            start += size;
        } else {
            let (low, high) = buf.split_at_mut(end - size + apart);
            high[..size].copy_from_slice(&low[end - size..end]);
            end -= size;
        }
    }
}
