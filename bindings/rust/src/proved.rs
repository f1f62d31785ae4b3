//! The calls of the proved library over slices, as the portable engine has them: the only place with unsafe code.
//!
//! What bindings/c/sotjarn.h asks of a caller, slices give: a slice's address is never null, even where its length is 0; it is aligned
//! for its items; so many of them may be read from it; a `&mut` slice may be written and overlaps no other; and nobody writes what is borrowed
//! while the call runs. The library keeps no address and has no state of its own.

/// What opening, merging and a report on registers answer, and what a plan asks of an output.
#[repr(C)]
pub struct WrittenNumbers {
    pub refused: u32,
    pub words: usize,
}

/// What a turn answers.
#[repr(C)]
pub struct TurnedNumbers {
    pub ending: u32,
    pub refused: u32,
    pub steps: u32,
    pub saved: usize,
    pub listed: usize,
}

/// What making tables answers.
#[repr(C)]
pub struct MadeNumbers {
    pub refused: u32,
    pub rows: usize,
    pub pos: usize,
    pub osp: usize,
    pub report: usize,
}

/// What writing tables answers.
#[repr(C)]
pub struct TablesNumbers {
    pub refused: u32,
    pub rows: usize,
    pub pos: usize,
    pub osp: usize,
}

/// A waiting query, as the header lays it out.
#[derive(Clone, Copy, Debug, PartialEq, Eq)]
#[repr(C)]
pub struct Entry {
    /// The steps left to it.
    pub allowance: u64,
    /// Whose it is.
    pub owner: u32,
    /// How many words of `plan` are its plan.
    pub planned: u32,
    /// How many words of `state` are its state.
    pub saved: u32,
    /// Its plan, and what stands behind it.
    pub plan: [u32; 256],
    /// Its state, and what stands behind it.
    pub state: [u32; 11],
}

/// What joining and topping up answer.
#[repr(C)]
pub struct QueuedNumbers {
    pub refused: u32,
    pub waiting: usize,
    pub resting: usize,
}

/// What serving answers.
#[repr(C)]
pub struct ServiceNumbers {
    pub ending: u32,
    pub refused: u32,
    pub steps: u32,
    pub owner: u32,
    pub left: u64,
    pub saved: usize,
    pub listed: usize,
    pub waiting: usize,
    pub resting: usize,
}

/// What numbering strings answers.
#[repr(C)]
pub struct NumberedNumbers {
    pub refused: u32,
    pub bytes: usize,
    pub strings: usize,
}

/// What looking for a string answers.
#[repr(C)]
pub struct FoundNumbers {
    pub refused: u32,
    pub present: u32,
    pub number: usize,
}

/// What the string of a number is.
#[repr(C)]
pub struct BoundsNumbers {
    pub refused: u32,
    pub present: u32,
    pub start: usize,
    pub end: usize,
}

// The numbers of the kinds of strings, and of a string or a number that a dictionary has.
pub const NAMES: u32 = 0;
pub const TEXTS: u32 = 1;
pub const PRESENT: u32 = 1;

// The numbers of a turn's endings.
pub const DONE: u32 = 0;
pub const SPENT: u32 = 1;
pub const FULL: u32 = 2;
pub const REFUSED: u32 = 3;

/// The calls as the header declares them.
mod foreign {
    use super::{BoundsNumbers, Entry, FoundNumbers, MadeNumbers, NumberedNumbers, QueuedNumbers, ServiceNumbers};
    use super::{TablesNumbers, TurnedNumbers, WrittenNumbers};

    extern "C" {
        pub fn sotjarn_open(
            rows: *const u32,
            rows_len: usize,
            pos: *const u32,
            pos_len: usize,
            osp: *const u32,
            osp_len: usize,
            survey: u32,
            plan: *const u32,
            plan_len: usize,
            state: *mut u32,
            state_len: usize,
        ) -> WrittenNumbers;

        pub fn sotjarn_turn(
            rows: *const u32,
            rows_len: usize,
            pos: *const u32,
            pos_len: usize,
            osp: *const u32,
            osp_len: usize,
            survey: u32,
            plan: *const u32,
            plan_len: usize,
            state: *mut u32,
            state_len: usize,
            state_words: usize,
            quantum: u32,
            threshold: *const u32,
            threshold_len: usize,
            output: *mut u32,
            output_len: usize,
        ) -> TurnedNumbers;

        pub fn sotjarn_merge(
            plan: *const u32,
            plan_len: usize,
            kept: *mut u32,
            kept_len: usize,
            kept_words: usize,
            list: *const u32,
            list_len: usize,
        ) -> WrittenNumbers;

        pub fn sotjarn_report(
            kept: *const u32,
            kept_len: usize,
            kept_words: usize,
            report: *mut u32,
            report_len: usize,
        ) -> WrittenNumbers;

        pub fn sotjarn_least_output(plan: *const u32, plan_len: usize) -> WrittenNumbers;

        pub fn sotjarn_make(
            upload: *const u32,
            upload_len: usize,
            rows: *mut u32,
            rows_len: usize,
            pos: *mut u32,
            pos_len: usize,
            osp: *mut u32,
            osp_len: usize,
            report: *mut u32,
            report_len: usize,
        ) -> MadeNumbers;

        pub fn sotjarn_view(
            rows: *const u32,
            rows_len: usize,
            pos: *const u32,
            pos_len: usize,
            osp: *const u32,
            osp_len: usize,
            grant: *const u32,
            grant_len: usize,
            membership: u32,
            view_rows: *mut u32,
            view_rows_len: usize,
            view_pos: *mut u32,
            view_pos_len: usize,
            view_osp: *mut u32,
            view_osp_len: usize,
        ) -> TablesNumbers;

        pub fn sotjarn_grow(
            seed: u32,
            stems: u32,
            year: u32,
            rows: *mut u32,
            rows_len: usize,
            pos: *mut u32,
            pos_len: usize,
            osp: *mut u32,
            osp_len: usize,
        ) -> TablesNumbers;

        pub fn sotjarn_join(
            rows: *const u32,
            rows_len: usize,
            pos: *const u32,
            pos_len: usize,
            osp: *const u32,
            osp_len: usize,
            survey: u32,
            line: *mut Entry,
            line_len: usize,
            line_entries: usize,
            aside: *mut Entry,
            aside_len: usize,
            aside_entries: usize,
            owner: u32,
            allowance: u64,
            plan: *const u32,
            plan_len: usize,
            state: *const u32,
            state_len: usize,
        ) -> QueuedNumbers;

        pub fn sotjarn_serve(
            rows: *const u32,
            rows_len: usize,
            pos: *const u32,
            pos_len: usize,
            osp: *const u32,
            osp_len: usize,
            survey: u32,
            line: *mut Entry,
            line_len: usize,
            line_entries: usize,
            aside: *mut Entry,
            aside_len: usize,
            aside_entries: usize,
            quantum: u32,
            threshold: *const u32,
            threshold_len: usize,
            output: *mut u32,
            output_len: usize,
        ) -> ServiceNumbers;

        pub fn sotjarn_top_up(
            line: *mut Entry,
            line_len: usize,
            line_entries: usize,
            aside: *mut Entry,
            aside_len: usize,
            aside_entries: usize,
            owner: u32,
            amount: u64,
        ) -> QueuedNumbers;

        pub fn sotjarn_number(
            kind: u32,
            bytes: *const u8,
            bytes_len: usize,
            ends: *const u32,
            ends_len: usize,
            out: *mut u8,
            out_len: usize,
            cuts: *mut u32,
            cuts_len: usize,
            numbers: *mut u32,
            numbers_len: usize,
            places: *mut u32,
            places_len: usize,
        ) -> NumberedNumbers;

        pub fn sotjarn_find(
            kind: u32,
            bytes: *const u8,
            bytes_len: usize,
            ends: *const u32,
            ends_len: usize,
            sought: *const u8,
            sought_len: usize,
        ) -> FoundNumbers;

        pub fn sotjarn_string(
            kind: u32,
            bytes: *const u8,
            bytes_len: usize,
            ends: *const u32,
            ends_len: usize,
            number: usize,
        ) -> BoundsNumbers;
    }
}

pub fn sotjarn_open(rows: &[u32], pos: &[u32], osp: &[u32], survey: u32, plan: &[u32], state: &mut [u32]) -> WrittenNumbers {
    // Sound: each address and length is a slice's, and `state`, the one that is written, is a `&mut` slice (see the module).
    unsafe {
        foreign::sotjarn_open(
            rows.as_ptr(),
            rows.len(),
            pos.as_ptr(),
            pos.len(),
            osp.as_ptr(),
            osp.len(),
            survey,
            plan.as_ptr(),
            plan.len(),
            state.as_mut_ptr(),
            state.len(),
        )
    }
}

#[allow(clippy::too_many_arguments)]
pub fn sotjarn_turn(
    rows: &[u32],
    pos: &[u32],
    osp: &[u32],
    survey: u32,
    plan: &[u32],
    state: &mut [u32],
    given: usize,
    quantum: u32,
    threshold: &[u32],
    output: &mut [u32],
) -> TurnedNumbers {
    // Sound: each address and length is a slice's; `state` and `output`, the two that are written, are `&mut` slices, so they
    // overlap neither each other nor the rest (see the module).
    unsafe {
        foreign::sotjarn_turn(
            rows.as_ptr(),
            rows.len(),
            pos.as_ptr(),
            pos.len(),
            osp.as_ptr(),
            osp.len(),
            survey,
            plan.as_ptr(),
            plan.len(),
            state.as_mut_ptr(),
            state.len(),
            given,
            quantum,
            threshold.as_ptr(),
            threshold.len(),
            output.as_mut_ptr(),
            output.len(),
        )
    }
}

pub fn sotjarn_merge(plan: &[u32], kept: &mut [u32], given: usize, list: &[u32]) -> WrittenNumbers {
    // Sound: each address and length is a slice's, and `kept`, the one that is written, is a `&mut` slice (see the module).
    unsafe {
        foreign::sotjarn_merge(
            plan.as_ptr(),
            plan.len(),
            kept.as_mut_ptr(),
            kept.len(),
            given,
            list.as_ptr(),
            list.len(),
        )
    }
}

pub fn sotjarn_report(kept: &[u32], given: usize, report: &mut [u32]) -> WrittenNumbers {
    // Sound: each address and length is a slice's, and `report`, the one that is written, is a `&mut` slice (see the module).
    unsafe { foreign::sotjarn_report(kept.as_ptr(), kept.len(), given, report.as_mut_ptr(), report.len()) }
}

pub fn sotjarn_least_output(plan: &[u32]) -> WrittenNumbers {
    // Sound: the address and the length are a slice's, and nothing is written (see the module).
    unsafe { foreign::sotjarn_least_output(plan.as_ptr(), plan.len()) }
}

pub fn sotjarn_make(upload: &[u32], rows: &mut [u32], pos: &mut [u32], osp: &mut [u32], report: &mut [u32]) -> MadeNumbers {
    // Sound: each address and length is a slice's; the four that are written are `&mut` slices, so they overlap neither each other
    // nor the upload (see the module).
    unsafe {
        foreign::sotjarn_make(
            upload.as_ptr(),
            upload.len(),
            rows.as_mut_ptr(),
            rows.len(),
            pos.as_mut_ptr(),
            pos.len(),
            osp.as_mut_ptr(),
            osp.len(),
            report.as_mut_ptr(),
            report.len(),
        )
    }
}

#[allow(clippy::too_many_arguments)]
pub fn sotjarn_view(
    rows: &[u32],
    pos: &[u32],
    osp: &[u32],
    grant: &[u32],
    membership: u32,
    view_rows: &mut [u32],
    view_pos: &mut [u32],
    view_osp: &mut [u32],
) -> TablesNumbers {
    // Sound: each address and length is a slice's; the three that are written are `&mut` slices, so they overlap neither each other
    // nor the rest (see the module).
    unsafe {
        foreign::sotjarn_view(
            rows.as_ptr(),
            rows.len(),
            pos.as_ptr(),
            pos.len(),
            osp.as_ptr(),
            osp.len(),
            grant.as_ptr(),
            grant.len(),
            membership,
            view_rows.as_mut_ptr(),
            view_rows.len(),
            view_pos.as_mut_ptr(),
            view_pos.len(),
            view_osp.as_mut_ptr(),
            view_osp.len(),
        )
    }
}

pub fn sotjarn_grow(seed: u32, stems: u32, year: u32, rows: &mut [u32], pos: &mut [u32], osp: &mut [u32]) -> TablesNumbers {
    // Sound: each address and length is a slice's; all three are written, and are `&mut` slices, so they do not overlap (see the module).
    unsafe {
        foreign::sotjarn_grow(
            seed,
            stems,
            year,
            rows.as_mut_ptr(),
            rows.len(),
            pos.as_mut_ptr(),
            pos.len(),
            osp.as_mut_ptr(),
            osp.len(),
        )
    }
}

#[allow(clippy::too_many_arguments)]
pub fn sotjarn_join(
    rows: &[u32],
    pos: &[u32],
    osp: &[u32],
    survey: u32,
    line: &mut [Entry],
    given: usize,
    aside: &mut [Entry],
    kept: usize,
    owner: u32,
    allowance: u64,
    plan: &[u32],
    state: &[u32],
) -> QueuedNumbers {
    // Sound: each address and length is a slice's; `line` and `aside`, the two that are written, are `&mut` slices, so they overlap
    // neither each other nor the rest; an `Entry` has the header's layout, and any numbers may stand in it (see the module).
    unsafe {
        foreign::sotjarn_join(
            rows.as_ptr(),
            rows.len(),
            pos.as_ptr(),
            pos.len(),
            osp.as_ptr(),
            osp.len(),
            survey,
            line.as_mut_ptr(),
            line.len(),
            given,
            aside.as_mut_ptr(),
            aside.len(),
            kept,
            owner,
            allowance,
            plan.as_ptr(),
            plan.len(),
            state.as_ptr(),
            state.len(),
        )
    }
}

#[allow(clippy::too_many_arguments)]
pub fn sotjarn_serve(
    rows: &[u32],
    pos: &[u32],
    osp: &[u32],
    survey: u32,
    line: &mut [Entry],
    given: usize,
    aside: &mut [Entry],
    kept: usize,
    quantum: u32,
    threshold: &[u32],
    output: &mut [u32],
) -> ServiceNumbers {
    // Sound: as for `sotjarn_join`; `output` is written too, and is a `&mut` slice.
    unsafe {
        foreign::sotjarn_serve(
            rows.as_ptr(),
            rows.len(),
            pos.as_ptr(),
            pos.len(),
            osp.as_ptr(),
            osp.len(),
            survey,
            line.as_mut_ptr(),
            line.len(),
            given,
            aside.as_mut_ptr(),
            aside.len(),
            kept,
            quantum,
            threshold.as_ptr(),
            threshold.len(),
            output.as_mut_ptr(),
            output.len(),
        )
    }
}

pub fn sotjarn_top_up(
    line: &mut [Entry],
    given: usize,
    aside: &mut [Entry],
    kept: usize,
    owner: u32,
    amount: u64,
) -> QueuedNumbers {
    // Sound: as for `sotjarn_join`.
    unsafe {
        foreign::sotjarn_top_up(
            line.as_mut_ptr(),
            line.len(),
            given,
            aside.as_mut_ptr(),
            aside.len(),
            kept,
            owner,
            amount,
        )
    }
}

pub fn sotjarn_number(
    kind: u32,
    bytes: &[u8],
    ends: &[u32],
    out: &mut [u8],
    cuts: &mut [u32],
    numbers: &mut [u32],
    places: &mut [u32],
) -> NumberedNumbers {
    // Sound: each address and length is a slice's; the four that are written are `&mut` slices, so they overlap neither each other
    // nor the strings (see the module).
    unsafe {
        foreign::sotjarn_number(
            kind,
            bytes.as_ptr(),
            bytes.len(),
            ends.as_ptr(),
            ends.len(),
            out.as_mut_ptr(),
            out.len(),
            cuts.as_mut_ptr(),
            cuts.len(),
            numbers.as_mut_ptr(),
            numbers.len(),
            places.as_mut_ptr(),
            places.len(),
        )
    }
}

pub fn sotjarn_find(kind: u32, bytes: &[u8], ends: &[u32], sought: &[u8]) -> FoundNumbers {
    // Sound: each address and length is a slice's, and nothing is written (see the module).
    unsafe {
        foreign::sotjarn_find(
            kind,
            bytes.as_ptr(),
            bytes.len(),
            ends.as_ptr(),
            ends.len(),
            sought.as_ptr(),
            sought.len(),
        )
    }
}

pub fn sotjarn_string(kind: u32, bytes: &[u8], ends: &[u32], number: usize) -> BoundsNumbers {
    // Sound: as for `sotjarn_find`.
    unsafe { foreign::sotjarn_string(kind, bytes.as_ptr(), bytes.len(), ends.as_ptr(), ends.len(), number) }
}
