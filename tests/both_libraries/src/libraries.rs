//! The two libraries, each by its functions for C: unsafe code is here alone.

use std::ffi::{c_char, c_int, c_void, CStr, CString};
use std::mem::transmute_copy;

#[derive(Clone, Copy, Debug, PartialEq)]
#[repr(C)]
pub struct Written {
    pub refused: u32,
    pub words: usize,
}

#[derive(Clone, Copy, Debug, PartialEq)]
#[repr(C)]
pub struct Turned {
    pub ending: u32,
    pub refused: u32,
    pub steps: u32,
    pub state_words: usize,
    pub list_words: usize,
}

#[derive(Clone, Copy, Debug, PartialEq)]
#[repr(C)]
pub struct Made {
    pub refused: u32,
    pub rows_words: usize,
    pub pos_words: usize,
    pub osp_words: usize,
    pub report_words: usize,
}

/// What writing a view and growing a wood answer.
#[derive(Clone, Copy, Debug, PartialEq)]
#[repr(C)]
pub struct Viewed {
    pub refused: u32,
    pub rows_words: usize,
    pub pos_words: usize,
    pub osp_words: usize,
}

/// A waiting query, as bindings/c/sotjarn.h lays it out.
#[derive(Clone, Copy, Debug, PartialEq)]
#[repr(C)]
pub struct Entry {
    pub allowance: u64,
    pub owner: u32,
    pub plan_words: u32,
    pub state_words: u32,
    pub plan: [u32; 256],
    pub state: [u32; 11],
}

#[derive(Clone, Copy, Debug, PartialEq)]
#[repr(C)]
pub struct Queued {
    pub refused: u32,
    pub line_entries: usize,
    pub aside_entries: usize,
}

#[derive(Clone, Copy, Debug, PartialEq)]
#[repr(C)]
pub struct Service {
    pub ending: u32,
    pub refused: u32,
    pub steps: u32,
    pub owner: u32,
    pub left: u64,
    pub state_words: usize,
    pub list_words: usize,
    pub line_entries: usize,
    pub aside_entries: usize,
}

#[derive(Clone, Copy, Debug, PartialEq)]
#[repr(C)]
pub struct Numbered {
    pub refused: u32,
    pub bytes: usize,
    pub strings: usize,
}

#[derive(Clone, Copy, Debug, PartialEq)]
#[repr(C)]
pub struct Found {
    pub refused: u32,
    pub present: u32,
    pub number: usize,
}

#[derive(Clone, Copy, Debug, PartialEq)]
#[repr(C)]
pub struct Bounds {
    pub refused: u32,
    pub present: u32,
    pub start: usize,
    pub end: usize,
}

/// A buffer that is read, as C has it, and one that is written, of words and of bytes; and a list of entries, which is written.
type Read = *const u32;
type Write = *mut u32;
type ReadBytes = *const u8;
type WriteBytes = *mut u8;
type Entries = *mut Entry;
type OpenCall = unsafe extern "C" fn(Read, usize, Read, usize, Read, usize, u32, Read, usize, Write, usize) -> Written;
type TurnCall = unsafe extern "C" fn(
    Read,
    usize,
    Read,
    usize,
    Read,
    usize,
    u32,
    Read,
    usize,
    Write,
    usize,
    usize,
    u32,
    Read,
    usize,
    Write,
    usize,
) -> Turned;
type MergeCall = unsafe extern "C" fn(Read, usize, Write, usize, usize, Read, usize) -> Written;
type ReportCall = unsafe extern "C" fn(Read, usize, usize, Write, usize) -> Written;
type LeastCall = unsafe extern "C" fn(Read, usize) -> Written;
type MakeCall = unsafe extern "C" fn(Read, usize, Write, usize, Write, usize, Write, usize, Write, usize) -> Made;
type ViewCall = unsafe extern "C" fn(
    Read,
    usize,
    Read,
    usize,
    Read,
    usize,
    Read,
    usize,
    u32,
    Write,
    usize,
    Write,
    usize,
    Write,
    usize,
) -> Viewed;
type GrowCall = unsafe extern "C" fn(u32, u32, u32, Write, usize, Write, usize, Write, usize) -> Viewed;
type JoinCall = unsafe extern "C" fn(
    Read,
    usize,
    Read,
    usize,
    Read,
    usize,
    u32,
    Entries,
    usize,
    usize,
    Entries,
    usize,
    usize,
    u32,
    u64,
    Read,
    usize,
    Read,
    usize,
) -> Queued;
type ServeCall = unsafe extern "C" fn(
    Read,
    usize,
    Read,
    usize,
    Read,
    usize,
    u32,
    Entries,
    usize,
    usize,
    Entries,
    usize,
    usize,
    u32,
    Read,
    usize,
    Write,
    usize,
) -> Service;
type TopUpCall = unsafe extern "C" fn(Entries, usize, usize, Entries, usize, usize, u32, u64) -> Queued;
type NumberCall = unsafe extern "C" fn(
    u32,
    ReadBytes,
    usize,
    Read,
    usize,
    WriteBytes,
    usize,
    Write,
    usize,
    Write,
    usize,
    Write,
    usize,
) -> Numbered;
type FindCall = unsafe extern "C" fn(u32, ReadBytes, usize, Read, usize, ReadBytes, usize) -> Found;
type StringCall = unsafe extern "C" fn(u32, ReadBytes, usize, Read, usize, usize) -> Bounds;

#[link(name = "sotjarn", kind = "static")]
extern "C" {
    fn sotjarn_open(
        _: Read,
        _: usize,
        _: Read,
        _: usize,
        _: Read,
        _: usize,
        _: u32,
        _: Read,
        _: usize,
        _: Write,
        _: usize,
    ) -> Written;
    fn sotjarn_turn(
        _: Read,
        _: usize,
        _: Read,
        _: usize,
        _: Read,
        _: usize,
        _: u32,
        _: Read,
        _: usize,
        _: Write,
        _: usize,
        _: usize,
        _: u32,
        _: Read,
        _: usize,
        _: Write,
        _: usize,
    ) -> Turned;
    fn sotjarn_merge(_: Read, _: usize, _: Write, _: usize, _: usize, _: Read, _: usize) -> Written;
    fn sotjarn_report(_: Read, _: usize, _: usize, _: Write, _: usize) -> Written;
    fn sotjarn_least_output(_: Read, _: usize) -> Written;
    fn sotjarn_make(_: Read, _: usize, _: Write, _: usize, _: Write, _: usize, _: Write, _: usize, _: Write, _: usize) -> Made;
    fn sotjarn_view(
        _: Read,
        _: usize,
        _: Read,
        _: usize,
        _: Read,
        _: usize,
        _: Read,
        _: usize,
        _: u32,
        _: Write,
        _: usize,
        _: Write,
        _: usize,
        _: Write,
        _: usize,
    ) -> Viewed;
    fn sotjarn_grow(_: u32, _: u32, _: u32, _: Write, _: usize, _: Write, _: usize, _: Write, _: usize) -> Viewed;
    fn sotjarn_join(
        _: Read,
        _: usize,
        _: Read,
        _: usize,
        _: Read,
        _: usize,
        _: u32,
        _: Entries,
        _: usize,
        _: usize,
        _: Entries,
        _: usize,
        _: usize,
        _: u32,
        _: u64,
        _: Read,
        _: usize,
        _: Read,
        _: usize,
    ) -> Queued;
    fn sotjarn_serve(
        _: Read,
        _: usize,
        _: Read,
        _: usize,
        _: Read,
        _: usize,
        _: u32,
        _: Entries,
        _: usize,
        _: usize,
        _: Entries,
        _: usize,
        _: usize,
        _: u32,
        _: Read,
        _: usize,
        _: Write,
        _: usize,
    ) -> Service;
    fn sotjarn_top_up(_: Entries, _: usize, _: usize, _: Entries, _: usize, _: usize, _: u32, _: u64) -> Queued;
    fn sotjarn_number(
        _: u32,
        _: ReadBytes,
        _: usize,
        _: Read,
        _: usize,
        _: WriteBytes,
        _: usize,
        _: Write,
        _: usize,
        _: Write,
        _: usize,
        _: Write,
        _: usize,
    ) -> Numbered;
    fn sotjarn_find(_: u32, _: ReadBytes, _: usize, _: Read, _: usize, _: ReadBytes, _: usize) -> Found;
    fn sotjarn_string(_: u32, _: ReadBytes, _: usize, _: Read, _: usize, _: usize) -> Bounds;
}

#[link(name = "dl")]
extern "C" {
    fn dlopen(file: *const c_char, flags: c_int) -> *mut c_void;
    fn dlsym(library: *mut c_void, name: *const c_char) -> *mut c_void;
    fn dlerror() -> *const c_char;
}

/// Every symbol is found when the library is loaded.
const RTLD_NOW: c_int = 2;

pub struct Library {
    open: OpenCall,
    turn: TurnCall,
    merge: MergeCall,
    report: ReportCall,
    least: LeastCall,
    make: MakeCall,
    view: ViewCall,
    grow: GrowCall,
    join: JoinCall,
    serve: ServeCall,
    top_up: TopUpCall,
    number: NumberCall,
    find: FindCall,
    string: StringCall,
}

/// Both lists of a call: their buffers, and how many entries each has.
pub struct LentLists<'a> {
    pub line: &'a mut [Entry],
    pub line_entries: usize,
    pub aside: &'a mut [Entry],
    pub aside_entries: usize,
}

/// The tables, the survey's number and the plan of a call.
pub struct Lent<'a> {
    pub rows: &'a [u32],
    pub pos: &'a [u32],
    pub osp: &'a [u32],
    pub survey: u32,
    pub plan: &'a [u32],
}

impl Library {
    pub fn proved() -> Library {
        Library {
            open: sotjarn_open,
            turn: sotjarn_turn,
            merge: sotjarn_merge,
            report: sotjarn_report,
            least: sotjarn_least_output,
            make: sotjarn_make,
            view: sotjarn_view,
            grow: sotjarn_grow,
            join: sotjarn_join,
            serve: sotjarn_serve,
            top_up: sotjarn_top_up,
            number: sotjarn_number,
            find: sotjarn_find,
            string: sotjarn_string,
        }
    }

    /// A shared library's functions of the same names.
    pub fn loaded(file: &str) -> Library {
        let path = CString::new(file).expect("a path has no 0");
        // Sound: the path ends in 0; the library has no code that runs when it is loaded.
        let library = unsafe { dlopen(path.as_ptr(), RTLD_NOW) };
        // Sound: after a failed dlopen, dlerror answers a text that ends in 0.
        assert!(!library.is_null(), "{:?}", unsafe { CStr::from_ptr(dlerror()) });
        let symbol = |name: &CStr| {
            // Sound: the library is loaded, and the name ends in 0.
            let found = unsafe { dlsym(library, name.as_ptr()) };
            assert!(!found.is_null(), "{file} has no {name:?}");
            found
        };
        // Sound: the functions have these signatures by bindings/c/sotjarn.h; an address has the size of a function's.
        unsafe {
            Library {
                open: transmute_copy(&symbol(c"sotjarn_open")),
                turn: transmute_copy(&symbol(c"sotjarn_turn")),
                merge: transmute_copy(&symbol(c"sotjarn_merge")),
                report: transmute_copy(&symbol(c"sotjarn_report")),
                least: transmute_copy(&symbol(c"sotjarn_least_output")),
                make: transmute_copy(&symbol(c"sotjarn_make")),
                view: transmute_copy(&symbol(c"sotjarn_view")),
                grow: transmute_copy(&symbol(c"sotjarn_grow")),
                join: transmute_copy(&symbol(c"sotjarn_join")),
                serve: transmute_copy(&symbol(c"sotjarn_serve")),
                top_up: transmute_copy(&symbol(c"sotjarn_top_up")),
                number: transmute_copy(&symbol(c"sotjarn_number")),
                find: transmute_copy(&symbol(c"sotjarn_find")),
                string: transmute_copy(&symbol(c"sotjarn_string")),
            }
        }
    }

    pub fn open(&self, lent: &Lent, state: &mut [u32]) -> Written {
        let Lent {
            rows, pos, osp, plan, ..
        } = lent;
        // Sound: each address and length is a slice's, and the written buffer is a `&mut` slice.
        unsafe {
            (self.open)(
                rows.as_ptr(),
                rows.len(),
                pos.as_ptr(),
                pos.len(),
                osp.as_ptr(),
                osp.len(),
                lent.survey,
                plan.as_ptr(),
                plan.len(),
                state.as_mut_ptr(),
                state.len(),
            )
        }
    }

    pub fn turn(
        &self,
        lent: &Lent,
        state: &mut [u32],
        given: usize,
        quantum: u32,
        threshold: &[u32],
        output: &mut [u32],
    ) -> Turned {
        let Lent {
            rows, pos, osp, plan, ..
        } = lent;
        // Sound: each address and length is a slice's, and the written buffers are `&mut` slices.
        unsafe {
            (self.turn)(
                rows.as_ptr(),
                rows.len(),
                pos.as_ptr(),
                pos.len(),
                osp.as_ptr(),
                osp.len(),
                lent.survey,
                plan.as_ptr(),
                plan.len(),
                state.as_mut_ptr(),
                state.len(),
                given,
                quantum,
                threshold.as_ptr(),
                threshold.len(),
                output.as_mut_ptr(),
                output.len(),
            )
        }
    }

    pub fn merge(&self, plan: &[u32], kept: &mut [u32], given: usize, list: &[u32]) -> Written {
        // Sound: each address and length is a slice's, and the written buffer is a `&mut` slice.
        unsafe {
            (self.merge)(
                plan.as_ptr(),
                plan.len(),
                kept.as_mut_ptr(),
                kept.len(),
                given,
                list.as_ptr(),
                list.len(),
            )
        }
    }

    pub fn report(&self, kept: &[u32], given: usize, report: &mut [u32]) -> Written {
        // Sound: each address and length is a slice's, and the written buffer is a `&mut` slice.
        unsafe { (self.report)(kept.as_ptr(), kept.len(), given, report.as_mut_ptr(), report.len()) }
    }

    pub fn least_output(&self, plan: &[u32]) -> Written {
        // Sound: the address and the length are a slice's, and nothing is written.
        unsafe { (self.least)(plan.as_ptr(), plan.len()) }
    }

    pub fn make(&self, upload: &[u32], rows: &mut [u32], pos: &mut [u32], osp: &mut [u32], report: &mut [u32]) -> Made {
        // Sound: each address and length is a slice's, and the written buffers are `&mut` slices.
        unsafe {
            (self.make)(
                upload.as_ptr(),
                upload.len(),
                rows.as_mut_ptr(),
                rows.len(),
                pos.as_mut_ptr(),
                pos.len(),
                osp.as_mut_ptr(),
                osp.len(),
                report.as_mut_ptr(),
                report.len(),
            )
        }
    }

    /// Number and plan of `lent` are none of the call's.
    pub fn view(&self, lent: &Lent, grant: &[u32], membership: u32, seen: [&mut [u32]; 3]) -> Viewed {
        let Lent { rows, pos, osp, .. } = lent;
        let [view_rows, view_pos, view_osp] = seen;
        // Sound: each address and length is a slice's, and the written buffers are `&mut` slices.
        unsafe {
            (self.view)(
                rows.as_ptr(),
                rows.len(),
                pos.as_ptr(),
                pos.len(),
                osp.as_ptr(),
                osp.len(),
                grant.as_ptr(),
                grant.len(),
                membership,
                view_rows.as_mut_ptr(),
                view_rows.len(),
                view_pos.as_mut_ptr(),
                view_pos.len(),
                view_osp.as_mut_ptr(),
                view_osp.len(),
            )
        }
    }

    pub fn grow(&self, seed: u32, stems: u32, year: u32, rows: &mut [u32], pos: &mut [u32], osp: &mut [u32]) -> Viewed {
        // Sound: each address and length is a slice's, and the written buffers are `&mut` slices.
        unsafe {
            (self.grow)(
                seed,
                stems,
                year,
                rows.as_mut_ptr(),
                rows.len(),
                pos.as_mut_ptr(),
                pos.len(),
                osp.as_mut_ptr(),
                osp.len(),
            )
        }
    }

    /// The plan of the tables joins, from this state.
    pub fn join(&self, lent: &Lent, lists: LentLists, owner: u32, allowance: u64, state: &[u32]) -> Queued {
        let Lent {
            rows, pos, osp, plan, ..
        } = lent;
        // Sound: each address and length is a slice's, and both lists are `&mut` slices of the header's layout.
        unsafe {
            (self.join)(
                rows.as_ptr(),
                rows.len(),
                pos.as_ptr(),
                pos.len(),
                osp.as_ptr(),
                osp.len(),
                lent.survey,
                lists.line.as_mut_ptr(),
                lists.line.len(),
                lists.line_entries,
                lists.aside.as_mut_ptr(),
                lists.aside.len(),
                lists.aside_entries,
                owner,
                allowance,
                plan.as_ptr(),
                plan.len(),
                state.as_ptr(),
                state.len(),
            )
        }
    }

    /// Number and plan of `lent` are none of the call's.
    pub fn serve(&self, lent: &Lent, lists: LentLists, quantum: u32, threshold: &[u32], output: &mut [u32]) -> Service {
        let Lent { rows, pos, osp, .. } = lent;
        // Sound: each address and length is a slice's; both lists and the output are `&mut` slices.
        unsafe {
            (self.serve)(
                rows.as_ptr(),
                rows.len(),
                pos.as_ptr(),
                pos.len(),
                osp.as_ptr(),
                osp.len(),
                lent.survey,
                lists.line.as_mut_ptr(),
                lists.line.len(),
                lists.line_entries,
                lists.aside.as_mut_ptr(),
                lists.aside.len(),
                lists.aside_entries,
                quantum,
                threshold.as_ptr(),
                threshold.len(),
                output.as_mut_ptr(),
                output.len(),
            )
        }
    }

    pub fn top_up(&self, lists: LentLists, owner: u32, amount: u64) -> Queued {
        // Sound: each address and length is a slice's, and both lists are `&mut` slices.
        unsafe {
            (self.top_up)(
                lists.line.as_mut_ptr(),
                lists.line.len(),
                lists.line_entries,
                lists.aside.as_mut_ptr(),
                lists.aside.len(),
                lists.aside_entries,
                owner,
                amount,
            )
        }
    }

    /// The written words are those of ends, numbers and places.
    pub fn number(&self, kind: u32, bytes: &[u8], ends: &[u32], out: &mut [u8], written: [&mut [u32]; 3]) -> Numbered {
        let [cuts, numbers, places] = written;
        // Sound: each address and length is a slice's, and the written buffers are `&mut` slices.
        unsafe {
            (self.number)(
                kind,
                bytes.as_ptr(),
                bytes.len(),
                ends.as_ptr(),
                ends.len(),
                out.as_mut_ptr(),
                out.len(),
                cuts.as_mut_ptr(),
                cuts.len(),
                numbers.as_mut_ptr(),
                numbers.len(),
                places.as_mut_ptr(),
                places.len(),
            )
        }
    }

    pub fn find(&self, kind: u32, bytes: &[u8], ends: &[u32], sought: &[u8]) -> Found {
        // Sound: each address and length is a slice's, and nothing is written.
        unsafe {
            (self.find)(
                kind,
                bytes.as_ptr(),
                bytes.len(),
                ends.as_ptr(),
                ends.len(),
                sought.as_ptr(),
                sought.len(),
            )
        }
    }

    pub fn string(&self, kind: u32, bytes: &[u8], ends: &[u32], number: usize) -> Bounds {
        // Sound: as for `find`.
        unsafe { (self.string)(kind, bytes.as_ptr(), bytes.len(), ends.as_ptr(), ends.len(), number) }
    }
}
