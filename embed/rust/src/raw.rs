//! The calls of `morris.h`, which says what each of them owes and is owed.

use std::ffi::{c_char, CStr, OsStr};
use std::os::unix::ffi::OsStrExt;
use std::path::PathBuf;

/// Stands in the place of a point where no stone is taken.
pub const NONE: u8 = 255;
/// No position has more legal moves.
pub const MOST_MOVES: usize = 1944;

/// The kinds of values.
pub const DRAW: u16 = 0;
pub const WON: u16 = 1;

/// Open tables, of which only the library knows what is inside.
#[repr(C)]
pub struct Handle {
    _private: [u8; 0],
}

#[repr(C)]
#[derive(Clone, Copy, Default)]
pub struct RawValue {
    pub kind: u16,
    pub depth: u16,
}

#[repr(C)]
#[derive(Clone, Copy, Default)]
pub struct RawMove {
    pub from: u8,
    pub to: u8,
    pub taken: u8,
    pub pad: u8,
    pub value: RawValue,
}

/// Why a call of this thread failed. Later versions may have more members at its end.
#[repr(C)]
struct RawFault {
    status: i32,
    system: i32,
    greater: u32,
    lesser: u32,
    path: *const c_char,
    text: *const c_char,
}

extern "C" {
    pub fn morris_open(path: *const c_char, board: u32, status: *mut i32) -> *mut Handle;
    pub fn morris_close(tables: *mut Handle);
    pub fn morris_has(tables: *const Handle, greater: u32, lesser: u32) -> i32;
    pub fn morris_value_of(tables: *const Handle, own: u32, other: u32, out: *mut RawValue) -> i32;
    pub fn morris_moves_of(
        tables: *const Handle,
        own: u32,
        other: u32,
        out: *mut RawMove,
        room: usize,
        count: *mut usize,
    ) -> i32;
    pub fn morris_best(tables: *const Handle, own: u32, other: u32, out: *mut RawMove) -> i32;
    pub fn morris_check_tables(tables: *const Handle) -> i32;
    pub fn morris_play(
        board: u32,
        own: u32,
        other: u32,
        played: *const RawMove,
        next_own: *mut u32,
        next_other: *mut u32,
    ) -> i32;
    pub fn morris_legal_moves(
        board: u32,
        own: u32,
        other: u32,
        out: *mut RawMove,
        room: usize,
        count: *mut usize,
    ) -> i32;
    fn morris_last_fault() -> *const RawFault;
    fn morris_error(status: i32) -> *const c_char;
    fn morris_version() -> *const c_char;
}

/// What the library noted of the last call of this thread that failed.
pub struct Fault {
    /// What the call answered.
    pub status: i32,
    /// What the system said, where it refused something.
    pub system: i32,
    /// The pair that it is about, where it is about one.
    pub pair: Option<(u32, u32)>,
    /// The file or folder that it is about, where it is about one.
    pub path: Option<PathBuf>,
}

/// Why the last call of this thread failed that did.
pub fn last_fault() -> Fault {
    // SAFETY: what this points to stays valid in this thread until its next call.
    let raw = unsafe { &*morris_last_fault() };
    let path = (!raw.path.is_null()).then(|| {
        // SAFETY: a path that is there ends with a zero.
        let bytes = unsafe { CStr::from_ptr(raw.path) }.to_bytes();
        PathBuf::from(OsStr::from_bytes(bytes))
    });
    let pair = (raw.greater != 0).then_some((raw.greater, raw.lesser));
    Fault { status: raw.status, system: raw.system, pair, path }
}

/// A line of English that says what a status means.
pub fn error_text(status: i32) -> &'static str {
    // SAFETY: any number may be handed in, and the text lies in memory that lasts.
    unsafe { CStr::from_ptr(morris_error(status)) }.to_str().unwrap_or("unknown status")
}

/// The version of the library.
pub fn version() -> &'static str {
    // SAFETY: the text lies in memory that lasts.
    unsafe { CStr::from_ptr(morris_version()) }.to_str().unwrap_or("")
}
