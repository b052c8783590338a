//! The calls over plain slices: nothing is allocated, kept or copied beyond what the call says, and answers are flat, as in `include/fstf.h`.
//!
//! The rest of the crate is built on these. They are for programs that lend their own buffers, or that store a recorder's state themselves.
//! Any bytes, numbers, states and order of calls are allowed; a refused call changes nothing of what is lent to it.
//!
//! This is the only module with unsafe code. What the C face asks of its caller, Rust's slices are by their type: as long as they say, shorter than
//! 2^63 bytes, changed by nobody else during the call, and one that is written (`&mut`) overlaps no other.
#![allow(unsafe_code)]

use crate::raw::{
    self, FstfCommitted, FstfConverted, FstfCursor, FstfFrame, FstfLooked, FstfOpened, FstfPart, FstfRecorder,
    FstfRepaired, FstfTag, FstfTaken,
};

/// Opens a file: what it holds, in numbers. Refused 1 to 7; the place of 3, 4 and 7 counts in the file.
#[must_use]
pub fn open(file: &[u8]) -> FstfOpened {
    // SAFETY: pointer and length are of one shared slice, which is only read, during the call.
    unsafe { raw::fstf_open(file.as_ptr(), file.len()) }
}

/// Opens a file and reads frame `i`. Refused 1 to 7 as [`open`], 8.
#[must_use]
pub fn frame(file: &[u8], i: u64) -> FstfFrame {
    // SAFETY: as in `open`.
    unsafe { raw::fstf_frame(file.as_ptr(), file.len(), i) }
}

/// Reads frame `i` by the numbers of an opening, without opening again. A refusal in `opened` is passed through with its place; else refused 8, also
/// where the numbers of another file lead nowhere.
#[must_use]
pub fn frame_of(file: &[u8], opened: FstfOpened, i: u64) -> FstfFrame {
    // SAFETY: as in `open`; the numbers may be any.
    unsafe { raw::fstf_frame_of(file.as_ptr(), file.len(), opened, i) }
}

/// Opens a file and finds an item of this kind (`raw::FSTF_SECTION` and so on). Refused 1 to 7 as [`open`], 8.
#[must_use]
pub fn part(file: &[u8], kind: u64, i: u64, j: u64) -> FstfPart {
    // SAFETY: as in `open`.
    unsafe { raw::fstf_part(file.as_ptr(), file.len(), kind, i, j) }
}

/// Finds an item by the numbers of an opening, without opening again. Refused as [`frame_of`].
#[must_use]
pub fn part_of(file: &[u8], opened: FstfOpened, kind: u64, i: u64, j: u64) -> FstfPart {
    // SAFETY: as in `open`; the numbers may be any.
    unsafe { raw::fstf_part_of(file.as_ptr(), file.len(), opened, kind, i, j) }
}

/// A fresh recorder's state.
#[must_use]
pub fn new() -> FstfRecorder {
    // SAFETY: it takes nothing.
    unsafe { raw::fstf_new() }
}

/// Begins a recording: a set-up list, a system table as it stands in a file, at least 4 bytes of notes. Refused 12, 10, 3, 4, 9; the
/// place of 10 and 3 counts in the list, that of 4 in the table.
pub fn begin(state: FstfRecorder, setup: &[u8], system: &[u8], notes: &mut [u8], out: &mut [u8]) -> FstfTaken {
    // SAFETY: each pointer has its slice's length; `notes` and `out` are borrowed alone, so that they overlap nothing; the state may be any.
    unsafe {
        raw::fstf_begin(
            state,
            setup.as_ptr(),
            setup.len(),
            system.as_ptr(),
            system.len(),
            notes.as_mut_ptr(),
            notes.len(),
            out.as_mut_ptr(),
            out.len(),
        )
    }
}

/// Adds a frame: for each section four bytes of length and its bytes; the notes keep 16 more bytes for it. Refused 12, 14, 15, 13, 9.
pub fn add(
    state: FstfRecorder,
    time: i64,
    exposure: u32,
    sections: &[u8],
    notes: &mut [u8],
    out: &mut [u8],
) -> FstfTaken {
    // SAFETY: as in `begin`.
    unsafe {
        raw::fstf_add(
            state,
            time,
            exposure,
            sections.as_ptr(),
            sections.len(),
            notes.as_mut_ptr(),
            notes.len(),
            out.as_mut_ptr(),
            out.len(),
        )
    }
}

/// Hands out one of the five closing pieces. Refused 12, 9.
pub fn close(state: FstfRecorder, notes: &[u8], out: &mut [u8]) -> FstfTaken {
    // SAFETY: as in `begin`; the notes are only read.
    unsafe { raw::fstf_close(state, notes.as_ptr(), notes.len(), out.as_mut_ptr(), out.len()) }
}

/// Repairs a file that was cut: how much of it is kept, three header fields, and a tail in `out`. Refused 1 to 4, 16, 13, 15, 9; the
/// place of 3 and 4 counts in the file.
pub fn repair(file: &[u8], out: &mut [u8]) -> FstfRepaired {
    // SAFETY: each pointer has its slice's length; `out` is borrowed alone, so that it overlaps nothing.
    unsafe { raw::fstf_repair(file.as_ptr(), file.len(), out.as_mut_ptr(), out.len()) }
}

/// Looks which changes of a sheet conflict with what the file says. Refused 1 to 7 as [`open`], 10; the place of 10 counts in the sheet.
#[must_use]
pub fn look(file: &[u8], sheet: &[u8]) -> FstfLooked {
    // SAFETY: as in `open`, for both slices.
    unsafe { raw::fstf_look(file.as_ptr(), file.len(), sheet.as_ptr(), sheet.len()) }
}

/// Makes the new user table of a sheet in `out`. Refused as [`look`]; then 11, exactly where it shows a conflict, with the number of the first
/// change that does; then 17, 9.
pub fn commit(file: &[u8], sheet: &[u8], out: &mut [u8]) -> FstfCommitted {
    // SAFETY: as in `repair`.
    unsafe { raw::fstf_commit(file.as_ptr(), file.len(), sheet.as_ptr(), sheet.len(), out.as_mut_ptr(), out.len()) }
}

/// Fills in what nobody had looked at, from the file that an old sheet was prepared against: the same sheet in `out`, without seen kind 2. Refused as
/// [`look`], but not for that kind; then 9. `convert_room` of the crate says how many bytes of `out` are always enough.
pub fn convert(file: &[u8], sheet: &[u8], out: &mut [u8]) -> FstfConverted {
    // SAFETY: as in `repair`.
    unsafe { raw::fstf_convert(file.as_ptr(), file.len(), sheet.as_ptr(), sheet.len(), out.as_mut_ptr(), out.len()) }
}

/// A tag by its number, of bytes that are exactly a tag table. Refused 7; its place counts in the table.
#[must_use]
pub fn tag_at(table: &[u8], number: u64) -> FstfTag {
    // SAFETY: as in `open`.
    unsafe { raw::fstf_tag_at(table.as_ptr(), table.len(), number) }
}

/// A tag by its name, of bytes that are exactly a tag table. Refused 7; its place counts in the table.
#[must_use]
pub fn tag_named(table: &[u8], name: &[u8]) -> FstfTag {
    // SAFETY: as in `open`, for both slices.
    unsafe { raw::fstf_tag_named(table.as_ptr(), table.len(), name.as_ptr(), name.len()) }
}

/// The first tag of bytes that are exactly a tag table, or the end where it has none: looks at the whole table. Refused 7; its
/// place counts in the table.
#[must_use]
pub fn first_tag(table: &[u8]) -> FstfCursor {
    // SAFETY: as in `open`.
    unsafe { raw::fstf_first_tag(table.as_ptr(), table.len()) }
}

/// The tag behind the one that a cursor stands at, or the end, without looking at the table again. A refusal in `at` is passed through with its
/// place. Any cursor is taken: one of other bytes, or with any numbers, goes to the tag that stands behind its value, or to the end.
#[must_use]
pub fn next_tag(table: &[u8], at: FstfCursor) -> FstfCursor {
    // SAFETY: as in `open`; the numbers may be any.
    unsafe { raw::fstf_next_tag(table.as_ptr(), table.len(), at) }
}
