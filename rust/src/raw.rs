//! The unsafe floor: the calls and answers of `include/fstf.h`, one to one, under the same names.
//!
//! A slice is a pointer and a length; where the length is 0 the pointer may be null. The caller ensures that pointer and length are true and that
//! nothing else changes the bytes while the call runs, that a length is below 2^63, and that what a call writes (`notes` of begin and add, `out`)
//! overlaps nothing else that is lent to it. [`crate::calls`] has the same calls over Rust's slices, which are all of this by their type, and
//! nothing else in the crate comes down here.
//!
//! Every answer begins with `refused` and `place`. The place of 3, 4, 7 and 10 is the position of the first fault in the lent bytes, from 0;
//! [`crate::calls`] says for each call which bytes. The place of 11 is the lowest change of the sheet, from 0, whose seen entry is not the table's. For
//! all other numbers it is 0. Each answer's `refusal` is the same as a [`crate::Refusal`].

/// What a file holds, in numbers; refused 1 to 7, and then all members behind `place` are 0.
#[repr(C)]
#[derive(Debug, Clone, Copy, PartialEq, Eq)]
pub struct FstfOpened {
    /// The refusal, or 0.
    pub refused: u64,
    /// What the refusal's number carries, or 0.
    pub place: u64,
    /// How many frames the file has.
    pub frames: u64,
    /// How many sections every frame has, 1 to 8.
    pub sections: u64,
    /// How many tags the system table has.
    pub system_tags: u64,
    /// How many tags the user table has.
    pub user_tags: u64,
    /// Where the system table starts.
    pub system: u64,
    /// Where the first frame starts.
    pub start: u64,
    /// Where the index starts.
    pub index: u64,
    /// Where the user table starts.
    pub user: u64,
}

/// A frame; refused, all members behind `place` are 0.
#[repr(C)]
#[derive(Debug, Clone, Copy, PartialEq, Eq)]
pub struct FstfFrame {
    /// The refusal, or 0.
    pub refused: u64,
    /// What the refusal's number carries, or 0.
    pub place: u64,
    /// Where the frame starts in the file.
    pub start: u64,
    /// The number of its bytes.
    pub length: u64,
    /// Its time in milliseconds.
    pub time: i64,
    /// As the frame's head says it, below 2^32.
    pub exposure: u64,
}

/// Where the bytes of an item stand in the file; refused, all members behind `place` are 0.
#[repr(C)]
#[derive(Debug, Clone, Copy, PartialEq, Eq)]
pub struct FstfPart {
    /// The refusal, or 0.
    pub refused: u64,
    /// What the refusal's number carries, or 0.
    pub place: u64,
    /// Where the item's bytes start in the file.
    pub start: u64,
    /// How many they are.
    pub length: u64,
}

/// The kind of section j of frame i.
pub const FSTF_SECTION: u64 = 0;
/// The kind of the name of section i; j is not looked at, nor below.
pub const FSTF_SECTION_NAME: u64 = 1;
/// The kind of the configuration of section i.
pub const FSTF_CONFIGURATION: u64 = 2;
/// The kind of the name of system tag i.
pub const FSTF_SYSTEM_NAME: u64 = 3;
/// The kind of the value of system tag i.
pub const FSTF_SYSTEM_VALUE: u64 = 4;
/// The kind of the name of user tag i.
pub const FSTF_USER_NAME: u64 = 5;
/// The kind of the value of user tag i.
pub const FSTF_USER_VALUE: u64 = 6;

/// The recorder's state, passed to each call and handed back by it.
#[repr(C)]
#[derive(Debug, Clone, Copy, PartialEq, Eq)]
pub struct FstfRecorder {
    /// 0 fresh, 1 running, 2 closing, 3 closed; any other number is taken as closed.
    pub stage: u64,
    /// Closing: the next piece, 0 to 4; else 0.
    pub piece: u64,
    /// How many sections every frame has.
    pub sections: u64,
    /// How many frames were added.
    pub frames: u64,
    /// The first frame's time.
    pub first: i64,
    /// The last frame's time.
    pub last: i64,
    /// Where the next frame goes.
    pub end: u64,
}

/// What a call of the recorder answers; refused, the state is the one that was given.
#[repr(C)]
#[derive(Debug, Clone, Copy, PartialEq, Eq)]
pub struct FstfTaken {
    /// The refusal, or 0.
    pub refused: u64,
    /// What the refusal's number carries, or 0.
    pub place: u64,
    /// Where the piece goes in the file.
    pub start: u64,
    /// How many bytes of `out` are the piece.
    pub length: u64,
    /// The state for the next call.
    pub recorder: FstfRecorder,
}

/// What a repair answers; refused, all members behind `place` are 0.
#[repr(C)]
#[derive(Debug, Clone, Copy, PartialEq, Eq)]
pub struct FstfRepaired {
    /// The refusal, or 0.
    pub refused: u64,
    /// What the refusal's number carries, or 0.
    pub place: u64,
    /// How many bytes of the file are kept.
    pub kept: u64,
    /// The header's frame count.
    pub count: u64,
    /// The header's index offset.
    pub index: u64,
    /// The header's user table offset.
    pub user: u64,
    /// How many bytes of `out` are the tail.
    pub tail: u64,
}

/// What a look answers; refused, all members behind `place` are 0.
#[repr(C)]
#[derive(Debug, Clone, Copy, PartialEq, Eq)]
pub struct FstfLooked {
    /// The refusal, or 0.
    pub refused: u64,
    /// What the refusal's number carries, or 0.
    pub place: u64,
    /// How many changes the sheet has, 0 to 64.
    pub changes: u64,
    /// The changes that conflict: bit i, worth 2^i, is change i.
    pub conflicts: u64,
}

/// What a commit answers; refused, all members behind `place` are 0.
#[repr(C)]
#[derive(Debug, Clone, Copy, PartialEq, Eq)]
pub struct FstfCommitted {
    /// The refusal, or 0.
    pub refused: u64,
    /// What the refusal's number carries, or 0.
    pub place: u64,
    /// How many bytes of `out` are the new table.
    pub length: u64,
}

/// What a convert answers; refused, all members behind `place` are 0.
#[repr(C)]
#[derive(Debug, Clone, Copy, PartialEq, Eq)]
pub struct FstfConverted {
    /// The refusal, or 0.
    pub refused: u64,
    /// What the refusal's number carries, or 0.
    pub place: u64,
    /// How many bytes of `out` are the new sheet.
    pub length: u64,
}

/// A tag of a table, by places in the table.
#[repr(C)]
#[derive(Debug, Clone, Copy, PartialEq, Eq)]
pub struct FstfTag {
    /// The refusal, or 0.
    pub refused: u64,
    /// What the refusal's number carries, or 0.
    pub place: u64,
    /// 1, or 0 where there is no such tag; then the places and lengths are 0.
    pub found: u64,
    /// Where its name's bytes start.
    pub name: u64,
    /// How many they are.
    pub name_length: u64,
    /// Where its value's bytes start.
    pub value: u64,
    /// How many they are.
    pub value_length: u64,
}

/// Where a cursor over a table stands, by places in the table. All 0 is the end.
#[repr(C)]
#[derive(Debug, Clone, Copy, Default, PartialEq, Eq)]
pub struct FstfCursor {
    /// The refusal, or 0.
    pub refused: u64,
    /// What the refusal's number carries, or 0.
    pub place: u64,
    /// 1 at a tag; 0 at the end and where it is refused, and then the places, the lengths and `left` are 0.
    pub found: u64,
    /// Where its name's bytes start.
    pub name: u64,
    /// How many they are.
    pub name_length: u64,
    /// Where its value's bytes start.
    pub value: u64,
    /// How many they are.
    pub value_length: u64,
    /// How many tags come behind it.
    pub left: u64,
}

extern "C" {
    /// Opens a file. Refused 1 to 7.
    pub fn fstf_open(file: *const u8, file_length: usize) -> FstfOpened;

    /// Opens a file and reads frame `i`. Refused 1 to 7, 8.
    pub fn fstf_frame(file: *const u8, file_length: usize, i: u64) -> FstfFrame;

    /// Reads frame `i` of a file by the numbers of its opening. Refused as the opening was, or 8.
    pub fn fstf_frame_of(file: *const u8, file_length: usize, opened: FstfOpened, i: u64) -> FstfFrame;

    /// Opens a file and finds an item. Refused 1 to 7, 8.
    pub fn fstf_part(file: *const u8, file_length: usize, kind: u64, i: u64, j: u64) -> FstfPart;

    /// Finds an item of a file by the numbers of its opening. Refused as the opening was, or 8.
    pub fn fstf_part_of(file: *const u8, file_length: usize, opened: FstfOpened, kind: u64, i: u64, j: u64)
        -> FstfPart;

    /// A fresh recorder.
    pub fn fstf_new() -> FstfRecorder;

    /// Begins a recording. Refused 12, 10, 3, 4, 9.
    pub fn fstf_begin(
        recorder: FstfRecorder,
        setup: *const u8,
        setup_length: usize,
        system: *const u8,
        system_length: usize,
        notes: *mut u8,
        notes_length: usize,
        out: *mut u8,
        out_length: usize,
    ) -> FstfTaken;

    /// Adds a frame. Refused 12, 14, 15, 13, 9.
    pub fn fstf_add(
        recorder: FstfRecorder,
        time: i64,
        exposure: u32,
        sections: *const u8,
        sections_length: usize,
        notes: *mut u8,
        notes_length: usize,
        out: *mut u8,
        out_length: usize,
    ) -> FstfTaken;

    /// One closing piece. Refused 12, 9.
    pub fn fstf_close(
        recorder: FstfRecorder,
        notes: *const u8,
        notes_length: usize,
        out: *mut u8,
        out_length: usize,
    ) -> FstfTaken;

    /// Repairs a file that was cut. Refused 1 to 4, 16, 13, 15, 9.
    pub fn fstf_repair(file: *const u8, file_length: usize, out: *mut u8, out_length: usize) -> FstfRepaired;

    /// Which changes of a sheet conflict. Refused 1 to 7, 10.
    pub fn fstf_look(file: *const u8, file_length: usize, sheet: *const u8, sheet_length: usize) -> FstfLooked;

    /// Makes the new user table of a sheet. Refused 1 to 7, 10, 11, 17, 9.
    pub fn fstf_commit(
        file: *const u8,
        file_length: usize,
        sheet: *const u8,
        sheet_length: usize,
        out: *mut u8,
        out_length: usize,
    ) -> FstfCommitted;

    /// Fills in what an old sheet did not look at. Refused 1 to 7, 10, 9.
    pub fn fstf_convert(
        file: *const u8,
        file_length: usize,
        sheet: *const u8,
        sheet_length: usize,
        out: *mut u8,
        out_length: usize,
    ) -> FstfConverted;

    /// A tag of a table by its number. Refused 7.
    pub fn fstf_tag_at(table: *const u8, table_length: usize, number: u64) -> FstfTag;

    /// A tag of a table by its name. Refused 7.
    pub fn fstf_tag_named(table: *const u8, table_length: usize, name: *const u8, name_length: usize) -> FstfTag;

    /// The cursor at the first tag of a table. Refused 7.
    pub fn fstf_first_tag(table: *const u8, table_length: usize) -> FstfCursor;

    /// The cursor at the next tag. Refused as the cursor is.
    pub fn fstf_next_tag(table: *const u8, table_length: usize, at: FstfCursor) -> FstfCursor;
}
