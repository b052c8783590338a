//! Why a call was refused: the numbers of document 01.

use std::error::Error as StdError;
use std::fmt;
use std::io;
use std::path::PathBuf;

use crate::position::{Grouped, Lent, Position};
use crate::raw::{
    FstfCommitted, FstfConverted, FstfCursor, FstfFrame, FstfLooked, FstfOpened, FstfPart, FstfRepaired, FstfTag,
    FstfTaken,
};

/// Why a call was refused, a case for each number of document 01.
#[derive(Debug, Clone, Copy, PartialEq, Eq, Hash)]
#[non_exhaustive]
pub enum Reason {
    /// 1: under 34 bytes, or it does not begin with `FSTF`.
    NotFstf,
    /// 2: a file of another revision.
    Revision,
    /// 3: section names or configurations break the layout. Its place is the first fault's, in the file or in the set-up list.
    Sections,
    /// 4: the system table is misplaced, malformed or cut off. Its place is the first fault's, in the file or in the table to begin with.
    SystemTable,
    /// 5: the recording was never closed, so that it can be repaired.
    NotClosed,
    /// 6: frames, their times and the index do not agree.
    Index,
    /// 7: the user table is malformed, or does not end where the file ends. Its place is the first fault's, in the file or in a table lent by itself.
    UserTable,
    /// 8: a frame, section or tag number that is not below its count.
    NoSuchItem,
    /// 9: a lent output is shorter than the answer.
    NoRoom,
    /// 10: a change sheet or a set-up list is malformed. Its place is the first fault's, in the sheet or in the list. A sheet from before 0.5.0 that says
    /// that nobody looked is for [`crate::convert()`]; [`crate::Spot::nobody_looked`] tells it from the others.
    Sheet,
    /// 11: the file says otherwise than a member saw. Its place is the lowest change of the sheet, from 0, that conflicts; [`crate::look()`] shows them
    /// all.
    Conflict,
    /// 12: the recorder does not take this call now.
    Stage,
    /// 13: a frame's time is before the one ahead, or over 4,294,967,295 ms after the first.
    Clock,
    /// 14: not as many sections as the recording was begun with, or one of over 16,777,216 bytes.
    FrameShape,
    /// 15: 1,000,000 frames are there already, or the file would pass its limit of 2^40 bytes.
    Full,
    /// 16: nothing to repair, the file opens.
    Whole,
    /// 17: the user table would have more than 1,000 tags.
    TableFull,
    /// A number that document 01 does not have: the static library is not the one that this crate was written for.
    Unknown {
        /// The number.
        number: u64,
    },
}

/// The reasons, from number 1 on.
const REASONS: [Reason; 17] = [
    Reason::NotFstf,
    Reason::Revision,
    Reason::Sections,
    Reason::SystemTable,
    Reason::NotClosed,
    Reason::Index,
    Reason::UserTable,
    Reason::NoSuchItem,
    Reason::NoRoom,
    Reason::Sheet,
    Reason::Conflict,
    Reason::Stage,
    Reason::Clock,
    Reason::FrameShape,
    Reason::Full,
    Reason::Whole,
    Reason::TableFull,
];

/// The advice of 10 where more is known than its number.
const MALFORMED_LIST: &str = "The set-up list ends too early or too late: the first fault is at this place.";
const MALFORMED_OLD_SHEET: &str =
    "It is no sheet, not even an old one: the first fault is at this place. Make it anew.";
const NOBODY_LOOKED: &str =
    "It says that nobody looked, as sheets could before 0.5.0: convert it, with the file that it was prepared against.";

/// What a position counts.
const BYTE: &str = "byte";

impl Reason {
    /// Number, name and advice.
    fn row(self) -> (u64, &'static str, &'static str) {
        match self {
            Reason::NotFstf => (1, "not FSTF", "The file is no FSTF recording, or shorter than a header."),
            Reason::Revision => (2, "revision", "The file is of another revision; this library reads revision 1."),
            Reason::Sections => (3, "sections", "The section names or their configuration offsets are broken: the first fault is at this place."),
            Reason::SystemTable => (4, "system table", "The system table is missing, misplaced or malformed: the first fault is at this place."),
            Reason::NotClosed => (5, "not closed", "The recording was never closed: repair it. Repair empties the user table: keep the old file for its tags."),
            Reason::Index => (6, "index", "Frames, times and index do not agree: repair it. Repair empties the user table: keep the old file for its tags."),
            Reason::UserTable => (7, "user table", "The user table is malformed or does not end the file: the first fault is at this place."),
            Reason::NoSuchItem => (8, "no such item", "Ask for an item number below its count."),
            Reason::NoRoom => (9, "no room", "Lend a longer output (or longer notes)."),
            Reason::Sheet => (10, "sheet", "The change sheet, or the set-up list, is malformed: the first fault is at this place."),
            Reason::Conflict => (
                11,
                "conflict",
                "Somebody changed the tag at this place of the sheet since it was seen: look again, which shows every conflict.",
            ),
            Reason::Stage => (12, "stage", "The recorder's state does not take this call."),
            Reason::Clock => (13, "clock", "The frame's time is before the last one's or too far behind the first."),
            Reason::FrameShape => (
                14,
                "frame shape",
                "The sections given are not what the recording was begun with, or one is too large.",
            ),
            Reason::Full => (15, "full", "The recording can hold no more."),
            Reason::Whole => (16, "whole", "Nothing to repair: the file opens."),
            Reason::TableFull => (17, "table full", "More than 1,000 tags after the commit."),
            Reason::Unknown { number } => {
                (number, "unknown", "Link the static library that this crate was written for.")
            }
        }
    }

    /// What the place counts that this number carries.
    fn counted(self) -> Option<&'static str> {
        match self {
            Reason::Sections | Reason::SystemTable | Reason::UserTable | Reason::Sheet => Some(BYTE),
            Reason::Conflict => Some("change"),
            _ => None,
        }
    }
}

/// A refusal: its number, and the place that some numbers carry. It is always the first of its call's order, and nothing was changed.
///
/// Shown, it is as `refused 7, user table at byte 1,234 of the file: ..`, with its advice.
#[derive(Debug, Clone, Copy, PartialEq, Eq, Hash)]
pub struct Refusal {
    reason: Reason,
    place: Option<u64>,
    lent: Option<Lent>,
    /// Whether it is known to be about seen kind 2.
    nobody_looked: bool,
}

impl Refusal {
    /// There is no memory for what a call is to be lent.
    pub(crate) const NO_ROOM: Refusal =
        Refusal { reason: Reason::NoRoom, place: None, lent: None, nobody_looked: false };

    /// No bytes are a sheet.
    pub(crate) const NO_SHEET: Refusal =
        Refusal { reason: Reason::Sheet, place: Some(0), lent: Some(Lent::Sheet), nobody_looked: false };

    /// The refusal of this number and place, or none for 0: for who has the two numbers only.
    ///
    /// They do not say whether the place counts in a file or in a table, so that [`Refusal::position`] is none, and it is shown as `at byte 1,234`
    /// alone. An answer of [`crate::calls`] knows its call: take its own `refusal`, as [`FstfOpened::refusal`].
    #[must_use]
    pub fn of(number: u64, place: u64) -> Option<Refusal> {
        let before = number.checked_sub(1)?;
        let reason = REASONS.get(before as usize).copied().unwrap_or(Reason::Unknown { number });
        Some(Refusal { reason, place: reason.counted().map(|_| place), lent: None, nobody_looked: false })
    }

    /// The same, where its place, if it is one of a byte, counts in these bytes.
    fn counted_in(self, lent: Lent) -> Refusal {
        Refusal { lent: (self.reason.counted() == Some(BYTE)).then_some(lent), ..self }
    }

    /// The same, with what the refused sheet tells: whether it is an old one, of which its advice speaks then.
    pub(crate) fn of_sheet(self, sheet: &[u8]) -> Refusal {
        Refusal { nobody_looked: self.spot(sheet).map_or(false, |spot| spot.nobody_looked()), ..self }
    }

    /// Which one it is.
    #[must_use]
    pub fn reason(&self) -> Reason {
        self.reason
    }

    /// The number in document 01.
    #[must_use]
    pub fn number(&self) -> u64 {
        self.reason.row().0
    }

    /// Where, for a number that says it: 3, 4, 7 and 10 name the byte of the first fault, 11 the change of the sheet, all from 0.
    #[must_use]
    pub fn place(&self) -> Option<u64> {
        self.place
    }

    /// Where the first fault is, of 3, 4, 7 and 10: the byte, and which lent bytes it is counted in. [`Refusal::spot`] tells what stands there.
    #[must_use]
    pub fn position(&self) -> Option<Position> {
        Some(Position { lent: self.lent?, at: self.place? })
    }

    /// The name in document 01.
    #[must_use]
    pub fn name(&self) -> &'static str {
        self.reason.row().1
    }

    /// What it means and what to do, in a sentence or two.
    #[must_use]
    pub fn advice(&self) -> &'static str {
        match (self.reason, self.lent) {
            (Reason::Sheet, Some(Lent::SetUp)) => MALFORMED_LIST,
            (Reason::Sheet, Some(Lent::OldSheet)) => MALFORMED_OLD_SHEET,
            (Reason::Sheet, _) if self.nobody_looked => NOBODY_LOOKED,
            _ => self.reason.row().2,
        }
    }
}

impl fmt::Display for Refusal {
    fn fmt(&self, f: &mut fmt::Formatter<'_>) -> fmt::Result {
        write!(f, "refused {}, {}", self.number(), self.name())?;
        if let (Some(counted), Some(place)) = (self.reason.counted(), self.place) {
            write!(f, " at {counted} {}", Grouped(place))?;
        }
        if let Some(lent) = self.lent {
            write!(f, " of the {lent}")?;
        }
        write!(f, ": {}", self.advice())
    }
}

impl StdError for Refusal {}

/// The calls that take a file; a sheet is lent to look and to commit only.
fn file_or_sheet(reason: Reason) -> Lent {
    match reason {
        Reason::Sheet => Lent::Sheet,
        _ => Lent::File,
    }
}

/// To convert.
fn file_or_old_sheet(reason: Reason) -> Lent {
    match reason {
        Reason::Sheet => Lent::OldSheet,
        _ => Lent::File,
    }
}

/// The recorder's calls, of which the first is lent a table behind the set-up list.
fn set_up_or_table(reason: Reason) -> Lent {
    match reason {
        Reason::SystemTable => Lent::Table,
        _ => Lent::SetUp,
    }
}

/// The calls over a table by itself.
fn table(_: Reason) -> Lent {
    Lent::Table
}

/// Each answer's own refusal: its type says which calls it is of, and so what its place counts in.
macro_rules! refusals {
    ($($answer:ident: $lent:ident,)*) => {$(
        impl $answer {
            /// The refusal that it holds, with the bytes that its place counts in, or none where the call was done.
            #[must_use]
            pub fn refusal(&self) -> Option<Refusal> {
                Refusal::of(self.refused, self.place).map(|refusal| refusal.counted_in($lent(refusal.reason)))
            }
        }
    )*};
}

refusals! {
    FstfOpened: file_or_sheet,
    FstfFrame: file_or_sheet,
    FstfPart: file_or_sheet,
    FstfRepaired: file_or_sheet,
    FstfLooked: file_or_sheet,
    FstfCommitted: file_or_sheet,
    FstfConverted: file_or_old_sheet,
    FstfTaken: set_up_or_table,
    FstfTag: table,
    FstfCursor: table,
}

/// The refusal of an answer as an error; an accepted answer goes on.
pub(crate) fn accepted(refusal: Option<Refusal>) -> Result<(), Refusal> {
    refusal.map_or(Ok(()), Err)
}

/// What can go wrong where files are read and written: the library refuses, or the storage fails.
#[derive(Debug)]
#[non_exhaustive]
pub enum Error {
    /// The library refused, and nothing was written.
    Refused(Refusal),
    /// The storage failed.
    Storage(io::Error),
    /// Somebody is committing to this file, repairing it or writing it at this moment, or was interrupted in it; see [`crate::files`].
    Busy {
        /// The file that stands for it.
        lock: PathBuf,
    },
}

impl Error {
    /// The refusal, where it is one.
    #[must_use]
    pub fn refusal(&self) -> Option<Refusal> {
        match self {
            Error::Refused(refusal) => Some(*refusal),
            Error::Storage(_) | Error::Busy { .. } => None,
        }
    }
}

impl fmt::Display for Error {
    fn fmt(&self, f: &mut fmt::Formatter<'_>) -> fmt::Result {
        match self {
            Error::Refused(refusal) => refusal.fmt(f),
            Error::Storage(error) => write!(f, "storage: {error}"),
            Error::Busy { lock } => {
                let lock = lock.display();
                let nobody = "If nobody is committing, repairing or converting";
                write!(f, "busy: {lock} is there. {nobody}, delete it and try again.")
            }
        }
    }
}

impl StdError for Error {
    fn source(&self) -> Option<&(dyn StdError + 'static)> {
        match self {
            Error::Refused(refusal) => Some(refusal),
            Error::Storage(error) => Some(error),
            Error::Busy { .. } => None,
        }
    }
}

impl From<Refusal> for Error {
    fn from(refusal: Refusal) -> Error {
        Error::Refused(refusal)
    }
}

impl From<io::Error> for Error {
    fn from(error: io::Error) -> Error {
        Error::Storage(error)
    }
}
