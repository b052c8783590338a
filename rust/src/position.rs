//! Where a fault is: positions in lent bytes, and what stands at one.
//!
//! What stands at a position is found by one walk over sheets, tables and lists alike, from short string to short string, up to the position and no
//! further. It judges nothing: that a byte is the first fault says the library, and what is ahead of it keeps its form, so that the walk gets there.

use std::fmt;
use std::ops::ControlFlow;

use crate::form::{offset, HEADER_LENGTH, SYSTEM_PLACE, USER_PLACE};
use crate::refusal::{Reason, Refusal};

/// The bytes that a position counts in.
#[derive(Debug, Clone, Copy, PartialEq, Eq, Hash)]
#[non_exhaustive]
pub enum Lent {
    /// The file.
    File,
    /// The change sheet.
    Sheet,
    /// The old sheet that is to be converted.
    OldSheet,
    /// The set-up list that a recording is begun with.
    SetUp,
    /// A tag table that was lent by itself: the system table that a recording is begun with, or the one whose tags are asked for.
    Table,
}

impl fmt::Display for Lent {
    fn fmt(&self, f: &mut fmt::Formatter<'_>) -> fmt::Result {
        f.write_str(match self {
            Lent::File => "file",
            Lent::Sheet => "sheet",
            Lent::OldSheet => "old sheet",
            Lent::SetUp => "set-up list",
            Lent::Table => "table",
        })
    }
}

/// Where the first fault is, see [`Refusal::position`].
#[derive(Debug, Clone, Copy, PartialEq, Eq, Hash)]
pub struct Position {
    /// The bytes that it counts in.
    pub lent: Lent,
    /// The number of the byte, from 0; at most the length of the bytes, where they ran out. Only a system table that starts behind the file's end is
    /// further on.
    pub at: u64,
}

impl fmt::Display for Position {
    fn fmt(&self, f: &mut fmt::Formatter<'_>) -> fmt::Result {
        write!(f, "byte {} of the {}", Grouped(self.at), self.lent)
    }
}

/// A number with commas between its thousands.
pub(crate) struct Grouped(pub(crate) u64);

impl fmt::Display for Grouped {
    fn fmt(&self, f: &mut fmt::Formatter<'_>) -> fmt::Result {
        match self.0 {
            below @ 0..=999 => write!(f, "{below}"),
            number => write!(f, "{},{:03}", Grouped(number / 1000), number % 1000),
        }
    }
}

/// What a position is in.
#[derive(Debug, Clone, Copy, PartialEq, Eq, Hash)]
#[non_exhaustive]
pub enum SpotPart {
    /// The header's field that says where the system table starts.
    SystemOffset,
    /// How many sections, tags or changes there are.
    Count,
    /// The name of a section, or of a tag.
    Name,
    /// Where a section's configuration starts.
    Offset,
    /// How many bytes a configuration has.
    ConfigurationLength,
    /// A configuration.
    Configuration,
    /// A tag's value.
    Value,
    /// Whether a change says what was seen.
    SeenKind,
    /// The value that was seen.
    Seen,
    /// Whether a change gives a new value.
    NewKind,
    /// The new value.
    New,
    /// Behind the last section, tag or change.
    Behind,
}

impl SpotPart {
    fn is_string(self) -> bool {
        matches!(self, SpotPart::Name | SpotPart::Value | SpotPart::Seen | SpotPart::New)
    }
}

/// What stands at a position, see [`Refusal::spot`]. Shown, it is as `user tag 212, "OBSERVER": character 17 of its value, byte 0x07`.
#[derive(Debug, Clone, Copy, PartialEq, Eq)]
#[non_exhaustive]
pub struct Spot<'b> {
    /// What the bytes are made of: `section`, `system tag`, `user tag`, `tag` or `change`.
    pub rows: &'static str,
    /// The number of the one that the position is in, from 0; none ahead of the first and behind the last.
    pub number: Option<usize>,
    /// Its name, as it stands there; empty where there is none.
    pub name: &'b [u8],
    /// What of it.
    pub part: SpotPart,
    /// Which character of a name or a value, from 0. None at its length byte, which is where a name that is empty or was used before is told, and in
    /// all other parts.
    pub character: Option<usize>,
    /// At the start of a name: the number of the one ahead that has the same, if there is one.
    pub first: Option<usize>,
    /// The byte; none where the bytes have ended.
    pub byte: Option<u8>,
    /// Whether the bytes end inside this part.
    pub cut_off: bool,
}

impl Spot<'_> {
    /// Whether the fault is seen kind 2, by which a sheet from before 0.5.0 says that nobody looked: [`convert()`](crate::convert()) takes it.
    #[must_use]
    pub fn nobody_looked(&self) -> bool {
        self.part == SpotPart::SeenKind && self.byte == Some(NOBODY_LOOKED)
    }
}

/// The seen kind that was withdrawn.
pub(crate) const NOBODY_LOOKED: u8 = 2;

impl fmt::Display for Spot<'_> {
    fn fmt(&self, f: &mut fmt::Formatter<'_>) -> fmt::Result {
        let rows = self.rows;
        if let Some(number) = self.number {
            write!(f, "{rows} {number}, \"{}\": ", self.name.escape_ascii())?;
        }
        match self.character {
            Some(character) => write!(f, "character {character} of ")?,
            None if self.part.is_string() => f.write_str("the start of ")?,
            None => {}
        }
        match self.part {
            SpotPart::SystemOffset => f.write_str("where the header says that the system table starts")?,
            SpotPart::Count => write!(f, "the number of {rows}s")?,
            SpotPart::Name => f.write_str("its name")?,
            SpotPart::Offset => f.write_str("where its configuration starts")?,
            SpotPart::ConfigurationLength => f.write_str("the length of its configuration")?,
            SpotPart::Configuration => f.write_str("its configuration")?,
            SpotPart::Value => f.write_str("its value")?,
            SpotPart::SeenKind => f.write_str("the kind of what was seen")?,
            SpotPart::Seen => f.write_str("the value that was seen")?,
            SpotPart::NewKind => f.write_str("the kind of what is new")?,
            SpotPart::New => f.write_str("its new value")?,
            SpotPart::Behind => write!(f, "behind the last {rows}")?,
        }
        match (self.byte, self.first) {
            (None, _) => f.write_str(", where the bytes have ended"),
            (_, Some(first)) => write!(f, ", which {rows} {first} has too"),
            _ if self.nobody_looked() => f.write_str(
                ", byte 0x02: nobody looked, as an old sheet may say. Convert it, with the file that it was prepared against",
            ),
            _ if self.cut_off && !self.part.is_string() => f.write_str(", which is cut off"),
            (Some(byte), None) => write!(f, ", byte 0x{byte:02X}"),
        }
    }
}

/// A piece of a row.
#[derive(Clone, Copy)]
enum Piece {
    /// A short string.
    String(SpotPart),
    /// A number of so many bytes.
    Number(SpotPart, usize),
    /// A kind, and behind kind 1 a short string.
    Entry(SpotPart, SpotPart),
    /// A length in two bytes, and so many bytes.
    Block(SpotPart, SpotPart),
}

/// How some bytes are built: a count of so many bytes, and rows of these pieces.
struct Form {
    rows: &'static str,
    count: usize,
    pieces: &'static [Piece],
}

const NAME: Piece = Piece::String(SpotPart::Name);
const TAG: &[Piece] = &[NAME, Piece::String(SpotPart::Value)];
const TABLE: Form = Form { rows: "tag", count: 4, pieces: TAG };
const SYSTEM_TABLE: Form = Form { rows: "system tag", ..TABLE };
const USER_TABLE: Form = Form { rows: "user tag", ..TABLE };
const DEFINITIONS: Form = Form { rows: "section", count: 1, pieces: &[NAME, Piece::Number(SpotPart::Offset, 8)] };
const SET_UP: Form = Form {
    rows: "section",
    count: 1,
    pieces: &[NAME, Piece::Block(SpotPart::ConfigurationLength, SpotPart::Configuration)],
};
const SHEET: Form = Form {
    rows: "change",
    count: 1,
    pieces: &[NAME, Piece::Entry(SpotPart::SeenKind, SpotPart::Seen), Piece::Entry(SpotPart::NewKind, SpotPart::New)],
};

impl Refusal {
    /// What stands at its position: which tag, section or change, what of it, and which character. `lent` are the bytes that were refused, those that
    /// [`Refusal::position`] names.
    ///
    /// None where the refusal has no position, or the bytes are not those that were refused and have nothing there.
    ///
    /// ```no_run
    /// # let file: Vec<u8> = Vec::new();
    /// if let Err(refusal) = suljanko::Recording::open(&file) {
    ///     println!("{refusal}");
    ///     if let Some(spot) = refusal.spot(&file) {
    ///         println!("{spot}"); // user tag 212, "OBSERVER": character 17 of its value, byte 0x07
    ///     }
    /// }
    /// ```
    #[must_use]
    pub fn spot<'b>(&self, lent: &'b [u8]) -> Option<Spot<'b>> {
        let Position { lent: bytes, at } = self.position()?;
        match (bytes, self.reason()) {
            (Lent::File, Reason::Sections) => stands(lent, &DEFINITIONS, HEADER_LENGTH, at),
            (Lent::File, Reason::SystemTable) if at == SYSTEM_PLACE => Some(system_offset(lent)),
            (Lent::File, Reason::SystemTable) => stands(lent, &SYSTEM_TABLE, offset(lent, SYSTEM_PLACE)?, at),
            (Lent::File, Reason::UserTable) => stands(lent, &USER_TABLE, offset(lent, USER_PLACE)?, at),
            (Lent::File, _) => None,
            (Lent::Sheet | Lent::OldSheet, _) => in_sheet(lent, at),
            (Lent::SetUp, _) => stands(lent, &SET_UP, 0, at),
            (Lent::Table, _) => stands(lent, &TABLE, 0, at),
        }
    }
}

/// What stands at a place of a sheet.
pub(crate) fn in_sheet(sheet: &[u8], at: u64) -> Option<Spot<'_>> {
    stands(sheet, &SHEET, 0, at)
}

/// The header's own field: no table stands so far in front.
fn system_offset(file: &[u8]) -> Spot<'_> {
    let byte = file.get(SYSTEM_PLACE as usize).copied();
    let part = SpotPart::SystemOffset;
    Spot { rows: SYSTEM_TABLE.rows, number: None, name: &[], part, character: None, first: None, byte, cut_off: false }
}

/// What stands at a place of bytes that are of a form from `start` on.
fn stands<'b>(bytes: &'b [u8], form: &Form, start: u64, at: u64) -> Option<Spot<'b>> {
    let (start, place) = (usize::try_from(start).ok()?, usize::try_from(at).ok()?);
    // behind the end there is nothing, but for a table that starts there
    if place < start || place > start.max(bytes.len()) {
        return None;
    }
    let mut walk = Walk { bytes, place, at: start, number: None, name: &[], ahead: Vec::new() };
    let found = match walk.rows(form) {
        ControlFlow::Break(found) => found,
        ControlFlow::Continue(()) => Found { part: SpotPart::Behind, start: place, end: place },
    };
    let (name, inside) = (walk.name, place.saturating_sub(found.start));
    let at_name = found.part == SpotPart::Name && inside == 0;
    Some(Spot {
        rows: form.rows,
        number: walk.number,
        name,
        part: found.part,
        character: if found.part.is_string() { inside.checked_sub(1) } else { None },
        first: if at_name { walk.ahead.iter().position(|ahead| *ahead == name) } else { None },
        byte: bytes.get(place).copied(),
        cut_off: found.end > bytes.len(),
    })
}

/// The part that the place is in, from its first byte to behind its last.
struct Found {
    part: SpotPart,
    start: usize,
    end: usize,
}

/// A walk up to a place. It never stands behind it, and each step takes a byte at least: it ends.
struct Walk<'b> {
    bytes: &'b [u8],
    place: usize,
    at: usize,
    number: Option<usize>,
    name: &'b [u8],
    /// The names of the rows ahead.
    ahead: Vec<&'b [u8]>,
}

impl<'b> Walk<'b> {
    fn rows(&mut self, form: &Form) -> ControlFlow<Found> {
        let count = self.number(SpotPart::Count, form.count)?;
        for number in 0..count {
            self.number = Some(number);
            for piece in form.pieces {
                self.piece(*piece)?;
            }
            self.ahead.push(self.name);
        }
        self.number = None;
        self.name = &[];
        ControlFlow::Continue(())
    }

    fn piece(&mut self, piece: Piece) -> ControlFlow<Found> {
        match piece {
            Piece::String(part) => self.string(part),
            Piece::Number(part, width) => {
                self.number(part, width)?;
                ControlFlow::Continue(())
            }
            Piece::Entry(kind, value) => match self.number(kind, 1)? {
                1 => self.string(value),
                _ => ControlFlow::Continue(()),
            },
            Piece::Block(length, block) => {
                let length = self.number(length, 2)?;
                self.pass(block, length)
            }
        }
    }

    fn string(&mut self, part: SpotPart) -> ControlFlow<Found> {
        let rest = self.bytes.get(self.at..).unwrap_or_default();
        let (length, behind) = rest.split_first().map_or((0, rest), |(length, behind)| (usize::from(*length), behind));
        if part == SpotPart::Name {
            self.name = behind.get(..length).unwrap_or(behind);
        }
        self.pass(part, length.saturating_add(1))
    }

    /// A number, its low byte first.
    fn number(&mut self, part: SpotPart, width: usize) -> ControlFlow<Found, usize> {
        let bytes = self.bytes.get(self.at..self.at.saturating_add(width)).unwrap_or_default();
        let number = bytes.iter().rev().fold(0, |number, byte| number << 8 | usize::from(*byte));
        self.pass(part, width)?;
        ControlFlow::Continue(number)
    }

    /// Goes on behind so many bytes, unless the place is among them.
    fn pass(&mut self, part: SpotPart, length: usize) -> ControlFlow<Found> {
        let (start, end) = (self.at, self.at.saturating_add(length));
        if self.place < end {
            return ControlFlow::Break(Found { part, start, end });
        }
        self.at = end;
        ControlFlow::Continue(())
    }
}
