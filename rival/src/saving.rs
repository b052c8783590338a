//! Saving tags: a change sheet against the file's user table. Look tells which
//! changes conflict, commit makes the new table, convert makes a sheet of an old
//! one.
//!
//! Request 111 withdrew seen kind 2, nobody looked. A sheet from before it may
//! have that kind, and is called an old sheet here.

use crate::faults;
use crate::layout::{is_text, Cursor, Filler, Header};
use crate::names::{SheetNames, TableNames};
use crate::opening::{front, rest};
use crate::refusal::{self, Refusal};
use crate::table::{tag_from, FIRST_TAG};

/// What look answers: how many changes the sheet has, and which of them
/// conflict.
#[derive(Debug, Clone, Copy, PartialEq, Eq)]
pub struct Looked {
    pub changes: u64,
    /// Bit `i`, worth 2^`i`, is set if change `i` conflicts. A sheet has no
    /// more changes than there are bits.
    pub conflicts: u64,
}

/// Which changes of a sheet conflict with the file's user table.
pub fn look(file: &[u8], sheet: &[u8]) -> Result<Looked, Refusal> {
    let mut names = TableNames::new();
    let meeting = Meeting::open(file, sheet, GREATEST_SEEN, &mut names)?;
    let conflicts = meeting
        .changes
        .iter()
        .enumerate()
        .filter(|(_, change)| meeting.conflicts(change, meeting.find(change)))
        .fold(0, |set, (place, _)| set | 1 << place);
    Ok(Looked {
        changes: meeting.changes.len() as u64,
        conflicts,
    })
}

/// Fills the output with the new user table and hands back its length.
pub fn commit(file: &[u8], sheet: &[u8], out: &mut [u8]) -> Result<u64, Refusal> {
    commit_up_to(GREATEST_SEEN, file, sheet, out)
}

/// What commit did before request 111: what nobody looked at agrees with
/// anything. It is kept for the comparison alone, which holds the commit of a
/// converted sheet against it.
pub fn commit_of_old_sheet(file: &[u8], sheet: &[u8], out: &mut [u8]) -> Result<u64, Refusal> {
    commit_up_to(GREATEST_SEEN_OF_OLD, file, sheet, out)
}

/// Fills the output with a new sheet, and hands back its length: the old one in
/// which the user table says what nobody looked at. It asks neither whether the
/// sheet conflicts nor whether the table would be full.
pub fn convert(file: &[u8], sheet: &[u8], out: &mut [u8]) -> Result<u64, Refusal> {
    let mut names = TableNames::new();
    let meeting = Meeting::open(file, sheet, GREATEST_SEEN_OF_OLD, &mut names)?;
    let conversion = Conversion::make(&meeting, sheet);
    if out.len() < conversion.length {
        return Err(refusal::NO_ROOM.into());
    }
    let length = conversion.length as u64;
    conversion.write(sheet, out);
    Ok(length)
}

fn commit_up_to(
    greatest_seen: u8,
    file: &[u8],
    sheet: &[u8],
    out: &mut [u8],
) -> Result<u64, Refusal> {
    let mut names = TableNames::new();
    let meeting = Meeting::open(file, sheet, greatest_seen, &mut names)?;
    let plan = Plan::make(&meeting)?;
    if plan.tags > Header::MAX_TAGS {
        return Err(refusal::TABLE_FULL.into());
    }
    if out.len() < plan.length {
        return Err(refusal::NO_ROOM.into());
    }
    let length = plan.length as u64;
    plan.write(meeting.table, out);
    Ok(length)
}

/// A sheet's changes and the user table that they are for.
struct Meeting<'a> {
    table: &'a [u8],
    tags: usize,
    names: &'a TableNames,
    changes: Vec<Change<'a>>,
}

impl<'a> Meeting<'a> {
    /// Refusals 1 to 7 and 10.
    fn open(
        file: &'a [u8],
        sheet: &'a [u8],
        greatest_seen: u8,
        names: &'a mut TableNames,
    ) -> Result<Meeting<'a>, Refusal> {
        let front = front(file, names)?;
        let rest = rest(file, &front, names)?;
        let changes =
            read_sheet(sheet, greatest_seen).ok_or_else(|| faults::sheet(sheet, greatest_seen))?;
        Ok(Meeting {
            table: &file[rest.user..],
            tags: rest.user_tags,
            names,
            changes,
        })
    }

    /// The tag that a change names.
    fn find(&self, change: &Change) -> Option<Span> {
        self.names
            .find(self.table, change.name)
            .map(|at| Span::of_tag(self.table, at))
    }

    /// Whether the table, in which `found` is the change's tag, disagrees with
    /// what was seen.
    fn conflicts(&self, change: &Change, found: Option<Span>) -> bool {
        match change.seen {
            Seen::Absent => found.is_some(),
            Seen::Value(seen) => found.map(|span| span.value_in(self.table)) != Some(seen),
            Seen::NobodyLooked(_) => false,
        }
    }
}

/// What a sheet does to a table, and the count and length that come of it.
struct Plan<'a> {
    /// Tags of the table with their new values; `None` removes one.
    edits: Vec<(Span, Option<&'a [u8]>)>,
    /// Names and values of new tags.
    added: Vec<(&'a [u8], &'a [u8])>,
    tags: usize,
    length: usize,
}

impl<'a> Plan<'a> {
    /// Refused 11 at the first change that conflicts. Nothing is written yet,
    /// so the changes ahead of it are not made either.
    fn make(meeting: &Meeting<'a>) -> Result<Plan<'a>, Refusal> {
        let count = meeting.changes.len();
        let mut plan = Plan {
            edits: Vec::with_capacity(count),
            added: Vec::with_capacity(count),
            tags: meeting.tags,
            length: meeting.table.len(),
        };
        for (place, change) in meeting.changes.iter().enumerate() {
            let found = meeting.find(change);
            if meeting.conflicts(change, found) {
                return Err(Refusal::at(refusal::CONFLICT, place));
            }
            plan.take(change, found);
        }
        Ok(plan)
    }

    fn take(&mut self, change: &Change<'a>, found: Option<Span>) {
        match (found, change.new) {
            (Some(span), Some(value)) => {
                self.length = self.length - (span.end - span.value) + value.len();
                self.edits.push((span, Some(value)));
            }
            (Some(span), None) => {
                self.length -= span.end - span.tag;
                self.tags -= 1;
                self.edits.push((span, None));
            }
            (None, Some(value)) => {
                self.length += 1 + change.name.len() + 1 + value.len();
                self.tags += 1;
                self.added.push((change.name, value));
            }
            (None, None) => {}
        }
    }

    /// Tags between two edits are copied in one go.
    fn write(mut self, table: &[u8], out: &mut [u8]) {
        self.edits.sort_unstable_by_key(|(span, _)| span.tag);
        let mut filler = Filler::new(out);
        filler.put(&(self.tags as u32).to_le_bytes());
        let mut from = FIRST_TAG;
        for (span, new) in self.edits {
            match new {
                Some(value) => {
                    filler.put(&table[from..span.value - 1]);
                    filler.put_short_string(value);
                }
                None => filler.put(&table[from..span.tag]),
            }
            from = span.end;
        }
        filler.put(&table[from..]);
        for (name, value) in self.added {
            filler.put_short_string(name);
            filler.put_short_string(value);
        }
    }
}

/// What is filled into an old sheet, and the length that comes of it.
struct Conversion<'a> {
    /// Places of kind bytes that say nobody looked, in sheet order, and the
    /// values that the table has for their changes; `None` where it has no tag.
    filled: Vec<(usize, Option<&'a [u8]>)>,
    length: usize,
}

impl<'a> Conversion<'a> {
    fn make(meeting: &Meeting<'a>, sheet: &[u8]) -> Conversion<'a> {
        let mut conversion = Conversion {
            filled: Vec::with_capacity(meeting.changes.len()),
            length: sheet.len(),
        };
        for change in &meeting.changes {
            if let Seen::NobodyLooked(kind) = change.seen {
                let found = meeting.find(change);
                conversion.fill(kind, found.map(|span| span.value_in(meeting.table)));
            }
        }
        conversion
    }

    /// The kind byte is replaced by another; a value comes with its length byte.
    fn fill(&mut self, kind: usize, value: Option<&'a [u8]>) {
        self.length += value.map_or(0, |value| 1 + value.len());
        self.filled.push((kind, value));
    }

    /// What stands between two filled places is copied in one go.
    fn write(self, sheet: &[u8], out: &mut [u8]) {
        let mut filler = Filler::new(out);
        let mut from = 0;
        for (kind, value) in self.filled {
            filler.put(&sheet[from..kind]);
            match value {
                Some(value) => {
                    filler.put(&[SEEN_VALUE]);
                    filler.put_short_string(value);
                }
                None => filler.put(&[SEEN_ABSENT]),
            }
            from = kind + 1;
        }
        filler.put(&sheet[from..]);
    }
}

/// A tag's places in its table: of the tag, of its value's bytes, and its end.
#[derive(Debug, Clone, Copy, PartialEq, Eq)]
struct Span {
    tag: usize,
    value: usize,
    end: usize,
}

impl Span {
    fn of_tag(table: &[u8], place: usize) -> Span {
        let tag = tag_from(table, place);
        Span {
            tag: place,
            value: tag.value as usize,
            end: (tag.value + tag.value_length) as usize,
        }
    }

    fn value_in(self, table: &[u8]) -> &[u8] {
        &table[self.value..self.end]
    }
}

#[derive(Debug, Clone, Copy, PartialEq, Eq)]
enum Seen<'a> {
    Absent,
    Value(&'a [u8]),
    /// In an old sheet alone, with the place of the kind byte.
    NobodyLooked(usize),
}

#[derive(Debug, Clone, Copy, PartialEq, Eq)]
struct Change<'a> {
    name: &'a [u8],
    seen: Seen<'a>,
    new: Option<&'a [u8]>,
}

pub(crate) const MAX_CHANGES: usize = 64;

const SEEN_ABSENT: u8 = 0;
const SEEN_VALUE: u8 = 1;
const SEEN_NOBODY_LOOKED: u8 = 2;
const GREATEST_SEEN: u8 = SEEN_VALUE;
const GREATEST_SEEN_OF_OLD: u8 = SEEN_NOBODY_LOOKED;

/// `None` if the sheet is malformed, or has a seen kind over the greatest.
fn read_sheet(sheet: &[u8], greatest_seen: u8) -> Option<Vec<Change<'_>>> {
    let mut cursor = Cursor::new(sheet, 0);
    let count = usize::from(cursor.byte()?);
    if count > MAX_CHANGES {
        return None;
    }
    let mut names = SheetNames::new();
    names.restart(count);
    let mut changes = Vec::with_capacity(count);
    for _ in 0..count {
        let place = cursor.at();
        let name = cursor.short_string()?;
        if name.is_empty() || !is_text(name) || !names.insert(sheet, place) {
            return None;
        }
        let kind = cursor.at();
        let seen = match cursor.byte().filter(|&kind| kind <= greatest_seen)? {
            SEEN_ABSENT => Seen::Absent,
            SEEN_VALUE => Seen::Value(text(&mut cursor)?),
            SEEN_NOBODY_LOOKED => Seen::NobodyLooked(kind),
            _ => return None,
        };
        let new = match cursor.byte()? {
            0 => None,
            1 => Some(text(&mut cursor)?),
            _ => return None,
        };
        changes.push(Change { name, seen, new });
    }
    if cursor.at_end() {
        Some(changes)
    } else {
        None
    }
}

fn text<'a>(cursor: &mut Cursor<'a>) -> Option<&'a [u8]> {
    cursor.short_string().filter(|value| is_text(value))
}
