//! To convert: old sheets, in which a change may say that nobody looked, to sheets of today.

use std::fmt;

use crate::calls;
use crate::form;
use crate::position::NOBODY_LOOKED;
use crate::refusal::{accepted, Refusal};
use crate::sheet::{Seen, Sheet, MOST_CHANGES};

/// The most bytes of a sheet: a count, and 64 changes of a name, a kind and a value twice, all at their longest.
pub const LARGEST_SHEET: usize = 1 + MOST_CHANGES * (256 + 257 + 257);

/// So many bytes are enough for [`calls::convert`] of an old sheet of this length, whatever is in it and in the file.
///
/// A change of which nobody looked is longer by a length byte and 255 bytes at most, and no sheet is longer than [`LARGEST_SHEET`].
#[must_use]
pub fn convert_room(old_length: usize) -> usize {
    old_length.saturating_add(MOST_CHANGES * 256).min(LARGEST_SHEET)
}

/// An accepted conversion: the new sheet, and which of its changes were filled in.
///
/// Shown, it is how many were: `2 of 3 changes filled in`.
#[derive(Debug, Clone, PartialEq, Eq)]
pub struct Converted {
    bytes: Vec<u8>,
    sheet: Sheet,
    filled_in: Vec<usize>,
}

/// Converts an old sheet, one from before 0.5.0: where it says of a tag that nobody looked, the new sheet says what the file has. Refused 1 to 7, 10;
/// [`Refusal::spot`] of the file, or with 10 of the sheet, tells what stands there.
///
/// `file` is the recording that the sheet was prepared against. Committed to that file, the new sheet gives what the old one gave before 0.5.0. Committed
/// to one that another member has changed since, it is refused 11 where the old one would have written over that change. So do not convert against the
/// file as it is now, where that is another: the sheet would say that its member saw what nobody did.
///
/// A sheet without such a change comes back as it is. No conflict is looked for, that is for [`look()`](crate::look()) and [`commit()`](crate::commit()).
/// [`crate::files::convert`] converts a sheet on disk.
///
/// ```no_run
/// # fn send(prepared_against: &[u8], now: &[u8], old: &[u8]) -> Result<(), suljanko::Refusal> {
/// let converted = suljanko::convert(prepared_against, old)?;
/// let committed = suljanko::commit(now, converted.sheet())?;
/// # let _ = committed;
/// # Ok(())
/// # }
/// ```
pub fn convert(file: &[u8], old: &[u8]) -> Result<Converted, Refusal> {
    let mut bytes = form::room(convert_room(old.len()))?;
    let converted = calls::convert(file, old, &mut bytes);
    accepted(converted.refusal())?;
    bytes.truncate(converted.length as usize);
    let sheet = Sheet::from_bytes(&bytes)?;
    let filled_in = filled_in(old, &sheet);
    Ok(Converted { bytes, sheet, filled_in })
}

/// The changes that say in the old sheet that nobody looked. All else is as in the new one, which leads from one change to the next.
fn filled_in(old: &[u8], new: &Sheet) -> Vec<usize> {
    let mut places = Vec::new();
    let mut at = 1;
    for (place, change) in new.changes().enumerate() {
        at += 1 + change.name.len();
        let filled_in = old.get(at) == Some(&NOBODY_LOOKED);
        if filled_in {
            places.push(place);
        }
        at += match change.seen {
            Seen::Value(value) if !filled_in => entry_length(Some(value)),
            _ => entry_length(None),
        };
        at += entry_length(change.new);
    }
    places
}

/// A kind, and behind kind 1 a short string.
fn entry_length(value: Option<&str>) -> usize {
    value.map_or(1, |value| 2 + value.len())
}

impl Converted {
    /// The bytes of the new sheet, as the library wrote them.
    #[must_use]
    pub fn bytes(&self) -> &[u8] {
        &self.bytes
    }

    /// The same, to keep.
    #[must_use]
    pub fn into_bytes(self) -> Vec<u8> {
        self.bytes
    }

    /// The new sheet, to look and to commit with.
    #[must_use]
    pub fn sheet(&self) -> &Sheet {
        &self.sheet
    }

    /// The same, to keep.
    #[must_use]
    pub fn into_sheet(self) -> Sheet {
        self.sheet
    }

    /// The places on the sheet, from 0, of the changes of which nobody had looked: they say now what the file has.
    #[must_use]
    pub fn filled_in(&self) -> &[usize] {
        &self.filled_in
    }
}

impl fmt::Display for Converted {
    fn fmt(&self, f: &mut fmt::Formatter<'_>) -> fmt::Result {
        match self.filled_in.len() {
            0 => f.write_str("no change was to be filled in"),
            filled_in => write!(f, "{filled_in} of {} changes filled in", self.sheet.len()),
        }
    }
}
