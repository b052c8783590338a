//! To commit: the new user table of a sheet whose changes all agree with the file.

use std::io::{self, Write};

use crate::calls;
use crate::form::{self, between};
use crate::recording::Recording;
use crate::refusal::{accepted, Refusal};
use crate::sheet::Sheet;

/// An accepted commit: the new user table, and the file that it belongs to.
#[derive(Debug, Clone)]
pub struct Committed<'a> {
    file: &'a [u8],
    place: usize,
    table: Vec<u8>,
}

/// Makes the new user table of a sheet. Refused 1 to 7, 10, 11, 17; with 10, [`Sheet::fault_at`] tells which tag and which character.
///
/// It is refused 11 exactly where [`look()`](crate::look()) shows a conflict, and [`Refusal::place`] is the lowest change that does; [`Sheet::name`]
/// tells its tag. Whoever looked before and saw none has been overtaken by another member: look again, which shows every conflict with what the file
/// says now.
///
/// It is an answer, not a write: [`crate::files::commit`] commits to a file on disk.
pub fn commit<'a>(file: &'a [u8], sheet: &Sheet) -> Result<Committed<'a>, Refusal> {
    let recording = Recording::open(file)?;
    let sheet = sheet.to_vec();
    // no new table is longer than the old one and the sheet together
    let mut table = form::room(recording.user_table().len().saturating_add(sheet.len()))?;
    let committed = calls::commit(file, &sheet, &mut table);
    accepted(committed.refusal())?;
    table.truncate(committed.length as usize);
    Ok(Committed { file, place: recording.user_place(), table })
}

impl Committed<'_> {
    /// Where the table goes in the file, which ends behind it.
    #[must_use]
    pub fn place(&self) -> usize {
        self.place
    }

    /// The new user table.
    #[must_use]
    pub fn table(&self) -> &[u8] {
        &self.table
    }

    pub(crate) fn into_table(self) -> Vec<u8> {
        self.table
    }

    /// Writes the new file, front to back. Do not write it over the file itself.
    pub fn write<W: Write>(&self, mut storage: W) -> io::Result<()> {
        storage.write_all(between(self.file, 0, self.place as u64))?;
        storage.write_all(&self.table)
    }

    /// The bytes of the new file.
    #[must_use]
    pub fn to_vec(&self) -> Vec<u8> {
        [between(self.file, 0, self.place as u64), &self.table].concat()
    }
}
