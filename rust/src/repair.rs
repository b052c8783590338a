//! Repair of recordings that were cut off.

use std::io::{self, Write};

use crate::calls;
use crate::form::{self, between, COUNT_PLACE, INDEX_PLACE, USER_PLACE};
use crate::raw::FstfRepaired;
use crate::recording::Tags;
use crate::refusal::{accepted, Refusal};

/// How a recording that was cut off becomes a file that opens: its first bytes are kept, three fields of its header are set, and a tail follows.
///
/// The repaired file holds every frame that was stored whole. Its user table is empty; [`Repair::tags_not_kept`] tells what that costs.
#[derive(Debug, Clone)]
pub struct Repair<'a> {
    file: &'a [u8],
    numbers: FstfRepaired,
    tail: Vec<u8>,
}

/// Repairs a recording that was cut off. Refused 1 to 4, 16, 13, 15; 16 means that the file opens as it is.
pub fn repair(file: &[u8]) -> Result<Repair<'_>, Refusal> {
    let mut tail = form::room(form::tail_length(file))?;
    let numbers = calls::repair(file, &mut tail);
    accepted(numbers.refusal())?;
    tail.truncate(numbers.tail as usize);
    Ok(Repair { file, numbers, tail })
}

impl<'a> Repair<'a> {
    /// How many bytes of the file are kept: up to the end of the last whole frame.
    #[must_use]
    pub fn kept(&self) -> usize {
        self.numbers.kept as usize
    }

    /// How many frames the repaired file has: the header's frame count.
    #[must_use]
    pub fn frame_count(&self) -> usize {
        self.numbers.count as usize
    }

    /// The header's index offset.
    #[must_use]
    pub fn index(&self) -> u64 {
        self.numbers.index
    }

    /// The header's user table offset.
    #[must_use]
    pub fn user(&self) -> u64 {
        self.numbers.user
    }

    /// What follows the kept bytes: the index, and an empty user table.
    #[must_use]
    pub fn tail(&self) -> &[u8] {
        &self.tail
    }

    /// The user tags that stand readable in the file and will not be in the repaired one, whose user table is empty.
    ///
    /// They are looked for where a closed file has them: behind the index of the kept frames, if that index stands there, and where the header's
    /// user offset points. They count if the bytes from there to the file's end are exactly a table, which the library says.
    #[must_use]
    pub fn tags_not_kept(&self) -> Tags<'a> {
        let end = self.file.len() as u64;
        let index = between(&self.tail, 0, self.numbers.user.saturating_sub(self.numbers.index));
        let stands = between(self.file, self.numbers.kept, self.numbers.user) == index;
        let behind = if stands { between(self.file, self.numbers.user, end) } else { &[] };
        let offset = form::offset(self.file, USER_PLACE).unwrap_or(end);
        let tables = [behind, between(self.file, offset, end)];
        tables.into_iter().find_map(Tags::of_table).unwrap_or_default()
    }

    /// The header's fields, each with its place.
    pub(crate) fn fields(&self) -> Vec<(u64, Vec<u8>)> {
        vec![
            (COUNT_PLACE, (self.numbers.count as u32).to_le_bytes().to_vec()),
            (INDEX_PLACE, self.numbers.index.to_le_bytes().to_vec()),
            (USER_PLACE, self.numbers.user.to_le_bytes().to_vec()),
        ]
    }

    pub(crate) fn into_tail(self) -> Vec<u8> {
        self.tail
    }

    /// Writes the repaired file, front to back. Do not write it over the file itself; [`crate::files::repair`] repairs a file on disk.
    pub fn write<W: Write>(&self, mut storage: W) -> io::Result<()> {
        let mut written = 0;
        for (place, bytes) in self.fields() {
            storage.write_all(between(self.file, written, place))?;
            storage.write_all(&bytes)?;
            written = place + bytes.len() as u64;
        }
        storage.write_all(between(self.file, written, self.numbers.kept))?;
        storage.write_all(&self.tail)
    }

    /// The bytes of the repaired file.
    #[must_use]
    pub fn to_vec(&self) -> Vec<u8> {
        let mut repaired = Vec::with_capacity(self.kept().saturating_add(self.tail.len()));
        // a Vec takes all that is written to it
        let _ = self.write(&mut repaired);
        repaired
    }
}
