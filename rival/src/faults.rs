//! Where the first fault stands, for refusals 3, 4, 7 and 10.
//!
//! A refused call comes here: the bytes are read once more from front to back,
//! by the rules of request 102 alone, until the fault is met. An accepted call
//! never does, so nothing here needs to be fast.

use crate::layout::{is_name_byte, is_step, is_text_byte, Header};
use crate::refusal::{self, Refusal};
use crate::saving::MAX_CHANGES;
use std::collections::HashSet;
use std::ops::RangeInclusive;

/// 3 in a file.
#[cold]
pub(crate) fn definitions(file: &[u8]) -> Refusal {
    let mut lowest = Lowest(None);
    let read = read_definitions(&mut Reader::new(file, Header::LENGTH), &mut lowest);
    if let Err(place) = read {
        lowest.take(place);
    }
    refuse(refusal::SECTIONS, lowest.0)
}

/// 4 in a file, its offset being in order; the table may start behind the end.
#[cold]
pub(crate) fn system_table(file: &[u8], offset: usize) -> Refusal {
    let read = read_table(&mut Reader::new(file, offset));
    refuse(refusal::SYSTEM_TABLE, read.err())
}

/// 4 in the table that a recording begins with.
#[cold]
pub(crate) fn lent_system_table(table: &[u8]) -> Refusal {
    let read = read_whole(table, 0, read_table);
    refuse(refusal::SYSTEM_TABLE, read.err())
}

/// 7 in a file from the user table's offset on, or in a table from its start.
#[cold]
pub(crate) fn user_table(bytes: &[u8], offset: usize) -> Refusal {
    let read = read_whole(bytes, offset, read_table);
    refuse(refusal::USER_TABLE, read.err())
}

/// 10 in a change sheet whose seen kinds go up to the greatest.
#[cold]
pub(crate) fn sheet(sheet: &[u8], greatest_seen: u8) -> Refusal {
    let read = read_whole(sheet, 0, |reader| read_changes(reader, greatest_seen));
    refuse(refusal::SHEET, read.err())
}

/// 10 in a set-up list.
#[cold]
pub(crate) fn incomplete_list(list: &[u8]) -> Refusal {
    let read = read_whole(list, 0, read_list);
    refuse(refusal::SHEET, read.err())
}

/// 3 in a complete set-up list.
#[cold]
pub(crate) fn sections_of_list(list: &[u8]) -> Refusal {
    let read = read_legal_list(&mut Reader::new(list, 0));
    refuse(refusal::SECTIONS, read.err())
}

/// The call has found that the bytes are not as they should be; that none of
/// them is at fault would be a mistake in here or there.
fn refuse(number: u64, place: Option<usize>) -> Refusal {
    Refusal::at(number, place.expect("what is refused has a fault"))
}

/// Where a reading failed.
type Read<T> = Result<T, usize>;

/// Reads lent bytes from front to back, up to the first fault.
struct Reader<'a> {
    bytes: &'a [u8],
    at: usize,
}

impl<'a> Reader<'a> {
    fn new(bytes: &'a [u8], at: usize) -> Reader<'a> {
        Reader { bytes, at }
    }

    /// A number or a block. Not all there, its fault is at its start.
    fn field(&mut self, length: usize) -> Read<&'a [u8]> {
        let start = self.at;
        let left = self.bytes.get(start..).ok_or(start)?;
        let field = left.get(..length).ok_or(start)?;
        self.at = start + length;
        Ok(field)
    }

    fn number(&mut self, width: usize) -> Read<u64> {
        let mut bytes = [0; 8];
        bytes[..width].copy_from_slice(self.field(width)?);
        Ok(u64::from_le_bytes(bytes))
    }

    /// A count or a kind; one that is not legal is a fault at its start.
    fn number_among(&mut self, width: usize, legal: RangeInclusive<u64>) -> Read<u64> {
        let start = self.at;
        let number = self.number(width)?;
        if legal.contains(&number) {
            Ok(number)
        } else {
            Err(start)
        }
    }

    /// A short string of at least so many bytes, all of them legal. Its length
    /// and its bytes are looked at one after another, so a bad byte is met
    /// ahead of one that is missing behind it. What is missing is a fault at
    /// the end of the lent bytes.
    fn string(&mut self, least: u8, is_legal: fn(u8) -> bool) -> Read<&'a [u8]> {
        let start = self.at;
        let length = self.byte_of_string(start)?;
        if length < least {
            return Err(start);
        }
        let end = start + 1 + usize::from(length);
        for at in start + 1..end {
            if !is_legal(self.byte_of_string(at)?) {
                return Err(at);
            }
        }
        self.at = end;
        Ok(&self.bytes[start + 1..end])
    }

    fn byte_of_string(&self, at: usize) -> Read<u8> {
        self.bytes.get(at).copied().ok_or(self.bytes.len())
    }

    /// Bytes left over are a fault at the first of them.
    fn end(&self) -> Read<()> {
        if self.at == self.bytes.len() {
            Ok(())
        } else {
            Err(self.at)
        }
    }
}

/// What `read` reads from a place on has to be all that is lent behind it.
fn read_whole(bytes: &[u8], from: usize, read: impl FnOnce(&mut Reader) -> Read<()>) -> Read<()> {
    let mut reader = Reader::new(bytes, from);
    read(&mut reader)?;
    reader.end()
}

/// A name that none of those ahead of it equals: the second of two is the
/// fault, at its start, and is told as soon as it is read.
fn new_name<'a>(
    reader: &mut Reader<'a>,
    known: &mut HashSet<&'a [u8]>,
    is_legal: fn(u8) -> bool,
) -> Read<()> {
    let start = reader.at;
    let name = reader.string(1, is_legal)?;
    if known.insert(name) {
        Ok(())
    } else {
        Err(start)
    }
}

fn read_table(reader: &mut Reader) -> Read<()> {
    let tags = reader.number_among(4, 0..=Header::MAX_TAGS as u64)?;
    let mut known = HashSet::new();
    for _ in 0..tags {
        new_name(reader, &mut known, is_text_byte)?;
        reader.string(0, is_text_byte)?;
    }
    Ok(())
}

fn read_changes(reader: &mut Reader, greatest_seen: u8) -> Read<()> {
    let changes = reader.number_among(1, 0..=MAX_CHANGES as u64)?;
    let mut known = HashSet::new();
    for _ in 0..changes {
        new_name(reader, &mut known, is_text_byte)?;
        read_entry(reader, 0..=u64::from(greatest_seen))?;
        read_entry(reader, 0..=1)?;
    }
    Ok(())
}

/// A kind, and behind kind 1 a value.
fn read_entry(reader: &mut Reader, kinds: RangeInclusive<u64>) -> Read<()> {
    if reader.number_among(1, kinds)? == 1 {
        reader.string(0, is_text_byte)?;
    }
    Ok(())
}

/// Whether the list is complete, and nothing else: no count and no name is at
/// fault here.
fn read_list(reader: &mut Reader) -> Read<()> {
    for _ in 0..reader.number(1)? {
        reader.string(0, |_| true)?;
        read_configuration(reader)?;
    }
    Ok(())
}

fn read_configuration(reader: &mut Reader) -> Read<()> {
    let length = reader.number(2)?;
    reader.field(length as usize)?;
    Ok(())
}

/// Count and names of a list that is complete.
fn read_legal_list(reader: &mut Reader) -> Read<()> {
    let sections = reader.number_among(1, 1..=Header::MAX_SECTIONS as u64)?;
    let mut known = HashSet::new();
    for _ in 0..sections {
        new_name(reader, &mut known, is_name_byte)?;
        read_configuration(reader)?;
    }
    Ok(())
}

/// The lowest of the places taken.
struct Lowest(Option<usize>);

impl Lowest {
    fn take(&mut self, place: usize) {
        self.0 = Some(self.0.map_or(place, |lowest| lowest.min(place)));
    }
}

/// What ends the reading is answered. Equal names and offsets that break their
/// rule do not end it: they go into `lowest`.
fn read_definitions(reader: &mut Reader, lowest: &mut Lowest) -> Read<()> {
    let sections = reader.number_among(1, 1..=Header::MAX_SECTIONS as u64)?;
    let mut names = Vec::new();
    let mut offsets: Vec<(usize, u64)> = Vec::new();
    for _ in 0..sections {
        let start = reader.at;
        let name = reader.string(1, is_name_byte)?;
        if names.contains(&name) {
            lowest.take(start);
        }
        names.push(name);

        let place = reader.at;
        let offset = reader.number(8)?;
        if let Some(&(_, before)) = offsets.last() {
            // Of two that do not suit each other, the later.
            if !is_step(before, offset) {
                lowest.take(place);
            }
        }
        offsets.push((place, offset));
    }
    // Only now is it known where the definitions end, and so the first offset.
    let (place, first) = offsets[0];
    if first != reader.at as u64 {
        lowest.take(place);
    }
    Ok(())
}
