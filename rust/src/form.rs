//! What a caller gives, in the forms of document 01: set-up lists, tables and sections.
//!
//! What has no such form, as a name of 300 bytes whose length does not go into a byte, is said by a form that the library refuses with the
//! number of its kind, so that the library alone keeps the order of refusals.

use crate::refusal::Refusal;

/// Where the fields of the header stand, and where the definitions follow it.
pub(crate) const COUNT_PLACE: u64 = 5;
pub(crate) const INDEX_PLACE: u64 = 9;
pub(crate) const SYSTEM_PLACE: u64 = 17;
pub(crate) const USER_PLACE: u64 = 25;
pub(crate) const HEADER_LENGTH: u64 = 33;

/// "0 to 16,777,216, and that many bytes"
const LARGEST_SECTION: usize = 16_777_216;

/// The most sections that a frame can have.
const MOST_SECTIONS: usize = 8;

/// "1,000,000 frames"
const MOST_FRAMES: usize = 1_000_000;

/// A set-up list, or the list of no sections, which is refused 3.
pub(crate) fn setup(sections: &[(&str, &[u8])]) -> Vec<u8> {
    set_up_list(sections).unwrap_or_else(|| vec![0])
}

/// The set-up list of these sections, each with a name and a configuration: what [`crate::Recorder::begin`] lends to the library, and
/// [`crate::Recorder::begin_in_file_form`] takes.
///
/// None where they have no such form: more than 255 of them, a name of more than 255 bytes, a configuration of more than 65,535.
#[must_use]
pub fn set_up_list(sections: &[(&str, &[u8])]) -> Option<Vec<u8>> {
    let mut list = vec![u8::try_from(sections.len()).ok()?];
    for (name, configuration) in sections {
        short_string(&mut list, name)?;
        list.extend_from_slice(&u16::try_from(configuration.len()).ok()?.to_le_bytes());
        list.extend_from_slice(configuration);
    }
    Some(list)
}

/// A table of tags, or no bytes at all, which are refused as a table.
pub(crate) fn table(tags: &[(&str, &str)]) -> Vec<u8> {
    tag_table(tags).unwrap_or_default()
}

/// The table of these tags, each with a name and a value, as it stands in a file. None where it has no such form: a name or a value of more than
/// 255 bytes.
#[must_use]
pub fn tag_table(tags: &[(&str, &str)]) -> Option<Vec<u8>> {
    let mut table = u32::try_from(tags.len()).ok()?.to_le_bytes().to_vec();
    for (name, value) in tags {
        short_string(&mut table, name)?;
        short_string(&mut table, value)?;
    }
    Some(table)
}

/// "A short string is one length byte and that many bytes."
pub(crate) fn short_string(form: &mut Vec<u8>, string: &str) -> Option<()> {
    form.push(u8::try_from(string.len()).ok()?);
    form.extend_from_slice(string.as_bytes());
    Some(())
}

/// The sections of a frame, into a buffer that is used again; nothing where there is no memory.
///
/// One that is too large is said by its size alone, and of too many only one too many: both are refused 14 without a copy.
pub(crate) fn sections(form: &mut Vec<u8>, sections: &[&[u8]]) -> Option<()> {
    form.clear();
    for section in sections.iter().take(MOST_SECTIONS + 1) {
        let size = section.len().min(LARGEST_SECTION + 1);
        let bytes = if size > LARGEST_SECTION { &[][..] } else { section };
        form.try_reserve(4 + bytes.len()).ok()?;
        form.extend_from_slice(&(size as u32).to_le_bytes());
        form.extend_from_slice(bytes);
    }
    Some(())
}

/// The length of the notes, and of the index, of so many frames: "4 + 16·n bytes".
pub(crate) fn notes_length(frames: u64) -> usize {
    4 + 16 * (frames as usize).min(MOST_FRAMES)
}

/// No first piece is longer: the header's 33 bytes, and for each section 8 bytes of offset in the place of 2 of length.
pub(crate) fn front_length(setup: &[u8], system: &[u8]) -> usize {
    (33 + 6 * MOST_SECTIONS).saturating_add(setup.len()).saturating_add(system.len())
}

/// A frame's length: its head and its sections.
pub(crate) fn frame_length(sections: &[u8]) -> usize {
    16 + sections.len()
}

/// No tail of a repaired file is longer: the index of as many frames as the file can hold, each of 20 bytes at least, and four zeros.
pub(crate) fn tail_length(file: &[u8]) -> usize {
    notes_length(file.len() as u64 / 20) + 4
}

/// A part of a file. What the library answers lies inside it, so that there is no other case to report.
pub(crate) fn between(file: &[u8], start: u64, end: u64) -> &[u8] {
    file.get(start as usize..end as usize).unwrap_or_default()
}

/// An offset of the header, if the file has so many bytes.
pub(crate) fn offset(file: &[u8], place: u64) -> Option<u64> {
    between(file, place, place + 8).try_into().ok().map(u64::from_le_bytes)
}

/// A zeroed buffer; memory that is not there is no room, 9.
pub(crate) fn room(length: usize) -> Result<Vec<u8>, Refusal> {
    let mut buffer = Vec::new();
    longer(&mut buffer, length)?;
    Ok(buffer)
}

/// Makes a buffer at least so long. It at least doubles, so that growing by a frame at a time costs little.
pub(crate) fn longer(buffer: &mut Vec<u8>, length: usize) -> Result<(), Refusal> {
    if length <= buffer.len() {
        return Ok(());
    }
    let more = length.max(buffer.len().saturating_mul(2)) - buffer.len();
    buffer.try_reserve_exact(more).map_err(|_| Refusal::NO_ROOM)?;
    buffer.resize(buffer.len() + more, 0);
    Ok(())
}
