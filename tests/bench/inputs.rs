//! Files, tables and sheets that more than one row is made of.

use crate::build::*;

/// A closed file of frames of one section, of the size that `section` says, and where its frames end. Contents are not zero, so that all of it is in
/// memory.
pub fn file_of(frames: usize, section: fn(usize) -> usize) -> (Vec<u8>, usize) {
    let mut recording = worked();
    recording.frames.clear();
    let mut file = recording.unclosed().bytes;
    let length = |i| 20 + section(i);
    let start = file.len();
    let index = start + (0..frames).map(length).sum::<usize>();
    let user = index + 4 + 16 * frames;
    file.reserve_exact(user + 4 - start);
    for i in 0..frames {
        file.extend_from_slice(&MARK);
        file.extend_from_slice(&(i as u64).to_le_bytes());
        file.extend_from_slice(&40u32.to_le_bytes());
        file.extend_from_slice(&(section(i) as u32).to_le_bytes());
        file.resize(file.len() + section(i), 0xA5);
    }
    file.extend_from_slice(&(frames as u32).to_le_bytes());
    let mut place = start;
    for i in 0..frames {
        file.extend_from_slice(&(i as u32).to_le_bytes());
        file.extend_from_slice(&(place as u64).to_le_bytes());
        file.extend_from_slice(&(length(i) as u32).to_le_bytes());
        place += length(i);
    }
    file.extend_from_slice(&[0; 4]);
    set_number(&mut file, 5, 4, frames as u64);
    set_number(&mut file, 9, 8, index as u64);
    set_number(&mut file, 25, 8, user as u64);
    (file, index)
}

/// The file as it was before it was closed, its last frame torn.
pub fn torn(mut file: Vec<u8>, index: usize) -> Vec<u8> {
    for (place, width) in [(5, 4), (9, 8), (25, 8)] {
        set_number(&mut file, place, width, 0);
    }
    file.truncate(index - 1);
    file
}

pub fn named_tags(count: usize, name: impl Fn(usize) -> String) -> Vec<Tag> {
    (0..count).map(|i| tag(name(i).into_bytes())).collect()
}

pub fn tag(name: Vec<u8>) -> Tag {
    Tag { name, value: b"a value".to_vec() }
}

pub fn file_with(user: Vec<Tag>) -> Vec<u8> {
    Recording { user, ..worked() }.file().bytes
}

/// Names of 8 bytes.
pub fn short_name(i: usize) -> String {
    format!("{:T>8}", i)
}

/// Names that differ at their end only are the most work for whoever compares them.
pub fn long_name(i: usize) -> String {
    format!("{:T>255}", i)
}

pub fn two_letters(i: usize) -> String {
    let letter = |number: usize| (b'A' + number as u8) as char;
    format!("{}{}", letter(i / 32), letter(i % 32))
}

/// A sheet that gives these tags a new value, by one who looked.
pub fn sheet_of<'a>(tags: impl IntoIterator<Item = &'a Tag>) -> Vec<u8> {
    sheet_by(tags, |_| b"\x01\x07a value")
}

/// The same by one whose every second entry is wrong, at its end only.
pub fn half_wrong_sheet_of<'a>(tags: impl IntoIterator<Item = &'a Tag>) -> Vec<u8> {
    sheet_by(tags, |place| if place % 2 == 0 { b"\x01\x07a value" } else { b"\x01\x07a valuf" })
}

/// The same by one who did not look at all, as an old sheet has it.
pub fn old_sheet_of<'a>(tags: impl IntoIterator<Item = &'a Tag>) -> Vec<u8> {
    sheet_by(tags, |_| b"\x02")
}

/// What was seen of each tag goes by its place in the sheet.
fn sheet_by<'a>(tags: impl IntoIterator<Item = &'a Tag>, seen: fn(usize) -> &'static [u8]) -> Vec<u8> {
    let mut sheet = vec![0];
    for (place, tag) in tags.into_iter().enumerate() {
        sheet[0] += 1;
        sheet.push(tag.name.len() as u8);
        sheet.extend_from_slice(&tag.name);
        sheet.extend_from_slice(seen(place));
        sheet.extend_from_slice(b"\x01\x05other");
    }
    sheet
}
