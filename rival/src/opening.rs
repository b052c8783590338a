//! Opening: refusals 1 to 7 in number order.

use crate::faults;
use crate::layout::{index_length, is_section_name, is_step, Cursor, Entry, Header};
use crate::names::TableNames;
use crate::refusal::{self, Refusal};
use crate::table;
use crate::walk::{frame_length, time_of, Clock};

/// What an opened file holds.
#[derive(Debug, Clone, Copy, PartialEq, Eq)]
pub struct Opened {
    pub frames: u64,
    pub sections: u64,
    pub system_tags: u64,
    pub user_tags: u64,
    /// Where the walk starts.
    pub start: u64,
    /// The index offset.
    pub index: u64,
    /// The user table offset.
    pub user: u64,
}

pub fn open(file: &[u8]) -> Result<Opened, Refusal> {
    let mut names = TableNames::new();
    let front = front(file, &mut names)?;
    let rest = rest(file, &front, &mut names)?;
    Ok(Opened {
        frames: rest.frames as u64,
        sections: front.definitions.count as u64,
        system_tags: front.system_tags as u64,
        user_tags: rest.user_tags as u64,
        start: front.start as u64,
        index: rest.index as u64,
        user: rest.user as u64,
    })
}

/// The definitions block.
#[derive(Debug, Clone, Copy, PartialEq, Eq)]
pub(crate) struct Definitions {
    pub count: usize,
    /// Place and length of each section name.
    pub names: [(usize, usize); Header::MAX_SECTIONS],
    /// The configuration offsets. They may lie past the file's end until the
    /// system table behind them has been found inside.
    pub offsets: [u64; Header::MAX_SECTIONS],
}

/// Everything ahead of the frames.
#[derive(Debug, Clone, Copy, PartialEq, Eq)]
pub(crate) struct Front {
    pub header: Header,
    pub definitions: Definitions,
    pub system: usize,
    pub system_tags: usize,
    pub start: usize,
}

/// Refusals 1 to 4.
pub(crate) fn front(file: &[u8], names: &mut TableNames) -> Result<Front, Refusal> {
    let header = Header::read(file)?;
    let definitions = definitions(file).ok_or_else(|| faults::definitions(file))?;
    let last = definitions.offsets[definitions.count - 1];
    if !is_step(last, header.system) {
        return Err(Refusal::at(refusal::SYSTEM_TABLE, Header::SYSTEM_AT));
    }
    // So close behind the definitions it is a place, if not one in the file.
    let system = header.system as usize;
    let extent = file
        .get(system..)
        .and_then(|bytes| table::measure(bytes, names))
        .ok_or_else(|| faults::system_table(file, system))?;
    Ok(Front {
        header,
        definitions,
        system,
        system_tags: extent.tags,
        start: system + extent.length,
    })
}

fn definitions(file: &[u8]) -> Option<Definitions> {
    let mut cursor = Cursor::new(file, Header::LENGTH);
    let count = usize::from(cursor.byte()?);
    if count == 0 || count > Header::MAX_SECTIONS {
        return None;
    }
    let mut names = [(0, 0); Header::MAX_SECTIONS];
    let mut offsets = [0; Header::MAX_SECTIONS];
    for section in 0..count {
        let place = cursor.at() + 1;
        let name = cursor.short_string()?;
        let known = names[..section]
            .iter()
            .any(|&(at, length)| &file[at..at + length] == name);
        if known || !is_section_name(name) {
            return None;
        }
        names[section] = (place, name.len());
        offsets[section] = cursor.u64()?;
    }
    let stepping = offsets[..count]
        .windows(2)
        .all(|two| is_step(two[0], two[1]));
    if offsets[0] != cursor.at() as u64 || !stepping {
        return None;
    }
    Some(Definitions {
        count,
        names,
        offsets,
    })
}

/// An offset as a place in the file, its end included.
fn inside(offset: u64, file: &[u8]) -> Option<usize> {
    usize::try_from(offset).ok().filter(|&at| at <= file.len())
}

/// Everything from the frames on.
#[derive(Debug, Clone, Copy, PartialEq, Eq)]
pub(crate) struct Rest {
    pub frames: usize,
    pub index: usize,
    pub user: usize,
    pub user_tags: usize,
}

/// Refusals 5 to 7. Accepted, `names` finds the user table's tags.
pub(crate) fn rest(file: &[u8], front: &Front, names: &mut TableNames) -> Result<Rest, Refusal> {
    let header = &front.header;
    if header.index == 0 || header.user == 0 || header.user > Header::MAX_USER {
        return Err(refusal::NOT_CLOSED.into());
    }
    let index = inside(header.index, file).ok_or(refusal::NOT_CLOSED)?;
    let user = inside(header.user, file).ok_or(refusal::NOT_CLOSED)?;
    if !is_index(file, front, index, user) {
        return Err(refusal::INDEX.into());
    }
    let extent =
        table::measure_whole(&file[user..], names).ok_or_else(|| faults::user_table(file, user))?;
    Ok(Rest {
        frames: header.frames as usize,
        index,
        user,
        user_tags: extent.tags,
    })
}

/// Whether the header's count of whole frames fills the file from the walk's
/// start to the index, in time, and the bytes from there to the user table are
/// their index.
///
/// Each frame is looked at where the entries so far say it is, and must then
/// have the length its own entry says. So the frames' places do not wait for
/// one another's sizes, and yet they are the walk's places.
fn is_index(file: &[u8], front: &Front, index: usize, user: usize) -> bool {
    let frames = front.header.frames;
    if u64::from(frames) > Header::MAX_FRAMES
        || index < front.start
        || index as u64 + index_length(u64::from(frames)) != user as u64
    {
        return false;
    }
    let (count, entries) = file[index..user].split_at(4);
    if count != frames.to_le_bytes() {
        return false;
    }
    let mut left = &file[front.start..index];
    let mut place = front.start;
    let mut clock = Clock::new();
    for entry in entries.chunks_exact(Entry::LENGTH) {
        let entry = Entry::read(entry);
        let length = entry.length as usize;
        if entry.place != place as u64 || length > left.len() {
            return false;
        }
        let (frame, behind) = left.split_at(length);
        if frame_length(frame, front.definitions.count) != Some(length)
            || clock.take(time_of(frame)) != Some(entry.elapsed)
        {
            return false;
        }
        left = behind;
        place += length;
    }
    left.is_empty()
}
