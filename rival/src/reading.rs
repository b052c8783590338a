//! Reading items of a file: what opening runs, then 8.

use crate::layout::{array, Entry};
use crate::names::TableNames;
use crate::opening::{front, rest, Front, Rest};
use crate::refusal::{self, Refusal};
use crate::table::tag_numbered;
use crate::walk::{time_of, EXPOSURE_AT, HEAD};

/// A frame's place and its own fields.
#[derive(Debug, Clone, Copy, PartialEq, Eq)]
pub struct Frame {
    pub place: u64,
    /// From the mark to the last byte.
    pub length: u64,
    pub time: i64,
    pub exposure: u32,
}

/// What can be read as a part of the file.
#[derive(Debug, Clone, Copy, PartialEq, Eq)]
pub enum Item {
    /// A frame's number and a section's number.
    Section(u64, u64),
    SectionName(u64),
    Configuration(u64),
    SystemName(u64),
    SystemValue(u64),
    UserName(u64),
    UserValue(u64),
}

/// What opening found of a file. It reads items of that file, as long as the
/// file stays as it was.
#[derive(Debug, Clone, Copy, PartialEq, Eq)]
pub struct Held {
    front: Front,
    rest: Rest,
}

/// Opens a file of which many items are read.
pub fn hold(file: &[u8]) -> Result<Held, Refusal> {
    let mut names = TableNames::new();
    let front = front(file, &mut names)?;
    let rest = rest(file, &front, &mut names)?;
    Ok(Held { front, rest })
}

pub fn frame(file: &[u8], i: u64) -> Result<Frame, Refusal> {
    frame_of(file, &hold(file)?, i)
}

/// Where the item's bytes start in the file, and how many they are.
pub fn part(file: &[u8], item: Item) -> Result<(u64, u64), Refusal> {
    part_of(file, &hold(file)?, item)
}

/// As `frame`, of a file that is held.
pub fn frame_of(file: &[u8], held: &Held, i: u64) -> Result<Frame, Refusal> {
    let rest = &held.rest;
    let (place, bytes) = frame_bytes(file, rest, below(i, rest.frames)?);
    Ok(Frame {
        place: place as u64,
        length: bytes.len() as u64,
        time: time_of(bytes),
        exposure: u32::from_le_bytes(array(bytes, EXPOSURE_AT)),
    })
}

/// As `part`, of a file that is held.
pub fn part_of(file: &[u8], held: &Held, item: Item) -> Result<(u64, u64), Refusal> {
    let Held { front, rest } = held;
    let definitions = &front.definitions;
    match item {
        Item::Section(i, section) => {
            let i = below(i, rest.frames)?;
            let section = below(section, definitions.count)?;
            let (place, bytes) = frame_bytes(file, rest, i);
            let mut at = HEAD;
            for _ in 0..section {
                at += 4 + size_at(bytes, at);
            }
            Ok(((place + at + 4) as u64, size_at(bytes, at) as u64))
        }
        Item::SectionName(section) => {
            let (place, length) = definitions.names[below(section, definitions.count)?];
            Ok((place as u64, length as u64))
        }
        Item::Configuration(section) => {
            let section = below(section, definitions.count)?;
            let place = definitions.offsets[section];
            let end = match definitions.offsets[..definitions.count].get(section + 1) {
                Some(&next) => next,
                None => front.header.system,
            };
            Ok((place, end - place))
        }
        Item::SystemName(number) => {
            let number = below(number, front.system_tags)?;
            let tag = tag_numbered(&file[front.system..], number);
            Ok((front.system as u64 + tag.name, tag.name_length))
        }
        Item::SystemValue(number) => {
            let number = below(number, front.system_tags)?;
            let tag = tag_numbered(&file[front.system..], number);
            Ok((front.system as u64 + tag.value, tag.value_length))
        }
        Item::UserName(number) => {
            let number = below(number, rest.user_tags)?;
            let tag = tag_numbered(&file[rest.user..], number);
            Ok((rest.user as u64 + tag.name, tag.name_length))
        }
        Item::UserValue(number) => {
            let number = below(number, rest.user_tags)?;
            let tag = tag_numbered(&file[rest.user..], number);
            Ok((rest.user as u64 + tag.value, tag.value_length))
        }
    }
}

fn below(number: u64, count: usize) -> Result<usize, u64> {
    if number < count as u64 {
        Ok(number as usize)
    } else {
        Err(refusal::NO_SUCH_ITEM)
    }
}

/// A frame of an opened file, by the index that opening has compared.
fn frame_bytes<'a>(file: &'a [u8], rest: &Rest, i: usize) -> (usize, &'a [u8]) {
    let entry = Entry::read(&file[rest.index + 4 + Entry::LENGTH * i..]);
    let place = entry.place as usize;
    (place, &file[place..place + entry.length as usize])
}

fn size_at(frame: &[u8], at: usize) -> usize {
    u32::from_le_bytes(array(frame, at)) as usize
}
