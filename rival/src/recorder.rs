//! The recorder. Its state is passed in and handed back by each call; each
//! accepted call hands out one piece of the file.

use crate::faults;
use crate::layout::{elapsed, fits, index_length, is_section_name, Cursor, Entry, Filler, Header};
use crate::names::TableNames;
use crate::refusal::{self, Refusal};
use crate::table;
use crate::walk::{sections_length, Clock, EXPOSURE_AT, HEAD, MARK, TIME_AT};

/// Which calls the recorder takes.
#[derive(Debug, Clone, Copy, PartialEq, Eq)]
pub enum Stage {
    Fresh,
    Running,
    /// The next piece, 0 to 4.
    Closing(u64),
    Closed,
}

#[derive(Debug, Clone, Copy, PartialEq, Eq)]
pub struct State {
    pub stage: Stage,
    pub sections: u64,
    pub frames: u64,
    /// The first and the last frame's time; 0 before a frame is added.
    pub first: i64,
    pub last: i64,
    /// Where the next frame goes; once closing, where the index stands.
    pub end: u64,
}

impl State {
    pub fn new() -> State {
        State {
            stage: Stage::Fresh,
            sections: 0,
            frames: 0,
            first: 0,
            last: 0,
            end: 0,
        }
    }

    /// The limits that every state past fresh obeys.
    fn is_within_limits(&self) -> bool {
        (1..=Header::MAX_SECTIONS as u64).contains(&self.sections)
            && self.frames <= Header::MAX_FRAMES
            && elapsed(self.first, self.last).is_some()
            && fits(self.end, self.frames)
    }
}

impl Default for State {
    fn default() -> State {
        State::new()
    }
}

/// A place in the file for the first `length` bytes of the output.
#[derive(Debug, Clone, Copy, PartialEq, Eq)]
pub struct Piece {
    pub place: u64,
    pub length: u64,
}

/// Takes a set-up list and a system table, and hands out everything up to the
/// first frame.
pub fn begin(
    state: State,
    list: &[u8],
    system: &[u8],
    notes: &mut [u8],
    out: &mut [u8],
) -> Result<(State, Piece), Refusal> {
    if state.stage != Stage::Fresh {
        return Err(refusal::STAGE.into());
    }
    let setup = Setup::read(list).ok_or_else(|| faults::incomplete_list(list))?;
    if !setup.is_legal() {
        return Err(faults::sections_of_list(list));
    }
    let mut names = TableNames::new();
    table::measure_whole(system, &mut names).ok_or_else(|| faults::lent_system_table(system))?;
    let sections = &setup.sections[..setup.count];
    let definitions_end = sections.iter().fold(Header::LENGTH + 1, |at, section| {
        at + 1 + section.name.len() + 8
    });
    let system_at = sections.iter().fold(definitions_end, |at, section| {
        at + section.configuration.len()
    });
    let end = system_at + system.len();
    if out.len() < end || notes.len() < 4 {
        return Err(refusal::NO_ROOM.into());
    }

    let header = Header {
        frames: 0,
        index: 0,
        system: system_at as u64,
        user: 0,
    };
    let mut filler = Filler::new(out);
    filler.put(&header.bytes());
    filler.put(&[setup.count as u8]);
    let mut offset = definitions_end as u64;
    for section in sections {
        filler.put_short_string(section.name);
        filler.put(&offset.to_le_bytes());
        offset += section.configuration.len() as u64;
    }
    for section in sections {
        filler.put(section.configuration);
    }
    filler.put(system);
    notes[..4].fill(0);

    let state = State {
        stage: Stage::Running,
        sections: setup.count as u64,
        frames: 0,
        first: 0,
        last: 0,
        end: end as u64,
    };
    let piece = Piece {
        place: 0,
        length: end as u64,
    };
    Ok((state, piece))
}

/// Hands out one frame and notes its index entry.
pub fn add(
    state: State,
    time: i64,
    exposure: u32,
    sections: &[u8],
    notes: &mut [u8],
    out: &mut [u8],
) -> Result<(State, Piece), Refusal> {
    if state.stage != Stage::Running || !state.is_within_limits() {
        return Err(refusal::STAGE.into());
    }
    if sections_length(sections, state.sections as usize) != Some(sections.len()) {
        return Err(refusal::FRAME_SHAPE.into());
    }
    let length = HEAD + sections.len();
    let end = state.end + length as u64;
    let frames = state.frames + 1;
    if frames > Header::MAX_FRAMES || !fits(end, frames) {
        return Err(refusal::FULL.into());
    }
    let mut clock = match state.frames {
        0 => Clock::new(),
        _ => Clock::at(state.first, state.last),
    };
    let elapsed = clock.take(time).ok_or(refusal::CLOCK)?;
    let noted = index_length(frames) as usize;
    if out.len() < length || notes.len() < noted {
        return Err(refusal::NO_ROOM.into());
    }

    let mut head = [0; HEAD];
    head[..TIME_AT].copy_from_slice(&MARK);
    head[TIME_AT..EXPOSURE_AT].copy_from_slice(&time.to_le_bytes());
    head[EXPOSURE_AT..].copy_from_slice(&exposure.to_le_bytes());
    out[..HEAD].copy_from_slice(&head);
    out[HEAD..length].copy_from_slice(sections);

    let entry = Entry {
        elapsed,
        place: state.end,
        length: length as u32,
    };
    notes[..4].copy_from_slice(&(frames as u32).to_le_bytes());
    notes[noted - Entry::LENGTH..noted].copy_from_slice(&entry.bytes());

    let piece = Piece {
        place: state.end,
        length: length as u64,
    };
    let state = State {
        frames,
        first: if frames == 1 { time } else { state.first },
        last: time,
        end,
        ..state
    };
    Ok((state, piece))
}

/// Hands out the next of the five closing pieces. The index offset comes last:
/// until all of it is written the file does not open.
pub fn close(state: State, notes: &[u8], out: &mut [u8]) -> Result<(State, Piece), Refusal> {
    let number = match state.stage {
        Stage::Running => 0,
        Stage::Closing(number) if number <= 4 => number,
        _ => return Err(refusal::STAGE.into()),
    };
    if !state.is_within_limits() {
        return Err(refusal::STAGE.into());
    }
    let index = state.end;
    let user = index + index_length(state.frames);
    let count = (state.frames as u32).to_le_bytes();
    let piece = match number {
        0 => {
            let noted = index_length(state.frames) as usize;
            let entries = notes.get(..noted).ok_or(refusal::NO_ROOM)?;
            hand_out(index, entries, out)?
        }
        1 => hand_out(user, &[0; 4], out)?,
        2 => hand_out(Header::FRAMES_AT as u64, &count, out)?,
        3 => hand_out(Header::USER_AT as u64, &user.to_le_bytes(), out)?,
        _ => hand_out(Header::INDEX_AT as u64, &index.to_le_bytes(), out)?,
    };
    let stage = match number {
        4 => Stage::Closed,
        _ => Stage::Closing(number + 1),
    };
    Ok((State { stage, ..state }, piece))
}

fn hand_out(place: u64, bytes: &[u8], out: &mut [u8]) -> Result<Piece, Refusal> {
    out.get_mut(..bytes.len())
        .ok_or(refusal::NO_ROOM)?
        .copy_from_slice(bytes);
    Ok(Piece {
        place,
        length: bytes.len() as u64,
    })
}

#[derive(Debug, Clone, Copy, PartialEq, Eq)]
struct Section<'a> {
    name: &'a [u8],
    configuration: &'a [u8],
}

/// A complete set-up list. Its count may be over the limit; then the sections
/// over it were read but are not held.
struct Setup<'a> {
    count: usize,
    sections: [Section<'a>; Header::MAX_SECTIONS],
}

impl<'a> Setup<'a> {
    /// `None` if the list runs out of bytes or has bytes left over.
    fn read(list: &'a [u8]) -> Option<Setup<'a>> {
        let nothing = Section {
            name: &[],
            configuration: &[],
        };
        let mut sections = [nothing; Header::MAX_SECTIONS];
        let mut cursor = Cursor::new(list, 0);
        let count = usize::from(cursor.byte()?);
        for number in 0..count {
            let name = cursor.short_string()?;
            let length = usize::from(cursor.u16()?);
            let configuration = cursor.take(length)?;
            if let Some(section) = sections.get_mut(number) {
                *section = Section {
                    name,
                    configuration,
                };
            }
        }
        if cursor.at_end() {
            Some(Setup { count, sections })
        } else {
            None
        }
    }

    /// Whether count and names obey the definitions rule.
    fn is_legal(&self) -> bool {
        if self.count == 0 || self.count > Header::MAX_SECTIONS {
            return false;
        }
        let sections = &self.sections[..self.count];
        sections.iter().enumerate().all(|(number, section)| {
            is_section_name(section.name)
                && sections[..number]
                    .iter()
                    .all(|other| other.name != section.name)
        })
    }
}
