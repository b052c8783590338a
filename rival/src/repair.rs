//! Repair: the whole frames of a recording that was never closed.

use crate::layout::{fits, index_length, Entry, Header};
use crate::names::TableNames;
use crate::opening::{front, rest};
use crate::refusal::{self, Refusal};
use crate::walk::{frame_length, time_of, Clock};

/// The repaired file is the first `kept` bytes with the three header fields
/// set, then the tail.
#[derive(Debug, Clone, Copy, PartialEq, Eq)]
pub struct Repaired {
    pub kept: u64,
    pub count: u64,
    pub index: u64,
    pub user: u64,
    /// The tail's length at the start of the output.
    pub tail: u64,
}

pub fn repair(file: &[u8], out: &mut [u8]) -> Result<Repaired, Refusal> {
    let mut names = TableNames::new();
    let front = front(file, &mut names)?;
    if rest(file, &front, &mut names).is_ok() {
        return Err(refusal::WHOLE.into());
    }
    let sections = front.definitions.count;

    // The walk only measures: a refusal must leave the output as it was.
    let mut lengths: Vec<u32> = Vec::new();
    let mut kept = front.start;
    let mut clock = Clock::new();
    while (lengths.len() as u64) < Header::MAX_FRAMES {
        let left = &file[kept..];
        match frame_length(left, sections) {
            Some(length) => {
                // A broken time is a refusal whatever frames follow.
                clock.take(time_of(left)).ok_or(refusal::CLOCK)?;
                kept += length;
                lengths.push(length as u32);
            }
            None => break,
        }
    }
    let count = lengths.len() as u64;
    if !fits(kept as u64, count) {
        return Err(refusal::FULL.into());
    }
    let user = kept as u64 + index_length(count);
    let tail = index_length(count) + 4;
    if (out.len() as u64) < tail {
        return Err(refusal::NO_ROOM.into());
    }

    let (index, behind) = out.split_at_mut(index_length(count) as usize);
    index[..4].copy_from_slice(&(count as u32).to_le_bytes());
    let first = match count {
        0 => 0,
        _ => time_of(&file[front.start..]),
    };
    let mut place = front.start;
    for (entry, &length) in index[4..].chunks_exact_mut(Entry::LENGTH).zip(&lengths) {
        let bytes = Entry {
            // It fits, for the clock has taken this time.
            elapsed: time_of(&file[place..]).wrapping_sub(first) as u32,
            place: place as u64,
            length,
        };
        entry.copy_from_slice(&bytes.bytes());
        place += length as usize;
    }
    behind[..4].fill(0);

    Ok(Repaired {
        kept: kept as u64,
        count,
        index: kept as u64,
        user,
        tail,
    })
}
