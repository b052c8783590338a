//! The layout: fixed places, limits, numbers, and the rules that more than
//! one job asks about.

use crate::refusal::{self, Refusal};

/// The header's changing fields, with the file's fixed places and limits.
#[derive(Debug, Clone, Copy, PartialEq, Eq)]
pub(crate) struct Header {
    pub frames: u32,
    pub index: u64,
    pub system: u64,
    pub user: u64,
}

impl Header {
    pub const MAGIC: [u8; 4] = *b"FSTF";
    pub const REVISION: u8 = 1;

    pub const REVISION_AT: usize = 4;
    pub const FRAMES_AT: usize = 5;
    pub const INDEX_AT: usize = 9;
    pub const SYSTEM_AT: usize = 17;
    pub const USER_AT: usize = 25;
    pub const LENGTH: usize = 33;

    pub const MAX_SECTIONS: usize = 8;
    pub const MAX_CONFIGURATION: u64 = 65_535;
    pub const MAX_FRAMES: u64 = 1_000_000;
    pub const MAX_TAGS: usize = 1_000;
    /// The largest user table: a count and 1,000 tags of two full strings.
    pub const MAX_TABLE: u64 = 512_004;
    pub const MAX_FILE: u64 = 1 << 40;
    pub const MAX_USER: u64 = Self::MAX_FILE - Self::MAX_TABLE;

    /// Refused 1 or 2. The section count's byte is there if this is accepted.
    pub fn read(file: &[u8]) -> Result<Header, Refusal> {
        if file.len() <= Self::LENGTH || file[..4] != Self::MAGIC {
            return Err(refusal::NOT_FSTF.into());
        }
        if file[Self::REVISION_AT] != Self::REVISION {
            return Err(refusal::REVISION.into());
        }
        Ok(Header {
            frames: u32::from_le_bytes(array(file, Self::FRAMES_AT)),
            index: u64::from_le_bytes(array(file, Self::INDEX_AT)),
            system: u64::from_le_bytes(array(file, Self::SYSTEM_AT)),
            user: u64::from_le_bytes(array(file, Self::USER_AT)),
        })
    }

    pub fn bytes(&self) -> [u8; Self::LENGTH] {
        let mut bytes = [0; Self::LENGTH];
        bytes[..4].copy_from_slice(&Self::MAGIC);
        bytes[Self::REVISION_AT] = Self::REVISION;
        bytes[Self::FRAMES_AT..Self::INDEX_AT].copy_from_slice(&self.frames.to_le_bytes());
        bytes[Self::INDEX_AT..Self::SYSTEM_AT].copy_from_slice(&self.index.to_le_bytes());
        bytes[Self::SYSTEM_AT..Self::USER_AT].copy_from_slice(&self.system.to_le_bytes());
        bytes[Self::USER_AT..Self::LENGTH].copy_from_slice(&self.user.to_le_bytes());
        bytes
    }
}

/// One index entry: 16 bytes.
#[derive(Debug, Clone, Copy, PartialEq, Eq)]
pub(crate) struct Entry {
    pub elapsed: u32,
    pub place: u64,
    pub length: u32,
}

impl Entry {
    pub const LENGTH: usize = 16;

    pub fn read(bytes: &[u8]) -> Entry {
        Entry {
            elapsed: u32::from_le_bytes(array(bytes, 0)),
            place: u64::from_le_bytes(array(bytes, 4)),
            length: u32::from_le_bytes(array(bytes, 12)),
        }
    }

    pub fn bytes(&self) -> [u8; Self::LENGTH] {
        let mut bytes = [0; Self::LENGTH];
        bytes[..4].copy_from_slice(&self.elapsed.to_le_bytes());
        bytes[4..12].copy_from_slice(&self.place.to_le_bytes());
        bytes[12..].copy_from_slice(&self.length.to_le_bytes());
        bytes
    }
}

/// The index's length. Callers have bounded `frames` by its limit.
pub(crate) fn index_length(frames: u64) -> u64 {
    4 + 16 * frames
}

/// Whether a recording whose frames end at `end` still has room for its index
/// and the largest user table below 2^40.
pub(crate) fn fits(end: u64, frames: u64) -> bool {
    end.saturating_add(index_length(frames)) <= Header::MAX_USER
}

/// The time since the first frame, if the time rule allows it. The difference
/// of two Int64 may not fit an Int64, but it always fits a UInt64.
pub(crate) fn elapsed(first: i64, time: i64) -> Option<u32> {
    if time < first {
        return None;
    }
    u32::try_from(time.wrapping_sub(first) as u64).ok()
}

/// The bytes a section name may have: digits, capitals and small letters.
#[inline]
pub(crate) fn is_name_byte(byte: u8) -> bool {
    matches!(byte, 48..=57 | 65..=90 | 97..=122)
}

/// A section name has 1 to 255 bytes.
pub(crate) fn is_section_name(name: &[u8]) -> bool {
    !name.is_empty() && name.iter().all(|&byte| is_name_byte(byte))
}

/// The bytes a tag's name or value may have.
#[inline]
pub(crate) fn is_text_byte(byte: u8) -> bool {
    matches!(byte, 32..=126)
}

/// It looks at every byte, so that long strings are tested many bytes at a
/// time.
pub(crate) fn is_text(bytes: &[u8]) -> bool {
    bytes
        .iter()
        .fold(true, |so_far, &byte| so_far & is_text_byte(byte))
}

/// Whether a configuration may run from one offset to the other.
pub(crate) fn is_step(from: u64, to: u64) -> bool {
    to >= from && to - from <= Header::MAX_CONFIGURATION
}

/// The `N` bytes at a place known to be inside.
#[inline]
pub(crate) fn array<const N: usize>(bytes: &[u8], at: usize) -> [u8; N] {
    let mut answer = [0; N];
    answer.copy_from_slice(&bytes[at..at + N]);
    answer
}

/// Reads bytes from front to back; `None` where they run out.
pub(crate) struct Cursor<'a> {
    bytes: &'a [u8],
    at: usize,
}

impl<'a> Cursor<'a> {
    pub fn new(bytes: &'a [u8], at: usize) -> Cursor<'a> {
        Cursor { bytes, at }
    }

    pub fn at(&self) -> usize {
        self.at
    }

    pub fn at_end(&self) -> bool {
        self.at == self.bytes.len()
    }

    #[inline]
    pub fn take(&mut self, length: usize) -> Option<&'a [u8]> {
        let taken = self.bytes.get(self.at..)?.get(..length)?;
        self.at += length;
        Some(taken)
    }

    #[inline]
    pub fn byte(&mut self) -> Option<u8> {
        let byte = *self.bytes.get(self.at)?;
        self.at += 1;
        Some(byte)
    }

    pub fn u16(&mut self) -> Option<u16> {
        self.take(2).map(|b| u16::from_le_bytes(array(b, 0)))
    }

    #[inline]
    pub fn u32(&mut self) -> Option<u32> {
        self.take(4).map(|b| u32::from_le_bytes(array(b, 0)))
    }

    pub fn u64(&mut self) -> Option<u64> {
        self.take(8).map(|b| u64::from_le_bytes(array(b, 0)))
    }

    /// One length byte and that many bytes; hands back the latter.
    #[inline]
    pub fn short_string(&mut self) -> Option<&'a [u8]> {
        let length = self.byte()?;
        self.take(usize::from(length))
    }
}

/// Fills an output known to be long enough, from front to back.
pub(crate) struct Filler<'a> {
    out: &'a mut [u8],
    at: usize,
}

impl<'a> Filler<'a> {
    pub fn new(out: &'a mut [u8]) -> Filler<'a> {
        Filler { out, at: 0 }
    }

    pub fn put(&mut self, bytes: &[u8]) {
        self.out[self.at..self.at + bytes.len()].copy_from_slice(bytes);
        self.at += bytes.len();
    }

    /// Callers have bounded the string: every string comes out of a short one.
    pub fn put_short_string(&mut self, bytes: &[u8]) {
        self.put(&[bytes.len() as u8]);
        self.put(bytes);
    }
}
