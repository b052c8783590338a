//! Frames one behind the other. Sizes lead the walk; it never searches for
//! the mark and touches no section byte.

use crate::layout::{array, elapsed};

pub(crate) const MARK: [u8; 4] = [0xFF, 0x22, 0x01, 0xEE];
pub(crate) const TIME_AT: usize = 4;
pub(crate) const EXPOSURE_AT: usize = 12;
/// The frame's bytes ahead of its sections.
pub(crate) const HEAD: usize = 16;
pub(crate) const MAX_SECTION: u32 = 16_777_216;

/// The length of the sections at the start of `bytes`: for each a size and
/// that many bytes. `None` if they are not all there or a size is too large.
#[inline]
pub(crate) fn sections_length(bytes: &[u8], sections: usize) -> Option<usize> {
    let mut at = 0;
    for _ in 0..sections {
        let size = u32::from_le_bytes(bytes.get(at..at + 4)?.try_into().ok()?);
        if size > MAX_SECTION {
            return None;
        }
        at += 4 + size as usize;
        if at > bytes.len() {
            return None;
        }
    }
    Some(at)
}

/// The length of the whole frame at the start of `bytes`, if one stands there.
#[inline]
pub(crate) fn frame_length(bytes: &[u8], sections: usize) -> Option<usize> {
    if bytes.len() < HEAD || bytes[..4] != MARK {
        return None;
    }
    sections_length(&bytes[HEAD..], sections).map(|length| HEAD + length)
}

#[inline]
pub(crate) fn time_of(frame: &[u8]) -> i64 {
    i64::from_le_bytes(array(frame, TIME_AT))
}

/// The first and the last time of frames taken so far, in order.
#[derive(Debug, Clone, Copy, PartialEq, Eq)]
pub(crate) struct Clock {
    times: Option<(i64, i64)>,
}

impl Clock {
    pub fn new() -> Clock {
        Clock { times: None }
    }

    /// With frames taken already.
    pub fn at(first: i64, last: i64) -> Clock {
        Clock {
            times: Some((first, last)),
        }
    }

    /// Takes the next frame's time and hands back the time since the first
    /// frame; `None`, with nothing taken, if the time breaks the rule.
    #[inline]
    pub fn take(&mut self, time: i64) -> Option<u32> {
        let (first, last) = self.times.unwrap_or((time, time));
        if time < last {
            return None;
        }
        let since = elapsed(first, time)?;
        self.times = Some((first, time));
        Some(since)
    }
}
