//! What a refused call answers: a number of document 01, and a place with some.

/// Why a call was refused.
#[derive(Debug, Clone, Copy, PartialEq, Eq)]
pub struct Refusal {
    pub number: u64,
    /// With 3, 4, 7 and 10 where the first fault stands in the lent bytes; with
    /// 11 the lowest change of the sheet that conflicts; 0 with all others.
    pub place: u64,
}

impl Refusal {
    pub(crate) fn at(number: u64, place: usize) -> Refusal {
        Refusal {
            number,
            place: place as u64,
        }
    }
}

/// A number that carries no place.
impl From<u64> for Refusal {
    fn from(number: u64) -> Refusal {
        Refusal { number, place: 0 }
    }
}

pub const NOT_FSTF: u64 = 1;
pub const REVISION: u64 = 2;
pub const SECTIONS: u64 = 3;
pub const SYSTEM_TABLE: u64 = 4;
pub const NOT_CLOSED: u64 = 5;
pub const INDEX: u64 = 6;
pub const USER_TABLE: u64 = 7;
pub const NO_SUCH_ITEM: u64 = 8;
pub const NO_ROOM: u64 = 9;
pub const SHEET: u64 = 10;
pub const CONFLICT: u64 = 11;
pub const STAGE: u64 = 12;
pub const CLOCK: u64 = 13;
pub const FRAME_SHAPE: u64 = 14;
pub const FULL: u64 = 15;
pub const WHOLE: u64 = 16;
pub const TABLE_FULL: u64 = 17;
