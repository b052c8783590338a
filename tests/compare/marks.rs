//! The marks by which the library tells names apart, as crates/marks/specs/Marks.antt defines them: for names that are chosen against them.

use crate::build::number;

pub const FACTOR: u64 = 11_400_715;
pub const MARKS: u64 = 1 << 40;

pub fn mix(mark: u64, word: u64) -> u64 {
    (mark * FACTOR + word) % MARKS
}

pub fn mark(name: &[u8]) -> u64 {
    let length = name.len();
    let mixed = if length < 4 {
        name.iter().fold(0, |so_far, byte| mix(so_far, u64::from(*byte)))
    } else {
        let words = name.chunks_exact(4).fold(0, |so_far, word| mix(so_far, number(word, 0, 4)));
        mix(words, number(name, length - 4, 4))
    };
    mix(mix(mixed, length as u64 % 256), 0)
}

/// Which of the 512 words of the marks a mark stands in.
pub fn place(mark: u64) -> usize {
    (mark >> 31) as usize
}

/// Its three bits there.
pub fn bits(mark: u64) -> u64 {
    1 << (mark >> 25 & 63) | 1 << (mark >> 19 & 63) | 1 << (mark >> 13 & 63)
}
