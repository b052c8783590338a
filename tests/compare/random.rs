//! Pseudo-random numbers (splitmix64): one seed gives the same inputs everywhere.

pub struct Random(u64);

impl Random {
    /// The numbers of one case, so that a case can be run again without those before it.
    pub fn new(seed: u64, group: u64, case: u64) -> Random {
        let mut random = Random(seed);
        random.0 = random.next() ^ group;
        random.0 = random.next() ^ case;
        random
    }

    pub fn next(&mut self) -> u64 {
        self.0 = self.0.wrapping_add(0x9E37_79B9_7F4A_7C15);
        let mut mixed = self.0;
        mixed = (mixed ^ (mixed >> 30)).wrapping_mul(0xBF58_476D_1CE4_E5B9);
        mixed = (mixed ^ (mixed >> 27)).wrapping_mul(0x94D0_49BB_1331_11EB);
        mixed ^ (mixed >> 31)
    }

    /// A number below `bound`, which is not 0.
    pub fn below(&mut self, bound: u64) -> u64 {
        self.next() % bound
    }

    pub fn size(&mut self, most: usize) -> usize {
        self.below(most as u64 + 1) as usize
    }

    pub fn one_in(&mut self, many: u64) -> bool {
        self.below(many) == 0
    }

    pub fn pick<T: Copy>(&mut self, among: &[T]) -> T {
        among[self.below(among.len() as u64) as usize]
    }

    pub fn fill(&mut self, bytes: &mut [u8]) {
        for eight in bytes.chunks_mut(8) {
            let drawn = self.next().to_le_bytes();
            eight.copy_from_slice(&drawn[..eight.len()]);
        }
    }

    pub fn bytes(&mut self, length: usize) -> Vec<u8> {
        let mut bytes = vec![0; length];
        self.fill(&mut bytes);
        bytes
    }

    /// A number near `about`, or at an end of the numbers.
    pub fn near(&mut self, about: u64) -> u64 {
        match self.below(8) {
            0 => about,
            1 => about.wrapping_add(1),
            2 => about.wrapping_sub(1),
            3 => u64::MAX,
            4 => self.next(),
            _ => self.below(about.saturating_add(1).max(1)),
        }
    }

    /// A length of a lent output around its answer's.
    pub fn room(&mut self, answer: usize) -> usize {
        match self.below(10) {
            0 => 0,
            1 | 2 => answer.saturating_sub(1),
            3 | 4 => answer + 1,
            5 => self.size(2 * answer + 16),
            6 => answer + self.size(40),
            _ => answer,
        }
    }
}
