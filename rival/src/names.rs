//! A set of names inside lent bytes, for telling equal names apart quickly.

/// Open addressing over the places of short strings. `SLOTS` is a power of two
/// and at least twice the number of names, so a search always meets an empty
/// slot. The names come from outside, but there are at most 1,000 of them, so
/// even names picked to collide cost little.
pub(crate) struct Names<const SLOTS: usize> {
    /// The place of a name's length byte; 0 is empty, for no name starts there.
    slots: [u32; SLOTS],
    mask: usize,
}

/// Room for a table's names.
pub(crate) type TableNames = Names<2048>;
/// Room for a sheet's names.
pub(crate) type SheetNames = Names<128>;

impl<const SLOTS: usize> Names<SLOTS> {
    pub fn new() -> Self {
        Names {
            slots: [0; SLOTS],
            mask: 0,
        }
    }

    /// Empties the set and makes it ready for `count` names.
    pub fn restart(&mut self, count: usize) {
        let used = (2 * count).next_power_of_two().min(SLOTS);
        self.slots[..used].fill(0);
        self.mask = used - 1;
    }

    /// Adds the short string at `place`; false if an equal one is there.
    #[inline]
    pub fn insert(&mut self, bytes: &[u8], place: usize) -> bool {
        let name = short_string(bytes, place);
        let mut slot = hash(name) & self.mask;
        while self.slots[slot] != 0 {
            if short_string(bytes, self.slots[slot] as usize) == name {
                return false;
            }
            slot = (slot + 1) & self.mask;
        }
        self.slots[slot] = place as u32;
        true
    }

    /// The place of the short string equal to `name`.
    #[inline]
    pub fn find(&self, bytes: &[u8], name: &[u8]) -> Option<usize> {
        let mut slot = hash(name) & self.mask;
        while self.slots[slot] != 0 {
            let place = self.slots[slot] as usize;
            if short_string(bytes, place) == name {
                return Some(place);
            }
            slot = (slot + 1) & self.mask;
        }
        None
    }
}

/// The string behind the length byte at a place known to hold one.
#[inline]
pub(crate) fn short_string(bytes: &[u8], place: usize) -> &[u8] {
    let length = usize::from(bytes[place]);
    &bytes[place + 1..place + 1 + length]
}

#[inline]
fn hash(name: &[u8]) -> usize {
    const FACTOR: u64 = 0x9E37_79B9_7F4A_7C15;
    let mix = |so_far: u64, word: u64| (so_far.rotate_left(23) ^ word).wrapping_mul(FACTOR);
    let mut words = name.chunks_exact(8);
    let mut so_far = name.len() as u64;
    for word in &mut words {
        so_far = mix(so_far, u64::from_le_bytes(crate::layout::array(word, 0)));
    }
    let rest = words.remainder();
    let last = rest
        .iter()
        .fold(0, |word, byte| word << 8 | u64::from(*byte));
    // The upper half is where a product is well mixed.
    (mix(so_far, last) >> 32) as usize
}
