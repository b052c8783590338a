//! What several tests need: the worked file, a recorder of whole files, and
//! seeded numbers.
#![allow(dead_code, unused_imports)]

use rival::*;

/// The calls, for tests that ask for the number of a refusal and not for
/// its place; those that take a sheet answer with both.
pub mod by_number {
    pub use super::commit_after_look as commit;
    pub use rival::{
        commit_of_old_sheet, convert, look, Frame, Item, Looked, Opened, Piece, Refusal, Repaired,
        Stage, State, Tag,
    };

    type Numbered<T> = Result<T, u64>;

    fn numbered<T>(answer: Result<T, rival::Refusal>) -> Numbered<T> {
        answer.map_err(|refusal| refusal.number)
    }

    pub fn open(file: &[u8]) -> Numbered<Opened> {
        numbered(rival::open(file))
    }

    pub fn frame(file: &[u8], i: u64) -> Numbered<Frame> {
        numbered(rival::frame(file, i))
    }

    pub fn part(file: &[u8], item: Item) -> Numbered<(u64, u64)> {
        numbered(rival::part(file, item))
    }

    pub fn begin(
        state: State,
        list: &[u8],
        system: &[u8],
        notes: &mut [u8],
        out: &mut [u8],
    ) -> Numbered<(State, Piece)> {
        numbered(rival::begin(state, list, system, notes, out))
    }

    pub fn add(
        state: State,
        time: i64,
        exposure: u32,
        sections: &[u8],
        notes: &mut [u8],
        out: &mut [u8],
    ) -> Numbered<(State, Piece)> {
        numbered(rival::add(state, time, exposure, sections, notes, out))
    }

    pub fn close(state: State, notes: &[u8], out: &mut [u8]) -> Numbered<(State, Piece)> {
        numbered(rival::close(state, notes, out))
    }

    pub fn repair(file: &[u8], out: &mut [u8]) -> Numbered<Repaired> {
        numbered(rival::repair(file, out))
    }

    pub fn tag_at(table: &[u8], number: u64) -> Numbered<Option<Tag>> {
        numbered(rival::tag_at(table, number))
    }

    pub fn tag_named(table: &[u8], name: &[u8]) -> Numbered<Option<Tag>> {
        numbered(rival::tag_named(table, name))
    }
}

/// Commits, and holds the answer against look's: what refuses the one refuses
/// the other, and commit is refused 11 exactly when look shows a conflict, at
/// the lowest.
pub fn commit_after_look(file: &[u8], sheet: &[u8], out: &mut [u8]) -> Result<u64, Refusal> {
    let looked = look(file, sheet);
    let committed = commit(file, sheet, out);
    match looked {
        Err(refusal) => assert_eq!(committed, Err(refusal)),
        Ok(Looked { conflicts: 0, .. }) => {
            let number = committed.map_or_else(|refusal| refusal.number, |_| 0);
            assert!([0, 17, 9].contains(&number), "{}", number);
        }
        Ok(Looked { conflicts, .. }) => assert_eq!(committed, Err(conflict_at(lowest(conflicts)))),
    }
    committed
}

pub fn conflict_at(place: u64) -> Refusal {
    Refusal { number: 11, place }
}

/// The lowest number of a set that is not empty.
pub fn lowest(set: u64) -> u64 {
    (0..64).find(|bit| set >> bit & 1 == 1).unwrap()
}

/// A sheet of changes, each with its name and both of its entries.
pub fn sheet(changes: &[(&[u8], &[u8], &[u8])]) -> Vec<u8> {
    let mut bytes = vec![u8::try_from(changes.len()).unwrap()];
    for (name, seen, new) in changes {
        bytes.extend(short(name));
        bytes.extend_from_slice(seen);
        bytes.extend_from_slice(new);
    }
    bytes
}

/// Document 01's whole file.
pub const WORKED: [u8; 98] = [
    0x46, 0x53, 0x54, 0x46, 0x01, 0x01, 0x00, 0x00, 0x00, 0x4A, 0x00, 0x00, 0x00, 0x00, 0x00, 0x00,
    0x00, 0x30, 0x00, 0x00, 0x00, 0x00, 0x00, 0x00, 0x00, 0x5E, 0x00, 0x00, 0x00, 0x00, 0x00, 0x00,
    0x00, 0x01, 0x05, 0x49, 0x4D, 0x41, 0x47, 0x45, 0x30, 0x00, 0x00, 0x00, 0x00, 0x00, 0x00, 0x00,
    0x00, 0x00, 0x00, 0x00, 0xFF, 0x22, 0x01, 0xEE, 0xE8, 0x03, 0x00, 0x00, 0x00, 0x00, 0x00, 0x00,
    0x28, 0x00, 0x00, 0x00, 0x02, 0x00, 0x00, 0x00, 0x34, 0x12, 0x01, 0x00, 0x00, 0x00, 0x00, 0x00,
    0x00, 0x00, 0x34, 0x00, 0x00, 0x00, 0x00, 0x00, 0x00, 0x00, 0x16, 0x00, 0x00, 0x00, 0x00, 0x00,
    0x00, 0x00,
];

/// The worked file's recording before closing.
pub fn unclosed() -> Vec<u8> {
    let mut file = WORKED[..74].to_vec();
    file[5..17].fill(0);
    file[25..33].fill(0);
    file
}

pub fn short(bytes: &[u8]) -> Vec<u8> {
    let mut all = vec![u8::try_from(bytes.len()).unwrap()];
    all.extend_from_slice(bytes);
    all
}

pub fn setup(sections: &[(&[u8], &[u8])]) -> Vec<u8> {
    let mut list = vec![u8::try_from(sections.len()).unwrap()];
    for (name, configuration) in sections {
        list.extend(short(name));
        list.extend((configuration.len() as u16).to_le_bytes());
        list.extend_from_slice(configuration);
    }
    list
}

pub fn table(tags: &[(&[u8], &[u8])]) -> Vec<u8> {
    let mut bytes = (tags.len() as u32).to_le_bytes().to_vec();
    for (name, value) in tags {
        bytes.extend(short(name));
        bytes.extend(short(value));
    }
    bytes
}

pub fn sections(all: &[&[u8]]) -> Vec<u8> {
    let mut bytes = Vec::new();
    for one in all {
        bytes.extend((one.len() as u32).to_le_bytes());
        bytes.extend_from_slice(one);
    }
    bytes
}

/// Writes a piece where it belongs, as the caller of a recorder does.
pub fn put(file: &mut Vec<u8>, piece: Piece, out: &[u8]) {
    let (place, length) = (piece.place as usize, piece.length as usize);
    if file.len() < place + length {
        file.resize(place + length, 0);
    }
    file[place..place + length].copy_from_slice(&out[..length]);
}

pub struct Recording {
    pub state: State,
    pub notes: Vec<u8>,
    pub out: Vec<u8>,
    pub file: Vec<u8>,
}

impl Recording {
    pub fn begin(setup: &[u8], system: &[u8]) -> Recording {
        let mut notes = vec![0xAA; 4 + 16 * 64];
        let mut out = vec![0xBB; 1 << 20];
        let (state, piece) = begin(State::new(), setup, system, &mut notes, &mut out).unwrap();
        let mut file = Vec::new();
        put(&mut file, piece, &out);
        Recording {
            state,
            notes,
            out,
            file,
        }
    }

    pub fn add(&mut self, time: i64, exposure: u32, sections: &[u8]) -> Result<Piece, u64> {
        let (state, piece) = by_number::add(
            self.state,
            time,
            exposure,
            sections,
            &mut self.notes,
            &mut self.out,
        )?;
        self.state = state;
        put(&mut self.file, piece, &self.out);
        Ok(piece)
    }

    pub fn close(mut self) -> Vec<u8> {
        while self.state.stage != Stage::Closed {
            let (state, piece) = close(self.state, &self.notes, &mut self.out).unwrap();
            self.state = state;
            put(&mut self.file, piece, &self.out);
        }
        self.file
    }
}

/// Two sections with configurations, two system tags, three frames.
pub fn rich() -> Vec<u8> {
    let mut recording = Recording::begin(
        &setup(&[(b"IMAGE", b"abc"), (b"STATUS", b"defgh")]),
        &table(&[(b"RECORDER", b"X"), (b"EMPTY", b"")]),
    );
    recording.add(-5, 1, &sections(&[b"pix", b"s"])).unwrap();
    recording.add(-5, 2, &sections(&[b"", b"st"])).unwrap();
    recording.add(7, 3, &sections(&[b"elsx", b""])).unwrap();
    recording.close()
}

pub fn with(file: &[u8], at: usize, bytes: &[u8]) -> Vec<u8> {
    let mut file = file.to_vec();
    file[at..at + bytes.len()].copy_from_slice(bytes);
    file
}

pub fn with_table(file: &[u8], user: &[u8]) -> Vec<u8> {
    let at = open(file).unwrap().user as usize;
    [&file[..at], user].concat()
}

/// The repaired file, put together as document 01 says.
pub fn repaired(file: &[u8], answer: Repaired, out: &[u8]) -> Vec<u8> {
    let mut whole = file[..answer.kept as usize].to_vec();
    whole[5..9].copy_from_slice(&(answer.count as u32).to_le_bytes());
    whole[9..17].copy_from_slice(&answer.index.to_le_bytes());
    whole[25..33].copy_from_slice(&answer.user.to_le_bytes());
    whole.extend_from_slice(&out[..answer.tail as usize]);
    whole
}

/// Seeded numbers (xorshift), so that every run tests the same inputs.
pub struct Seeded(pub u64);

impl Seeded {
    pub fn next(&mut self) -> u64 {
        self.0 ^= self.0 << 13;
        self.0 ^= self.0 >> 7;
        self.0 ^= self.0 << 17;
        self.0.wrapping_mul(0x2545_F491_4F6C_DD1D)
    }

    pub fn below(&mut self, bound: u64) -> u64 {
        (self.next() >> 11) % bound
    }
}
