//! The file of document 01, recordings of any shape made by the recorder, and directories to put them in.
#![allow(dead_code)]

use std::fs;
use std::io::Cursor;
use std::path::PathBuf;

use suljanko::{FileRecorder, Recorder, Sheet};

/// "A whole file, 98 bytes", as document 01 prints it.
pub const WHOLE: [u8; 98] = [
    0x46, 0x53, 0x54, 0x46, 0x01, 0x01, 0x00, 0x00, 0x00, 0x4A, 0x00, 0x00, 0x00, 0x00, 0x00, 0x00,
    0x00, // signature to index offset
    0x30, 0x00, 0x00, 0x00, 0x00, 0x00, 0x00, 0x00, 0x5E, 0x00, 0x00, 0x00, 0x00, 0x00, 0x00,
    0x00, // table offsets
    0x01, 0x05, 0x49, 0x4D, 0x41, 0x47, 0x45, 0x30, 0x00, 0x00, 0x00, 0x00, 0x00, 0x00, 0x00, // definitions
    0x00, 0x00, 0x00, 0x00, // system table
    0xFF, 0x22, 0x01, 0xEE, 0xE8, 0x03, 0x00, 0x00, 0x00, 0x00, 0x00, 0x00, 0x28, 0x00, 0x00, 0x00, 0x02, 0x00, 0x00,
    0x00, 0x34, 0x12, // frame
    0x01, 0x00, 0x00, 0x00, 0x00, 0x00, 0x00, 0x00, 0x34, 0x00, 0x00, 0x00, 0x00, 0x00, 0x00, 0x00, 0x16, 0x00, 0x00,
    0x00, // index
    0x00, 0x00, 0x00, 0x00, // user table
];

/// "Of the same recording before closing": count, index offset and user offset are zero, and nothing stands behind the frame.
pub fn before_closing() -> Vec<u8> {
    let mut file = WHOLE[..74].to_vec();
    file[5..17].fill(0);
    file[25..33].fill(0);
    file
}

/// The whole file with one byte set.
pub fn with(place: usize, byte: u8) -> Vec<u8> {
    let mut file = WHOLE.to_vec();
    file[place] = byte;
    file
}

/// A recorder that has begun with one section IMAGE.
pub fn running() -> Recorder {
    let mut recorder = Recorder::new();
    recorder.begin(&[("IMAGE", b"")], &[]).unwrap();
    recorder
}

/// A closed recording with these sections, system tags and frames (time, exposure, sections).
pub fn recorded(sections: &[(&str, &[u8])], system: &[(&str, &str)], frames: &[(i64, u32, Vec<&[u8]>)]) -> Vec<u8> {
    let mut recorder = FileRecorder::begin(Cursor::new(Vec::new()), sections, system).unwrap();
    for (time, exposure, bytes) in frames {
        recorder.add(*time, *exposure, bytes).unwrap();
    }
    recorder.close().unwrap();
    recorder.into_storage().into_inner()
}

/// The whole file with so many user tags, T0 = V0 and so on, committed 64 at a time.
pub fn tagged(tags: usize) -> Vec<u8> {
    let mut file = WHOLE.to_vec();
    for start in (0..tags).step_by(64) {
        let mut sheet = Sheet::new();
        for number in start..tags.min(start + 64) {
            sheet.change(&format!("T{number}")).seen(None).set(&format!("V{number}"));
        }
        file = suljanko::commit(&file, &sheet).unwrap().to_vec();
    }
    file
}

/// A directory of its own for a test, which goes when the test is done.
pub struct Place(pub PathBuf);

impl Place {
    pub fn new(name: &str) -> Place {
        let path = std::env::temp_dir().join(format!("suljanko-{}-{name}", std::process::id()));
        fs::create_dir_all(&path).unwrap();
        Place(path)
    }

    pub fn file(&self, name: &str, bytes: &[u8]) -> PathBuf {
        let path = self.0.join(name);
        fs::write(&path, bytes).unwrap();
        path
    }

    /// The names of what is in it, in order.
    pub fn names(&self) -> Vec<String> {
        let mut names: Vec<_> =
            fs::read_dir(&self.0).unwrap().map(|entry| entry.unwrap().file_name().into_string().unwrap()).collect();
        names.sort();
        names
    }
}

impl Drop for Place {
    fn drop(&mut self) {
        let _ = fs::remove_dir_all(&self.0);
    }
}
