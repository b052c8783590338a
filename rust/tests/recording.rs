//! Recording through the safe face: storage that fails, refusals in between, cuts after every byte.

mod common;

use std::io::{self, Cursor, Seek, SeekFrom, Write};

use common::{recorded, WHOLE};
use suljanko::{repair, Error, FileRecorder, Reason, Recorder, Recording, Stage};

/// The bytes of a file that pieces are stored in.
fn store(file: &mut Vec<u8>, place: u64, bytes: &[u8]) {
    let place = place as usize;
    if file.len() < place + bytes.len() {
        file.resize(place + bytes.len(), 0);
    }
    file[place..place + bytes.len()].copy_from_slice(bytes);
}

#[test]
fn a_refused_call_changes_nothing() {
    let mut file = Vec::new();
    let mut recorder = Recorder::new();
    assert!(recorder.close().is_err());
    assert!(recorder.begin(&[("", b"")], &[]).is_err());
    let piece = recorder.begin(&[("IMAGE", b"")], &[]).unwrap();
    store(&mut file, piece.place, piece.bytes);
    assert!(recorder.add(1000, 40, &[]).is_err());
    let piece = recorder.add(1000, 40, &[&[0x34, 0x12]]).unwrap();
    store(&mut file, piece.place, piece.bytes);
    let before = recorder.state();
    assert!(recorder.add(999, 40, &[&[1, 2, 3]]).is_err());
    assert!(recorder.begin(&[("IMAGE", b"")], &[]).is_err());
    assert_eq!(recorder.state(), before);
    while recorder.stage() != Stage::Closed {
        let piece = recorder.close().unwrap();
        store(&mut file, piece.place, piece.bytes);
        assert!(recorder.add(1000, 40, &[b""]).is_err());
    }
    assert_eq!(file, WHOLE);
}

/// Storage that takes so many bytes and then fails, until it is given more.
struct Card {
    stored: Cursor<Vec<u8>>,
    room: usize,
}

impl Write for Card {
    fn write(&mut self, bytes: &[u8]) -> io::Result<usize> {
        let taken = bytes.len().min(self.room);
        if taken == 0 && !bytes.is_empty() {
            return Err(io::Error::from(io::ErrorKind::WriteZero));
        }
        self.room -= taken;
        self.stored.write(&bytes[..taken])
    }

    fn flush(&mut self) -> io::Result<()> {
        Ok(())
    }
}

impl Seek for Card {
    fn seek(&mut self, to: SeekFrom) -> io::Result<u64> {
        self.stored.seek(to)
    }
}

const SECTIONS: &[(&str, &[u8])] = &[("IMAGE", b"raw"), ("STATUS", b"")];
const SYSTEM: &[(&str, &str)] = &[("CAMERA", "one")];

fn frames() -> Vec<(i64, u32, Vec<&'static [u8]>)> {
    vec![(0, 1, vec![b"first", b"a"]), (40, 1, vec![b"second", b""]), (40, 2, vec![b"", b"third"])]
}

fn record(card: Card) -> Result<FileRecorder<Card>, Box<FileRecorder<Card>>> {
    let mut recorder = FileRecorder::begin(card, SECTIONS, SYSTEM).unwrap();
    for (time, exposure, sections) in frames() {
        if recorder.add(time, exposure, &sections).is_err() {
            return Err(Box::new(recorder));
        }
    }
    match recorder.close() {
        Ok(()) => Ok(recorder),
        Err(_) => Err(Box::new(recorder)),
    }
}

#[test]
fn a_card_that_fills_up_is_repaired_to_its_whole_frames() {
    let whole = recorded(SECTIONS, SYSTEM, &frames());
    let front = recorded(SECTIONS, SYSTEM, &[]).len() - 8;
    // what closing writes again are the three header fields, 4 + 8 + 8 bytes
    for room in front..whole.len() + 20 {
        let card = Card { stored: Cursor::new(Vec::new()), room };
        let stopped = record(card).err().expect("the card is too small");
        let cut = stopped.into_storage().stored.into_inner();
        let opened = Recording::open(&cut);
        match opened {
            Ok(_) => assert_eq!(cut, whole, "only the whole recording opens"),
            Err(_) => {
                let repaired = repair(&cut).unwrap();
                let kept = &frames()[..repaired.frame_count()];
                assert_eq!(repaired.to_vec(), recorded(SECTIONS, SYSTEM, kept), "{room} bytes");
            }
        }
    }
    let card = Card { stored: Cursor::new(Vec::new()), room: whole.len() + 20 };
    let done = record(card).ok().expect("the card is large enough");
    assert_eq!(done.into_storage().stored.into_inner(), whole);
}

#[test]
fn a_call_whose_storing_failed_can_be_made_again() {
    let mut file = FileRecorder::begin(Flaky::default(), &[("IMAGE", b"")], &[]).unwrap();
    let mut failed = 0;
    while file.add(1000, 40, &[&[0x34, 0x12]]).is_err() {
        assert_eq!((file.recorder().frame_count(), file.recorder().stage()), (0, Stage::Running));
        failed += 1;
    }
    while let Err(error) = file.close() {
        assert!(matches!(error, Error::Storage(_)));
        failed += 1;
    }
    assert!(failed > 5, "{failed}");
    assert_eq!(file.close().unwrap_err().refusal().unwrap().reason(), Reason::Stage);
    assert_eq!(file.into_storage().stored.into_inner(), WHOLE);
}

/// Storage where every second write stores half of its bytes and then fails.
#[derive(Default)]
struct Flaky {
    stored: Cursor<Vec<u8>>,
    writes: usize,
}

impl Write for Flaky {
    fn write(&mut self, bytes: &[u8]) -> io::Result<usize> {
        self.writes += 1;
        if self.writes % 2 == 0 {
            self.stored.write_all(&bytes[..bytes.len() / 2])?;
            return Err(io::Error::from(io::ErrorKind::Other));
        }
        self.stored.write(bytes)
    }

    fn flush(&mut self) -> io::Result<()> {
        Ok(())
    }
}

impl Seek for Flaky {
    fn seek(&mut self, to: SeekFrom) -> io::Result<u64> {
        self.stored.seek(to)
    }
}

#[test]
fn the_smallest_frames_are_repaired() {
    // 20 bytes each, and 16 of index
    let frames: Vec<(i64, u32, Vec<&[u8]>)> = (0..1000).map(|time| (time, 0, vec![&b""[..]])).collect();
    let whole = recorded(&[("A", b"")], &[], &frames);
    let cut = &whole[..whole.len() - 4 - (4 + 16 * 1000)];
    let repaired = repair(cut).unwrap();
    assert_eq!((repaired.frame_count(), repaired.kept()), (1000, cut.len()));
    assert_eq!(repaired.to_vec(), whole);
}

#[test]
fn no_frames_are_a_recording() {
    let file = recorded(&[("IMAGE", b"")], &[], &[]);
    let recording = Recording::open(&file).unwrap();
    assert_eq!((recording.frame_count(), recording.frames().len()), (0, 0));
}

#[test]
fn frames_of_growing_and_shrinking_sizes() {
    let bytes: Vec<u8> = (0..5000).map(|k| (k * 7) as u8).collect();
    let frames: Vec<(i64, u32, Vec<&[u8]>)> =
        (0..200).map(|k| (k as i64, 0, vec![&bytes[..(k * 977) % 5000], &bytes[..k % 3]])).collect();
    let file = recorded(&[("A", b""), ("B", b"")], &[], &frames);
    let recording = Recording::open(&file).unwrap();
    assert_eq!(recording.frame_count(), 200);
    for (frame, (time, _, sections)) in recording.frames().zip(&frames) {
        assert_eq!(frame.time(), *time);
        assert!(frame.sections().eq(sections.iter().copied()));
    }
}
