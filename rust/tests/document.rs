//! Document 01's own file and marked examples, through the safe face.

mod common;

use std::io::Cursor;

use common::{before_closing, running, with, WHOLE};
use suljanko::{commit, repair, FileRecorder, Reason, Recorder, Recording, Refusal, Sheet, Stage, CLOSING_PIECES};

fn refused(file: &[u8]) -> Reason {
    Recording::open(file).unwrap_err().reason()
}

#[test]
fn p1_the_file_opens() {
    let recording = Recording::open(&WHOLE).unwrap();
    assert_eq!((recording.frame_count(), recording.section_count()), (1, 1));
    let frame = recording.frame(0).unwrap();
    assert_eq!((frame.number(), frame.place(), frame.length()), (0, 52, 22));
    assert_eq!((frame.time(), frame.exposure()), (1000, 40));
    assert_eq!(frame.section(0).unwrap(), [0x34, 0x12]);
    assert_eq!(recording.section_name(0), Ok("IMAGE"));
    assert_eq!(recording.configuration(0), Ok(&[][..]));
    assert_eq!((recording.system_tags().len(), recording.user_tags().len()), (0, 0));
    assert_eq!((recording.system_table(), recording.user_table()), (&[0; 4][..], &[0; 4][..]));
    assert_eq!(recording.user_place(), 94);
    assert_eq!(recording.file(), WHOLE);
}

#[test]
fn p2_to_p7_damaged_files() {
    assert_eq!(refused(&WHOLE[..97]), Reason::UserTable);
    assert_eq!(refused(&with(4, 2)), Reason::Revision);
    assert_eq!(refused(&with(9, 0)), Reason::NotClosed);
    assert_eq!(refused(&with(9, 75)), Reason::Index);
    assert_eq!(refused(&with(5, 2)), Reason::Index);
    assert_eq!(refused(&WHOLE[..33]), Reason::NotFstf);
}

#[test]
fn p8_a_torn_frame_is_left_out() {
    let cut = &before_closing()[..73];
    assert_eq!(refused(cut), Reason::NotClosed);
    let repaired = repair(cut).unwrap();
    assert_eq!((repaired.kept(), repaired.frame_count()), (52, 0));
    assert_eq!((repaired.index(), repaired.user()), (52, 56));
    assert_eq!(repaired.tail(), [0; 8]);
    assert_eq!(Recording::open(&repaired.to_vec()).unwrap().frame_count(), 0);
}

#[test]
fn p9_a_whole_frame_is_kept() {
    let cut = before_closing();
    let repaired = repair(&cut).unwrap();
    assert_eq!((repaired.kept(), repaired.frame_count()), (74, 1));
    assert_eq!(repaired.to_vec(), WHOLE);
}

#[test]
fn p10_a_cut_system_table() {
    let cut = &before_closing()[..51];
    assert_eq!(refused(cut), Reason::SystemTable);
    assert_eq!(repair(cut).unwrap_err().reason(), Reason::SystemTable);
    // where the table starts
    assert_eq!(repair(cut).unwrap_err().place(), Some(48));
}

#[test]
fn p11_and_p12_a_commit_and_the_same_again() {
    let mut sheet = Sheet::new();
    sheet.change("SITE").seen(None).set("A");
    assert_eq!(sheet.to_vec(), [0x01, 0x04, 0x53, 0x49, 0x54, 0x45, 0x00, 0x01, 0x01, 0x41]);
    let committed = commit(&WHOLE, &sheet).unwrap();
    assert_eq!(committed.place(), 94);
    assert_eq!(committed.table(), [0x01, 0x00, 0x00, 0x00, 0x04, 0x53, 0x49, 0x54, 0x45, 0x01, 0x41]);
    let file = committed.to_vec();
    assert_eq!(file[..94], WHOLE[..94]);
    assert_eq!(Recording::open(&file).unwrap().user_tag("SITE"), Some("A"));
    assert_eq!(commit(&file, &sheet).err(), Refusal::of(11, 0));
}

#[test]
fn the_recorder_writes_the_file() {
    let mut recorder = FileRecorder::begin(Cursor::new(Vec::new()), &[("IMAGE", b"")], &[]).unwrap();
    recorder.add(1000, 40, &[&[0x34, 0x12]]).unwrap();
    recorder.close().unwrap();
    assert_eq!(recorder.into_storage().into_inner(), WHOLE);
}

#[test]
fn the_pieces_have_their_places() {
    let mut recorder = Recorder::new();
    assert_eq!(recorder.stage(), Stage::Fresh);
    let piece = recorder.begin(&[("IMAGE", b"")], &[]).unwrap();
    assert_eq!((piece.place, piece.bytes), (0, &before_closing()[..52]));
    assert_eq!(recorder.stage(), Stage::Running);
    let piece = recorder.add(1000, 40, &[&[0x34, 0x12]]).unwrap();
    assert_eq!((piece.place, piece.bytes), (52, &WHOLE[52..74]));
    // "index, an empty user table, the count at 5, the user offset at 25, the index offset at 9"
    let closing = [(74, 74..94), (94, 94..98), (5, 5..9), (25, 25..33), (9, 9..17)];
    assert_eq!(closing.len(), CLOSING_PIECES);
    for (number, (place, bytes)) in closing.into_iter().enumerate() {
        let piece = recorder.close().unwrap();
        assert_eq!((piece.place, piece.bytes), (place, &WHOLE[bytes]), "piece {number}");
    }
    assert_eq!(recorder.stage(), Stage::Closed);
}

#[test]
fn the_clock_at_its_edge() {
    let mut recorder = running();
    recorder.add(1000, 40, &[&[0x34, 0x12]]).unwrap();
    assert_eq!(recorder.add(999, 40, &[&[]]).unwrap_err().reason(), Reason::Clock);
    assert_eq!(recorder.frame_count(), 1);
    assert!(recorder.add(1000, 40, &[&[]]).is_ok());
    assert_eq!(recorder.frame_count(), 2);
}

#[test]
fn a_section_at_its_limit_and_past_it() {
    let bytes = vec![0x5A; 16_777_217];
    let mut recorder = running();
    let piece = recorder.add(0, 0, &[&bytes[1..]]).unwrap();
    // 52 bytes ahead of the first frame; 16 of the frame's head, 4 of the size
    assert_eq!((piece.place, piece.bytes.len()), (52, 20 + 16_777_216));
    assert!(piece.bytes[20..] == bytes[1..]);
    assert_eq!(recorder.add(0, 0, &[&bytes]).unwrap_err().reason(), Reason::FrameShape);
}
