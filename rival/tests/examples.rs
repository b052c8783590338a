//! Document 01's worked file and its marked examples.

mod common;
use common::by_number::*;
use common::*;

#[test]
fn p1_the_file_opens() {
    let opened = open(&WORKED).unwrap();
    let expected = Opened {
        frames: 1,
        sections: 1,
        system_tags: 0,
        user_tags: 0,
        start: 52,
        index: 74,
        user: 94,
    };
    assert_eq!(opened, expected);
    let expected = Frame {
        place: 52,
        length: 22,
        time: 1000,
        exposure: 40,
    };
    assert_eq!(frame(&WORKED, 0), Ok(expected));
    assert_eq!(part(&WORKED, Item::Section(0, 0)), Ok((72, 2)));
    assert_eq!(part(&WORKED, Item::SectionName(0)), Ok((35, 5)));
    assert_eq!(part(&WORKED, Item::Configuration(0)), Ok((48, 0)));
}

#[test]
fn p2_to_p7() {
    assert_eq!(open(&WORKED[..97]), Err(7));
    let changed = |at: usize, byte: u8| {
        let mut file = WORKED;
        file[at] = byte;
        open(&file)
    };
    assert_eq!(changed(4, 2), Err(2));
    assert_eq!(changed(9, 0), Err(5));
    assert_eq!(changed(9, 75), Err(6));
    assert_eq!(changed(5, 2), Err(6));
    assert_eq!(open(&WORKED[..33]), Err(1));
}

#[test]
fn p8_to_p10() {
    let recording = unclosed();
    let mut out = [0xAA; 40];
    let answer = repair(&recording[..73], &mut out).unwrap();
    let expected = Repaired {
        kept: 52,
        count: 0,
        index: 52,
        user: 56,
        tail: 8,
    };
    assert_eq!(answer, expected);
    assert_eq!(out[..8], [0; 8]);
    assert_eq!(out[8..], [0xAA; 32]);

    let answer = repair(&recording, &mut out).unwrap();
    assert_eq!(repaired(&recording, answer, &out), WORKED);
    assert_eq!(out[24..], [0xAA; 16]);

    let mut out = [0xAA; 40];
    assert_eq!(repair(&recording[..51], &mut out), Err(4));
    assert_eq!(out, [0xAA; 40]);
}

#[test]
fn p11_and_p12() {
    let sheet = [0x01, 0x04, 0x53, 0x49, 0x54, 0x45, 0x00, 0x01, 0x01, 0x41];
    let result = [
        0x01, 0x00, 0x00, 0x00, 0x04, 0x53, 0x49, 0x54, 0x45, 0x01, 0x41,
    ];
    let agrees = Looked {
        changes: 1,
        conflicts: 0,
    };
    assert_eq!(look(&WORKED, &sheet), Ok(agrees));
    let mut out = [0xAA; 16];
    assert_eq!(commit(&WORKED, &sheet, &mut out), Ok(11));
    assert_eq!(out[..11], result);
    assert_eq!(out[11..], [0xAA; 5]);

    let mut file = WORKED[..94].to_vec();
    file.extend_from_slice(&result);
    let conflicts = Looked {
        changes: 1,
        conflicts: 1,
    };
    assert_eq!(look(&file, &sheet), Ok(conflicts));
    let mut out = [0xAA; 16];
    assert_eq!(commit(&file, &sheet, &mut out), Err(conflict_at(0)));
    assert_eq!(out, [0xAA; 16]);
}

#[test]
fn the_recorder_writes_the_worked_file() {
    let mut recording = Recording::begin(&setup(&[(b"IMAGE", b"")]), &[0; 4]);
    let piece = recording
        .add(1000, 40, &sections(&[&[0x34, 0x12]]))
        .unwrap();
    assert_eq!((piece.place, piece.length), (52, 22));
    assert_eq!(recording.file, unclosed());
    assert_eq!(recording.close(), WORKED);
}

#[test]
fn a_second_frame_at_999_and_at_1000() {
    let mut recording = Recording::begin(&setup(&[(b"IMAGE", b"")]), &[0; 4]);
    let pixels = sections(&[&[0x34, 0x12]]);
    recording.add(1000, 40, &pixels).unwrap();
    assert_eq!(recording.add(999, 40, &pixels), Err(13));
    recording.add(1000, 40, &pixels).unwrap();
    assert_eq!(open(&recording.close()).unwrap().frames, 2);
}

#[test]
fn the_largest_section() {
    let recording = Recording::begin(&setup(&[(b"IMAGE", b"")]), &[0; 4]);
    let mut notes = recording.notes;
    let mut pixels = vec![7; 4 + 16_777_217];
    let mut out = vec![0; 16 + pixels.len()];
    pixels[..4].copy_from_slice(&16_777_217u32.to_le_bytes());
    let answer = add(recording.state, 0, 0, &pixels, &mut notes, &mut out);
    assert_eq!(answer, Err(14));
    pixels.pop();
    pixels[..4].copy_from_slice(&16_777_216u32.to_le_bytes());
    let answer = add(recording.state, 0, 0, &pixels, &mut notes, &mut out);
    assert_eq!(answer.unwrap().1.length, 16_777_236);
}
