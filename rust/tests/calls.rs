//! The calls over plain slices: empty slices, made-up states and numbers, outputs that are too short.

mod common;

use common::{before_closing, WHOLE};
use suljanko::raw::{self, FstfConverted, FstfCursor, FstfLooked, FstfOpened, FstfRecorder};
use suljanko::{calls, commit, Recording, Sheet};

const NONE: &[u8] = &[];

/// Numbers at the edges of everything.
const EDGES: [u64; 9] = [0, 1, 8, 34, 98, 1_000_000, 1 << 40, 1 << 63, u64::MAX];

#[test]
fn empty_slices() {
    assert_eq!(calls::open(NONE).refused, 1);
    assert_eq!(calls::frame(NONE, 0).refused, 1);
    assert_eq!(calls::part(NONE, raw::FSTF_SECTION, 0, 0).refused, 1);
    assert_eq!(calls::repair(NONE, &mut []).refused, 1);
    assert_eq!(calls::look(NONE, NONE).refused, 1);
    assert_eq!(calls::look(&WHOLE, NONE).refused, 10);
    assert_eq!(calls::commit(NONE, NONE, &mut []).refused, 1);
    assert_eq!(calls::commit(&WHOLE, NONE, &mut []).refused, 10);
    assert_eq!(calls::convert(NONE, NONE, &mut []).refused, 1);
    assert_eq!(calls::convert(&WHOLE, NONE, &mut []).refused, 10);
    // the sheet without changes is one byte, and there is no room for it
    assert_eq!(calls::convert(&WHOLE, &[0], &mut []).refused, 9);
    assert_eq!(calls::begin(calls::new(), NONE, NONE, &mut [], &mut []).refused, 10);
    assert_eq!(calls::tag_at(NONE, 0).refused, 7);
    assert_eq!(calls::tag_named(NONE, NONE).refused, 7);
    // no tag has an empty name
    assert_eq!(calls::tag_named(&[0; 4], NONE).found, 0);
    assert_eq!(calls::first_tag(NONE).refused, 7);
    assert_eq!(calls::next_tag(NONE, FstfCursor::default()), FstfCursor::default());
}

/// Two tags, A and BC, the second with no value.
const TWO_TAGS: &[u8] = b"\x02\0\0\0\x01A\x03xyz\x02BC\0";

#[test]
fn one_tag_after_another() {
    let first = calls::first_tag(TWO_TAGS);
    let at_a =
        FstfCursor { found: 1, name: 5, name_length: 1, value: 7, value_length: 3, left: 1, ..FstfCursor::default() };
    assert_eq!(first, at_a);
    let second = calls::next_tag(TWO_TAGS, first);
    let at_bc = FstfCursor { name: 11, name_length: 2, value: 14, value_length: 0, left: 0, ..at_a };
    assert_eq!(second, at_bc);
    let end = calls::next_tag(TWO_TAGS, second);
    assert_eq!(end, FstfCursor::default());
    assert_eq!(calls::next_tag(TWO_TAGS, end), end);
    // a table without tags is at its end; one that was cut is refused, and stays so
    assert_eq!(calls::first_tag(&[0; 4]), end);
    let refused = calls::first_tag(&TWO_TAGS[..13]);
    assert_eq!(refused, FstfCursor { refused: 7, place: 13, ..end });
    assert_eq!(calls::next_tag(TWO_TAGS, refused), refused);
}

#[test]
fn a_cursor_may_have_any_numbers() {
    for value in EDGES {
        for value_length in EDGES {
            let at = FstfCursor { found: 1, value, value_length, left: 5, ..FstfCursor::default() };
            let next = calls::next_tag(TWO_TAGS, at);
            // at none of the places that they add up to there is a tag
            assert_eq!(next, FstfCursor::default(), "{value} {value_length}");
        }
    }
    // one that stands ahead of a tag goes there, whatever else it says
    let ahead = FstfCursor { found: 9, name: u64::MAX, value: 4, left: 3, ..FstfCursor::default() };
    assert_eq!(calls::next_tag(TWO_TAGS, ahead), FstfCursor { left: 2, ..calls::first_tag(TWO_TAGS) });
    let none_left = FstfCursor { left: 0, ..ahead };
    assert_eq!(calls::next_tag(TWO_TAGS, none_left), FstfCursor::default());
    let refused = FstfCursor { refused: u64::MAX, place: 77, ..ahead };
    assert_eq!(
        calls::next_tag(TWO_TAGS, refused),
        FstfCursor { refused: u64::MAX, place: 77, ..FstfCursor::default() }
    );
}

#[test]
fn refused_answers_hold_nothing_else() {
    let nothing = FstfOpened {
        refused: 7,
        place: 94,
        frames: 0,
        sections: 0,
        system_tags: 0,
        user_tags: 0,
        system: 0,
        start: 0,
        index: 0,
        user: 0,
    };
    assert_eq!(calls::open(&WHOLE[..97]), nothing);
    let part = calls::part(&WHOLE, raw::FSTF_SECTION, 1, 0);
    assert_eq!((part.refused, part.place, part.start, part.length), (8, 0, 0, 0));
    // a sheet whose first change conflicts: neither it nor the number of changes is told where the file or the sheet is refused
    let sheet = [1, 1, b'A', 1, 0, 0];
    let looked = FstfLooked { refused: 0, place: 0, changes: 1, conflicts: 1 };
    assert_eq!(calls::look(&WHOLE, &sheet), looked);
    let nothing = FstfLooked { refused: 7, place: 94, changes: 0, conflicts: 0 };
    assert_eq!(calls::look(&WHOLE[..97], &sheet), nothing);
    assert_eq!(calls::look(&WHOLE, &sheet[..5]), FstfLooked { refused: 10, place: 5, ..nothing });
    // nor is a length, also where it was known
    let mut out = [0x5A; 6];
    let nothing = FstfConverted { refused: 9, place: 0, length: 0 };
    assert_eq!(calls::convert(&WHOLE, &sheet, &mut out[..5]), nothing);
    assert_eq!(calls::convert(&WHOLE, &sheet[..5], &mut out), FstfConverted { refused: 10, place: 5, ..nothing });
    assert_eq!(calls::convert(&WHOLE[..97], &sheet, &mut out), FstfConverted { refused: 7, place: 94, ..nothing });
    assert_eq!(out, [0x5A; 6]);
}

#[test]
fn the_numbers_of_the_opening() {
    let opened = calls::open(&WHOLE);
    assert_eq!((opened.refused, opened.frames, opened.sections), (0, 1, 1));
    assert_eq!((opened.system_tags, opened.user_tags), (0, 0));
    assert_eq!((opened.system, opened.start, opened.index, opened.user), (48, 52, 74, 94));
}

#[test]
fn an_opening_answers_as_the_file_does() {
    let opened = calls::open(&WHOLE);
    for i in EDGES {
        assert_eq!(calls::frame_of(&WHOLE, opened, i), calls::frame(&WHOLE, i));
        for kind in [0, 1, 2, 3, 4, 5, 6, 7, u64::MAX] {
            for j in EDGES {
                assert_eq!(calls::part_of(&WHOLE, opened, kind, i, j), calls::part(&WHOLE, kind, i, j));
            }
        }
    }
}

#[test]
fn made_up_openings_stay_in_the_file() {
    let files = [NONE, &WHOLE, &WHOLE[..50], &[0xFF; 200]];
    for a in EDGES {
        for b in EDGES {
            for c in EDGES {
                let opened = FstfOpened {
                    refused: a,
                    place: c,
                    frames: b,
                    sections: c,
                    system_tags: b,
                    user_tags: b,
                    system: c,
                    start: a,
                    index: c,
                    user: a,
                };
                for file in files {
                    items_stay_in(file, opened, a);
                }
            }
        }
    }
}

fn items_stay_in(file: &[u8], opened: FstfOpened, i: u64) {
    let frame = calls::frame_of(file, opened, i);
    stays_in(file, opened, (frame.refused, frame.place), frame.start, frame.length);
    for kind in 0..8 {
        let part = calls::part_of(file, opened, kind, i, 0);
        stays_in(file, opened, (part.refused, part.place), part.start, part.length);
    }
}

// A refusal of the opening is passed through, number and place; else the item is inside the file, or it is not there.
fn stays_in(file: &[u8], opened: FstfOpened, refusal: (u64, u64), start: u64, length: u64) {
    if opened.refused != 0 {
        assert_eq!(refusal, (opened.refused, opened.place), "{opened:?}");
        return;
    }
    if refusal != (0, 0) {
        assert_eq!(refusal, (8, 0), "{opened:?}");
        return;
    }
    let end = start.checked_add(length).unwrap();
    assert!(end <= file.len() as u64, "{start} to {end}, {opened:?}");
}

#[test]
fn made_up_states_are_refused_12_and_handed_back() {
    let running = FstfRecorder { stage: 1, piece: 0, sections: 1, frames: 1, first: 1000, last: 1000, end: 74 };
    let closing = FstfRecorder { stage: 2, ..running };
    let broken = [
        FstfRecorder { stage: 3, ..running },
        FstfRecorder { stage: 4, ..running },
        FstfRecorder { stage: u64::MAX, ..running },
        FstfRecorder { sections: 0, ..running },
        FstfRecorder { sections: 9, ..running },
        FstfRecorder { frames: 1_000_001, ..running },
        FstfRecorder { frames: u64::MAX, ..running },
        FstfRecorder { last: 999, ..running },
        FstfRecorder { first: i64::MIN, last: i64::MAX, ..running },
        FstfRecorder { end: u64::MAX, ..running },
        // end + index + 512,004 with the one frame's index of 20 bytes: one byte over 2^40
        FstfRecorder { end: (1 << 40) - 512_004 - 20 + 1, ..running },
        FstfRecorder { piece: 5, ..closing },
        FstfRecorder { piece: u64::MAX, ..closing },
        FstfRecorder { sections: 0, ..closing },
    ];
    for state in broken {
        let mut notes = [0xA5; 64];
        let mut out = [0x5A; 64];
        let added = calls::add(state, 1000, 40, &WHOLE[68..74], &mut notes, &mut out);
        let closed = calls::close(state, &notes, &mut out);
        for taken in [added, closed] {
            assert_eq!((taken.refused, taken.place, taken.start, taken.length), (12, 0, 0, 0), "{state:?}");
            assert_eq!(taken.recorder, state);
        }
        assert_eq!((notes, out), ([0xA5; 64], [0x5A; 64]));
    }
}

#[test]
fn states_at_their_limits_are_taken() {
    let running = FstfRecorder { stage: 1, piece: 0, sections: 1, frames: 1, first: 1000, last: 1000, end: 74 };
    let mut notes = [0; 64];
    let mut out = [0; 64];
    let far = FstfRecorder { end: (1 << 40) - 512_004 - 20, ..running };
    assert_eq!(calls::close(far, &notes, &mut out).refused, 0);
    assert_eq!(calls::add(far, 1000, 40, &WHOLE[68..74], &mut notes, &mut out).refused, 15);
    // a frame of 22 bytes and 16 more of index still go in
    let near = FstfRecorder { end: (1 << 40) - 512_004 - 20 - 22 - 16, ..running };
    assert_eq!(calls::add(near, 1000, 40, &WHOLE[68..74], &mut notes, &mut out).refused, 0);
    let over = FstfRecorder { end: near.end + 1, ..near };
    assert_eq!(calls::add(over, 1000, 40, &WHOLE[68..74], &mut notes, &mut out).refused, 15);
    let full = FstfRecorder { frames: 1_000_000, ..running };
    assert_eq!(calls::add(full, 1000, 40, &WHOLE[68..74], &mut notes, &mut out).refused, 15);
}

#[test]
fn outputs_of_every_length() {
    // the tail of P9's repair has 24 bytes
    for length in 0..30 {
        let mut out = vec![0x5A; length];
        let repaired = calls::repair(&before_closing(), &mut out);
        if length < 24 {
            assert_eq!(repaired.refused, 9);
            assert!(out.iter().all(|byte| *byte == 0x5A));
        } else {
            assert_eq!((repaired.refused, repaired.tail), (0, 24));
            assert_eq!(out[..24], WHOLE[74..]);
            assert!(out[24..].iter().all(|byte| *byte == 0x5A));
        }
    }
}

#[test]
fn a_commit_fills_its_output_and_no_more() {
    let mut sheet = Sheet::new();
    sheet.change("SITE").seen(None).set("A");
    let table = commit(&WHOLE, &sheet).unwrap().table().to_vec();
    for length in 0..table.len() + 3 {
        let mut out = vec![0x5A; length];
        let committed = calls::commit(&WHOLE, &sheet.to_vec(), &mut out);
        if length < table.len() {
            assert_eq!((committed.refused, committed.place, committed.length), (9, 0, 0));
            assert!(out.iter().all(|byte| *byte == 0x5A));
        } else {
            assert_eq!((committed.refused, committed.length), (0, 11));
            assert_eq!(out[..11], table);
            assert!(out[11..].iter().all(|byte| *byte == 0x5A));
        }
    }
}

#[test]
fn the_declarations_themselves() {
    // SAFETY: pointer and length are of one slice; the answer is a plain struct.
    let opened = unsafe { raw::fstf_open(WHOLE.as_ptr(), WHOLE.len()) };
    assert_eq!(opened, Recording::open(&WHOLE).unwrap().opened());
    // SAFETY: a pointer of length 0 may be null.
    let nothing = unsafe { raw::fstf_open(std::ptr::null(), 0) };
    assert_eq!(nothing.refused, 1);
    // SAFETY: it takes nothing.
    let fresh = unsafe { raw::fstf_new() };
    assert_eq!((fresh.stage, fresh.piece, fresh.first, fresh.last), (0, 0, 0, 0));
}
