//! Where a fault is: the positions of 3, 4, 7 and 10, in which bytes they count, and what stands there.

mod common;

use common::{before_closing, recorded, tagged, with, WHOLE};
use suljanko::{
    calls, commit, convert, look, raw, repair, set_up_list, tag_table, Lent, Position, Reason, Recorder, Recording,
    Refusal, Sheet, Spot, SpotPart,
};

fn opening(file: &[u8]) -> Refusal {
    Recording::open(file).unwrap_err()
}

/// The refusal of a sheet's bytes.
fn of_sheet(bytes: &[u8]) -> Refusal {
    Sheet::from_bytes(bytes).unwrap_err()
}

/// The refusal of bytes that are no table.
fn of_table(bytes: &[u8]) -> Refusal {
    calls::first_tag(bytes).refusal().unwrap()
}

/// The refusal of a set-up list, with an empty system table.
fn of_list(bytes: &[u8]) -> Refusal {
    begun(bytes, &[0; 4])
}

fn begun(list: &[u8], table: &[u8]) -> Refusal {
    Recorder::new().begin_in_file_form(list, table).unwrap_err()
}

/// That a refusal has this number and position.
fn stands(refusal: Refusal, number: u64, lent: Lent, at: u64) {
    assert_eq!((refusal.number(), refusal.position()), (number, Some(Position { lent, at })), "{refusal}");
    assert_eq!(refusal.place(), Some(at));
}

/// The worked file with these user tags, good or bad: `WHOLE` without its table of four zeros, and a table behind it.
fn with_table(table: &[u8]) -> Vec<u8> {
    [&WHOLE[..94], table].concat()
}

#[test]
fn the_worked_file_cut_and_changed() {
    stands(opening(&WHOLE[..51]), 4, Lent::File, 48);
    stands(opening(&before_closing()[..51]), 4, Lent::File, 48);
    stands(repair(&before_closing()[..51]).unwrap_err(), 4, Lent::File, 48);
    stands(opening(&WHOLE[..97]), 7, Lent::File, 94);
    stands(opening(&[&WHOLE[..], b"x"].concat()), 7, Lent::File, 98);
    // the number of sections, its name's letters, the name cut off, its offset cut off, and set to something else
    stands(opening(&with(33, 0)), 3, Lent::File, 33);
    stands(opening(&with(33, 9)), 3, Lent::File, 33);
    stands(opening(&with(34, 0)), 3, Lent::File, 34);
    stands(opening(&with(37, b'-')), 3, Lent::File, 37);
    stands(opening(&WHOLE[..34]), 3, Lent::File, 34);
    stands(opening(&WHOLE[..38]), 3, Lent::File, 38);
    stands(opening(&WHOLE[..47]), 3, Lent::File, 40);
    stands(opening(&with(40, 47)), 3, Lent::File, 40);
    stands(repair(&with(37, b'-')).unwrap_err(), 3, Lent::File, 37);
    // the system offset is too low, too far, and behind the file's end
    stands(opening(&with(17, 47)), 4, Lent::File, 17);
    stands(opening(&with(19, 1)), 4, Lent::File, 17);
    let far = with(18, 4);
    assert_eq!(far[17..25], 1072_u64.to_le_bytes());
    stands(opening(&far), 4, Lent::File, 1072);
    let mut far = WHOLE;
    far[17..25].copy_from_slice(&1048_u64.to_le_bytes());
    stands(opening(&far), 4, Lent::File, 1048);
    // a tag where the first frame's mark FF 22 01 EE stands, and more tags than a table takes
    stands(opening(&with(48, 1)), 4, Lent::File, 54);
    stands(opening(&with(49, 4)), 4, Lent::File, 48);
}

#[test]
fn sections_that_break_several_rules() {
    let good = recorded(&[("IMAGE", b""), ("STATUS", b"")], &[], &[]);
    let set = |changes: &[(usize, u8)]| {
        let mut file = good.clone();
        changes.iter().for_each(|(place, byte)| file[*place] = *byte);
        opening(&file)
    };
    assert_eq!((good[40], good[55]), (63, 63));
    stands(set(&[(40, 64)]), 3, Lent::File, 40);
    stands(set(&[(40, 64), (52, b'-')]), 3, Lent::File, 52);
    // of two offsets that fall or are too far apart, the later
    stands(set(&[(55, 62)]), 3, Lent::File, 55);
    stands(set(&[(57, 1)]), 3, Lent::File, 55);
    // a name that comes twice, at the start of the second; ahead of its offset, behind the first offset
    let mut twice = recorded(&[("IMAGE", b""), ("IMAGF", b"")], &[], &[]);
    twice[53] = b'E';
    stands(opening(&twice), 3, Lent::File, 48);
    twice[54] = 0;
    stands(opening(&twice), 3, Lent::File, 48);
    twice[40] = 0;
    stands(opening(&twice), 3, Lent::File, 40);
}

#[test]
fn every_call_over_a_file_says_it() {
    let cut = &WHOLE[..97];
    let opened = calls::open(cut);
    assert_eq!((opened.refused, opened.place), (7, 94));
    let mut out = [0; 64];
    let refusals = [
        opened.refusal(),
        calls::frame(cut, 0).refusal(),
        calls::frame_of(cut, opened, 0).refusal(),
        calls::part(cut, raw::FSTF_SECTION_NAME, 0, 0).refusal(),
        calls::part_of(cut, opened, raw::FSTF_SECTION_NAME, 0, 0).refusal(),
        calls::look(cut, &[0]).refusal(),
        calls::commit(cut, &[0], &mut out).refusal(),
        calls::convert(cut, &[0], &mut out).refusal(),
        look(cut, &Sheet::new()).err(),
        commit(cut, &Sheet::new()).err(),
        convert(cut, &[0]).err(),
        // 7 is ahead of 10
        calls::look(cut, &[]).refusal(),
        calls::commit(cut, &[], &mut out).refusal(),
        calls::convert(cut, &[], &mut out).refusal(),
    ];
    for refusal in refusals {
        stands(refusal.unwrap(), 7, Lent::File, 94);
    }
    for file in [&WHOLE[..51], &before_closing()[..51]] {
        stands(calls::repair(file, &mut out).refusal().unwrap(), 4, Lent::File, 48);
        stands(calls::look(file, &[0]).refusal().unwrap(), 4, Lent::File, 48);
        stands(calls::commit(file, &[0], &mut out).refusal().unwrap(), 4, Lent::File, 48);
        stands(calls::convert(file, &[0], &mut out).refusal().unwrap(), 4, Lent::File, 48);
    }
}

#[test]
fn the_other_numbers_have_no_place() {
    let mut out = [0; 64];
    let answers = [calls::open(b""), calls::open(&with(4, 2)), calls::open(&with(9, 0)), calls::open(&with(5, 2))];
    for answer in answers {
        let refusal = answer.refusal().unwrap();
        assert_eq!((answer.place, refusal.place(), refusal.position()), (0, None, None), "{refusal}");
        assert_eq!(refusal.spot(&WHOLE), None);
    }
    assert_eq!(calls::open(&WHOLE).refusal(), None);
    assert_eq!(calls::repair(&WHOLE, &mut out).refusal().unwrap().place(), None);
    // 11 carries a change, which is no position
    let conflict = calls::commit(&WHOLE, &[1, 1, b'A', 1, 0, 0], &mut out).refusal().unwrap();
    assert_eq!((conflict.number(), conflict.place(), conflict.position()), (11, Some(0), None));
    assert_eq!(conflict.spot(&[0]), None);
}

#[test]
fn sheets() {
    let rows: [(&[u8], u64); 14] = [
        (&[], 0),
        (&[65], 0),
        (&[1], 1),
        // a bad byte ahead of the end wins over running out
        (&[1, 5, b'A', 7], 3),
        (&[1, 5, b'A', b'B'], 4),
        (&[1, 0, 0, 0], 1),
        (&[1, 1, b'A'], 3),
        (&[1, 1, b'A', 3, 0], 3),
        (&[1, 1, b'A', 0], 4),
        (&[1, 1, b'A', 0, 2], 4),
        (&[1, 1, b'A', 1], 4),
        (&[1, 1, b'A', 1, 2, b'x', 0x7F, 0], 6),
        (&[1, 1, b'A', 0, 1, 3, b'x'], 7),
        (&[1, 1, b'A', 0, 0, 9, 9], 5),
    ];
    for (bytes, at) in rows {
        stands(of_sheet(bytes), 10, Lent::Sheet, at);
        let looked = calls::look(&WHOLE, bytes);
        let committed = calls::commit(&WHOLE, bytes, &mut []);
        // none of them has a seen kind 2, so that they are no old sheets either
        let converted = calls::convert(&WHOLE, bytes, &mut []);
        assert_eq!((looked.refused, looked.place), (10, at), "{bytes:?}");
        assert_eq!((committed.refused, committed.place), (10, at), "{bytes:?}");
        assert_eq!((converted.refused, converted.place), (10, at), "{bytes:?}");
    }
}

/// Seen kind 2 is refused where it stands, ahead of all that is behind it; to convert, it is none of the faults.
#[test]
fn sheets_that_nobody_looked_for() {
    // the sheet, the place of the kind, and the place of what else is wrong with it, if anything is
    let rows: [(&[u8], u64, Option<u64>); 8] = [
        (&[1, 1, b'A', 2, 0], 3, None),
        (&[1, 1, b'A', 2, 1, 1, b'x'], 3, None),
        (&[2, 1, b'A', 0, 0, 1, b'B', 2, 0], 7, None),
        (&[2, 1, b'A', 2, 0, 1, b'B', 2, 0], 3, None),
        (&[1, 1, b'A', 2], 3, Some(4)),
        (&[1, 1, b'A', 2, 2], 3, Some(4)),
        (&[1, 1, b'A', 2, 1, 3, b'x'], 3, Some(7)),
        (&[2, 1, b'A', 2, 0, 1, b'A', 2, 0, 7], 3, Some(5)),
    ];
    for (bytes, kind, other) in rows {
        stands(of_sheet(bytes), 10, Lent::Sheet, kind);
        let spot = of_sheet(bytes).spot(bytes).unwrap();
        assert_eq!((spot.part, spot.byte, spot.nobody_looked()), (SpotPart::SeenKind, Some(2), true), "{bytes:?}");
        assert!(of_sheet(bytes).to_string().contains(": It says that nobody looked, "), "{bytes:?}");
        assert!(of_sheet(bytes).advice().contains(": convert it, with the file that it was prepared against."));
        stands(calls::look(&WHOLE, bytes).refusal().unwrap(), 10, Lent::Sheet, kind);
        stands(calls::commit(&WHOLE, bytes, &mut [0; 64]).refusal().unwrap(), 10, Lent::Sheet, kind);
        let converted = calls::convert(&WHOLE, bytes, &mut [0; 64]).refusal();
        assert_eq!(converted.and_then(|refusal| refusal.place()), other, "{bytes:?}");
        if let Some(refusal) = converted {
            stands(refusal, 10, Lent::OldSheet, other.unwrap());
            assert!(!refusal.spot(bytes).unwrap().nobody_looked(), "{bytes:?}");
        }
    }
    // a kind that never was one, and a 2 in another place, are told apart from it
    for bytes in [&[1, 1, b'A', 3, 0][..], &[1, 1, b'A', 0, 2], &[1, 2, b'A', 2, 0, 0], &[1, 1, b'A', 1, 2, b'x', 2, 0]]
    {
        assert!(!of_sheet(bytes).spot(bytes).unwrap().nobody_looked(), "{bytes:?}");
        assert_eq!(of_sheet(bytes).advice(), Refusal::of(10, 0).unwrap().advice());
    }
}

#[test]
fn tables() {
    let rows: [(&[u8], u64); 9] = [
        (&[], 0),
        (&[0, 0, 0], 0),
        (&[0xE9, 3, 0, 0], 0),
        (&[1, 0, 0, 0], 4),
        // a name is compared when it is read, ahead of the value behind it
        (&[2, 0, 0, 0, 1, 0x41, 0, 1, 0x41, 1, 7], 7),
        (&[2, 0, 0, 0, 1, 0x41, 1, 7, 1, 0x41, 0], 7),
        (&[1, 0, 0, 0, 1, 0x41], 6),
        (&[1, 0, 0, 0, 0, 0], 4),
        (&[1, 0, 0, 0, 1, 0x41, 0, 0], 7),
    ];
    for (bytes, at) in rows {
        let first = calls::first_tag(bytes);
        let refusals = [
            calls::tag_at(bytes, 0).refusal(),
            calls::tag_named(bytes, b"A").refusal(),
            first.refusal(),
            calls::next_tag(bytes, first).refusal(),
        ];
        for refusal in refusals {
            stands(refusal.unwrap(), 7, Lent::Table, at);
        }
        // in a file, from the file's start; to begin with, from the table's
        stands(opening(&with_table(bytes)), 7, Lent::File, 94 + at);
        stands(begun(&[1, 1, b'A', 0, 0], bytes), 4, Lent::Table, at);
    }
}

#[test]
fn set_up_lists() {
    let rows: [(&[u8], u64, u64); 12] = [
        (&[], 10, 0),
        (&[1], 10, 1),
        (b"\x01\x05IMAGE\x05\x00abc", 10, 9),
        (b"\x01\x05IMAGE\x05", 10, 7),
        // a bad character in a list that runs out is not its fault
        (b"\x01\x05-A", 10, 4),
        (b"\x01\x01A\x00\x00\x00", 10, 5),
        // in a complete list it is 3
        (b"\x01\x02-A\x00\x00", 3, 2),
        (b"\x01\x02A-\x00\x00", 3, 3),
        (b"\x01\x00\x00\x00", 3, 1),
        (b"\x00", 3, 0),
        (b"\x02\x01A\x00\x00\x01A\x00\x00", 3, 5),
        (b"\x02\x01A\x02\x00--\x01-\x00\x00", 3, 8),
    ];
    for (bytes, number, at) in rows {
        stands(of_list(bytes), number, Lent::SetUp, at);
        let taken = calls::begin(calls::new(), bytes, &[0; 4], &mut [0; 4], &mut [0; 64]);
        assert_eq!((taken.refused, taken.place), (number, at), "{bytes:?}");
    }
    // the list is ahead of the table
    stands(begun(&[0], &[]), 3, Lent::SetUp, 0);
}

#[test]
fn of_names_used_twice_the_first_that_is_a_second() {
    // A B B A: the second B, and not the second A
    let table = b"\x04\0\0\0\x01A\0\x01B\0\x01B\0\x01A\0";
    stands(of_table(table), 7, Lent::Table, 10);
    stands(begun(&[1, 1, b'A', 0, 0], table), 4, Lent::Table, 10);
    stands(opening(&with_table(table)), 7, Lent::File, 104);
    stands(of_list(b"\x04\x01A\0\0\x01B\0\0\x01B\0\0\x01A\0\0"), 3, Lent::SetUp, 9);
    let sheet = b"\x04\x01A\0\0\x01B\0\0\x01B\0\0\x01A\0\0";
    stands(of_sheet(sheet), 10, Lent::Sheet, 9);
    let spot = of_sheet(sheet).spot(sheet).unwrap();
    assert_eq!((spot.number, spot.name, spot.part, spot.character), (Some(2), &b"B"[..], SpotPart::Name, None));
    assert_eq!(spot.first, Some(1));
}

#[test]
fn how_it_is_shown() {
    let shown = |refusal: Refusal, text: &str| {
        let said = refusal.to_string();
        assert_eq!(said, format!("{text}: {}", refusal.advice()));
    };
    shown(opening(&WHOLE[..97]), "refused 7, user table at byte 94 of the file");
    shown(opening(&with(18, 4)), "refused 4, system table at byte 1,072 of the file");
    shown(opening(&with(33, 0)), "refused 3, sections at byte 33 of the file");
    shown(of_sheet(&[1, 5, b'A', 7]), "refused 10, sheet at byte 3 of the sheet");
    shown(convert(&WHOLE, &[1, 5, b'A', 7]).unwrap_err(), "refused 10, sheet at byte 3 of the old sheet");
    shown(of_list(b"\x01\x05IMAGE\x05\x00abc"), "refused 10, sheet at byte 9 of the set-up list");
    shown(begun(&[1, 1, b'A', 0, 0], &[]), "refused 4, system table at byte 0 of the table");
    shown(of_table(&[]), "refused 7, user table at byte 0 of the table");
    // the two numbers alone do not say which bytes
    let bare = Refusal::of(7, 1_234_567).unwrap();
    shown(bare, "refused 7, user table at byte 1,234,567");
    assert_eq!((bare.place(), bare.position(), bare.spot(&WHOLE)), (Some(1_234_567), None, None));
    shown(Refusal::of(11, 3).unwrap(), "refused 11, conflict at change 3");
    shown(Refusal::of(5, 77).unwrap(), "refused 5, not closed");
    assert_eq!(opening(&WHOLE[..97]).position().unwrap().to_string(), "byte 94 of the file");
    for (at, text) in
        [(0, "0"), (999, "999"), (1000, "1,000"), (1_000_001, "1,000,001"), (1 << 40, "1,099,511,627,776")]
    {
        assert_eq!(Position { lent: Lent::Sheet, at }.to_string(), format!("byte {text} of the sheet"));
    }
}

#[test]
fn what_stands_there() {
    let said = |refusal: Refusal, lent: &[u8], text: &str| {
        assert_eq!(refusal.spot(lent).map(|spot| spot.to_string()).as_deref(), Some(text), "{refusal}");
    };
    let file = |file: &[u8], text: &str| said(opening(file), file, text);
    file(&WHOLE[..97], "the number of user tags, which is cut off");
    file(&WHOLE[..94], "the number of user tags, where the bytes have ended");
    file(&[&WHOLE[..], b"x"].concat(), "behind the last user tag, byte 0x78");
    file(&WHOLE[..51], "the number of system tags, which is cut off");
    file(&with(17, 47), "where the header says that the system table starts, byte 0x2F");
    file(&with(17, 0), "where the header says that the system table starts, byte 0x00");
    file(&with(18, 4), "the number of system tags, where the bytes have ended");
    file(&with(33, 9), "the number of sections, byte 0x09");
    file(&with(37, b'-'), r#"section 0, "IM-GE": character 2 of its name, byte 0x2D"#);
    file(&WHOLE[..38], r#"section 0, "IMA": character 3 of its name, where the bytes have ended"#);
    file(&WHOLE[..47], r#"section 0, "IMAGE": where its configuration starts, which is cut off"#);
    file(&with(40, 47), r#"section 0, "IMAGE": where its configuration starts, byte 0x2F"#);
    let table = |table: &[u8], text: &str| said(of_table(table), table, text);
    table(b"\x02\0\0\0\x01A\0\x01A\x01\x07", r#"tag 1, "A": the start of its name, which tag 0 has too"#);
    table(b"\x01\0\0\0\0\0", r#"tag 0, "": the start of its name, byte 0x00"#);
    table(b"\x01\0\0\0\x01A", r#"tag 0, "A": the start of its value, where the bytes have ended"#);
    table(b"\x01\0\0\0\x01A\x03x\x07", r#"tag 0, "A": character 1 of its value, byte 0x07"#);
    let sheet = |sheet: &[u8], text: &str| said(of_sheet(sheet), sheet, text);
    sheet(&[65], "the number of changes, byte 0x41");
    sheet(&[], "the number of changes, where the bytes have ended");
    sheet(&[1, 5, b'A', 7], r#"change 0, "A\x07": character 1 of its name, byte 0x07"#);
    sheet(&[1, 1, b'A', 3, 0], r#"change 0, "A": the kind of what was seen, byte 0x03"#);
    let old = "nobody looked, as an old sheet may say. Convert it, with the file that it was prepared against";
    sheet(&[1, 1, b'A', 2, 0], &format!(r#"change 0, "A": the kind of what was seen, byte 0x02: {old}"#));
    sheet(&[1, 1, b'A', 0], r#"change 0, "A": the kind of what is new, where the bytes have ended"#);
    sheet(&[1, 1, b'A', 1, 1, 9, 0], r#"change 0, "A": character 0 of the value that was seen, byte 0x09"#);
    sheet(&[1, 1, b'A', 0, 1, 1, 9], r#"change 0, "A": character 0 of its new value, byte 0x09"#);
    // the walk passes over the changes of which nobody looked
    let old = [2, 1, b'A', 2, 0, 1, b'B', 2, 1, 1, 9];
    let refusal = calls::convert(&WHOLE, &old, &mut []).refusal().unwrap();
    said(refusal, &old, r#"change 1, "B": character 0 of its new value, byte 0x09"#);
    sheet(&[0, 1], "behind the last change, byte 0x01");
    let list = |list: &[u8], text: &str| said(of_list(list), list, text);
    list(b"\x01\x05IMAGE\x05\x00abc", r#"section 0, "IMAGE": its configuration, which is cut off"#);
    list(b"\x01\x05IMAGE\x05", r#"section 0, "IMAGE": the length of its configuration, which is cut off"#);
    list(b"\x01\x05-A", r#"section 0, "-A": character 2 of its name, where the bytes have ended"#);
    list(b"\x01\x01A\x00\x00\x00", "behind the last section, byte 0x00");
}

#[test]
fn one_bad_character_among_400_tags() {
    let good = tagged(400);
    let recording = Recording::open(&good).unwrap();
    let tag = recording.user_tags().nth(212).unwrap();
    assert_eq!((tag.name, tag.value), ("T212", "V212"));
    let start = good.as_ptr() as usize;
    for (string, part) in [(tag.name, SpotPart::Name), (tag.value, SpotPart::Value)] {
        for character in 0..4 {
            let place = string.as_ptr() as usize - start + character;
            let mut file = good.clone();
            file[place] = 7;
            let refusal = opening(&file);
            stands(refusal, 7, Lent::File, place as u64);
            let spot = refusal.spot(&file).unwrap();
            assert_eq!((spot.rows, spot.number, spot.part), ("user tag", Some(212), part));
            assert_eq!((spot.character, spot.byte), (Some(character), Some(7)));
        }
    }
    // with a digit for the comma and the words of the member's message
    let place = tag.value.as_ptr() as usize - start + 2;
    let mut file = good.clone();
    file[place] = 7;
    let refusal = opening(&file);
    assert!(place > 1000);
    let byte = format!("{},{:03}", place / 1000, place % 1000);
    assert!(refusal.to_string().starts_with(&format!("refused 7, user table at byte {byte} of the file: ")));
    let spot = refusal.spot(&file).unwrap();
    assert_eq!(spot.to_string(), r#"user tag 212, "T212": character 2 of its value, byte 0x07"#);
}

#[test]
fn a_system_tag_of_a_file() {
    let mut file = recorded(&[("A", b"cfg")], &[("CAMERA", "QHY 174"), ("NOTE", "wind")], &[]);
    let place = file.windows(4).position(|part| part == b"wind").unwrap() + 3;
    file[place] = 0xE4;
    let refusal = opening(&file);
    stands(refusal, 4, Lent::File, place as u64);
    assert_eq!(repair(&file).unwrap_err(), refusal);
    let spot = refusal.spot(&file).unwrap();
    assert_eq!(spot.to_string(), r#"system tag 1, "NOTE": character 3 of its value, byte 0xE4"#);
}

#[test]
fn what_a_recording_is_begun_with() {
    let begin = |sections: &[(&str, &[u8])], tags: &[(&str, &str)]| Recorder::new().begin(sections, tags).unwrap_err();
    let sections: [(&str, &[u8]); 3] = [("IMAGE", b"64x48"), ("STATUS", b""), ("GPS 2", b"x")];
    let refusal = begin(&sections, &[]);
    let list = set_up_list(&sections).unwrap();
    stands(refusal, 3, Lent::SetUp, 27);
    let spot = refusal.spot(&list).unwrap();
    assert_eq!(spot.to_string(), r#"section 2, "GPS 2": character 3 of its name, byte 0x20"#);
    let tags = [("CAMERA", "QHY 174"), ("PLACE", "Enontekiö"), ("NOTE", "\t")];
    let refusal = begin(&sections[..2], &tags);
    let table = tag_table(&tags).unwrap();
    assert_eq!((refusal.reason(), refusal.position().map(|at| at.lent)), (Reason::SystemTable, Some(Lent::Table)));
    let spot = refusal.spot(&table).unwrap();
    assert_eq!((spot.number, spot.part, spot.character, spot.byte), (Some(1), SpotPart::Value, Some(8), Some(0xC3)));
    // what has no form is refused as before, at 0
    let long = "x".repeat(256);
    assert_eq!((set_up_list(&[(&long, b"")]), tag_table(&[("A", &long)])), (None, None));
    stands(begin(&[(&long, b"")], &[]), 3, Lent::SetUp, 0);
    stands(begin(&sections[..2], &[("A", &long)]), 4, Lent::Table, 0);
}

/// A file with two sections, configurations, tags in both tables and frames, and one change of a byte after the other.
#[test]
fn every_position_is_in_its_bytes_and_leads_somewhere() {
    let file = recorded(
        &[("IMAGE", b"ab"), ("S2", b"")],
        &[("CAMERA", "QHY"), ("N", "")],
        &[(7, 1, vec![b"x", b""]), (8, 1, vec![b"", b"yz"])],
    );
    let mut sheet = Sheet::new();
    sheet.change("SITE").seen(None).set("Inari");
    sheet.change("NOTE").seen(None).set("");
    let file = commit(&file, &sheet).unwrap().to_vec();
    let cuts = (0..file.len()).map(|length| file[..length].to_vec());
    let changes = (0..file.len()).flat_map(|place| {
        [0, 1, 2, 7, 9, b'-', b'A', 0x7F, 0xFF].map(|byte| {
            let mut changed = file.clone();
            changed[place] = byte;
            changed
        })
    });
    let mut met = [0; 18];
    for changed in cuts.chain(changes) {
        let refusal = match Recording::open(&changed) {
            Ok(_) => continue,
            Err(refusal) => refusal,
        };
        met[refusal.number() as usize] += 1;
        let spot = refusal.spot(&changed);
        assert_eq!(spot.is_some(), [3, 4, 7].contains(&refusal.number()), "{refusal}");
        assert_eq!(refusal.position().is_some(), spot.is_some());
        let (position, spot) = match (refusal.position(), spot) {
            (Some(position), Some(spot)) => (position, spot),
            _ => continue,
        };
        let system = u64::from_le_bytes(changed[17..25].try_into().unwrap());
        let behind = refusal.number() == 4 && position.at == system;
        assert!(position.at <= changed.len() as u64 || behind, "{refusal}");
        assert_eq!(spot.byte, changed.get(position.at as usize).copied());
        assert_eq!(repair(&changed).err() == Some(refusal), refusal.number() != 7, "{refusal}");
        assert_eq!(calls::look(&changed, &[0]).refusal(), Some(refusal));
        assert_eq!(calls::commit(&changed, &[0], &mut []).refusal(), Some(refusal));
        assert_eq!(calls::convert(&changed, &[0], &mut []).refusal(), Some(refusal));
    }
    assert!(met[3] > 100 && met[4] > 100 && met[7] > 100, "{met:?}");
}

#[test]
fn a_position_of_other_bytes_leads_nowhere_or_to_some_byte() {
    // a refusal is not bound to the bytes that it came from: whatever is given, it ends and does not panic
    let all: [&[u8]; 6] = [b"", &[0xFF; 40], &WHOLE, &[0; 100], &[1; 300], b"\xFF\xFF\xFF\xFF\0\0\0\0"];
    for place in [0, 1, 17, 33, 48, 94, 98, 299, 300, 301, u64::MAX] {
        for number in [3, 4, 7, 10] {
            let opened = raw::FstfOpened { refused: number, place, ..calls::open(b"") };
            let taken = raw::FstfTaken { refused: number, place, ..calls::close(calls::new(), &[], &mut []) };
            let at = raw::FstfCursor { refused: number, place, ..raw::FstfCursor::default() };
            for bytes in all {
                for refusal in [opened.refusal(), taken.refusal(), at.refusal()] {
                    let spot: Option<Spot> = refusal.unwrap().spot(bytes);
                    if let Some(spot) = spot {
                        assert_eq!(spot.byte, bytes.get(place as usize).copied());
                        assert!(!spot.to_string().is_empty());
                    }
                }
            }
        }
    }
}
