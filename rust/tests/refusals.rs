//! Each refusal of document 01's table, reached through the safe face.

mod common;

use common::{before_closing, recorded, running, tagged, with, WHOLE};
use suljanko::{calls, commit, look, repair, Reason, Recorder, Recording, Refusal, Sheet};

/// The table of document 01, and a refusal of each number from the safe face.
fn table() -> Vec<(u64, &'static str, Refusal)> {
    let site = |seen| {
        let mut sheet = Sheet::new();
        sheet.change("SITE").seen(seen).set("B");
        sheet
    };
    let mut late = running();
    late.add(5, 0, &[b""]).unwrap();
    vec![
        (1, "not FSTF", Recording::open(b"").unwrap_err()),
        (2, "revision", Recording::open(&with(4, 2)).unwrap_err()),
        (3, "sections", Recording::open(&with(33, 0)).unwrap_err()),
        (4, "system table", Recording::open(&with(17, 0x2F)).unwrap_err()),
        (5, "not closed", Recording::open(&before_closing()).unwrap_err()),
        (6, "index", Recording::open(&with(5, 0)).unwrap_err()),
        (7, "user table", Recording::open(&[&WHOLE[..], b"x"].concat()).unwrap_err()),
        (8, "no such item", Recording::open(&WHOLE).unwrap().frame(1).unwrap_err()),
        (9, "no room", no_room()),
        (10, "sheet", sheet_refused()),
        (11, "conflict", commit(&WHOLE, &site(Some("A"))).unwrap_err()),
        (12, "stage", Recorder::new().close().unwrap_err()),
        (13, "clock", late.add(4, 0, &[b""]).unwrap_err()),
        (14, "frame shape", running().add(0, 0, &[]).unwrap_err()),
        (15, "full", full()),
        (16, "whole", repair(&WHOLE).unwrap_err()),
        (17, "table full", commit(&tagged(1000), &site(None)).unwrap_err()),
    ]
}

// The crate lends enough, so that 9 is for those who lend their own.
fn no_room() -> Refusal {
    let mut short = [0; 7];
    calls::repair(&before_closing(), &mut short).refusal().unwrap()
}

fn sheet_refused() -> Refusal {
    let mut sheet = Sheet::new();
    sheet.change("").seen(None).remove();
    commit(&WHOLE, &sheet).unwrap_err()
}

// "adding: 1,000,000 frames already"
fn full() -> Refusal {
    let mut recorder = running();
    for number in 0..1_000_000 {
        recorder.add(number, 0, &[b""]).unwrap();
    }
    let refusal = recorder.add(1_000_000, 0, &[b""]).unwrap_err();
    assert_eq!(recorder.frame_count(), 1_000_000);
    refusal
}

#[test]
fn each_number_is_reached_and_has_its_name_and_advice() {
    let header = include_str!("../../include/fstf.h");
    for (number, name, refusal) in table() {
        assert_eq!((refusal.number(), refusal.name()), (number, name));
        assert_eq!(refusal.place().is_some(), [3, 4, 7, 10, 11].contains(&number), "{name}");
        assert_eq!(refusal.position().is_some(), [3, 4, 7, 10].contains(&number), "{name}");
        let said = refusal.to_string();
        assert!(said.starts_with(&format!("refused {number}, {name}")), "{said}");
        assert!(said.ends_with(refusal.advice()), "{said}");
        // the header's sentence; no comma stands behind the last number
        let row = format!("/* {name}: {} */", refusal.advice());
        let stands = |comma| header.contains(&format!("= {number}{comma} {row}"));
        assert!(stands(",") || stands(""), "{row}");
    }
}

#[test]
fn a_conflict_says_where() {
    let mut sheet = Sheet::new();
    sheet.change("A").seen(None).set("1");
    sheet.change("B").seen(None).set("2");
    sheet.change("C").seen(Some("3")).remove();
    let refusal = commit(&WHOLE, &sheet).unwrap_err();
    assert_eq!((refusal.reason(), refusal.place()), (Reason::Conflict, Some(2)));
    assert!(refusal.to_string().starts_with("refused 11, conflict at change 2: "));
    assert_eq!(sheet.name(2), Some("C"));
    assert_eq!(sheet.name(3), None);
}

#[test]
fn openings_in_their_order() {
    // cut after any byte: "under 34 bytes" is 1, then what is cut off is missed
    for length in 0..98 {
        let number = match length {
            0..=33 => 1,
            34..=47 => 3,
            48..=51 => 4,
            52..=93 => 5,
            _ => 7,
        };
        assert_eq!(Recording::open(&WHOLE[..length]).unwrap_err().number(), number, "{length} bytes");
    }
}

#[test]
fn beginning_is_refused_in_its_order() {
    let long = "x".repeat(256);
    let nine: Vec<(&str, &[u8])> =
        ["A", "B", "C", "D", "E", "F", "G", "H", "I"].iter().map(|n| (*n, &b""[..])).collect();
    let many: Vec<(&str, &[u8])> = vec![("A", b""); 256];
    let wide = vec![0; 65_536];
    let twice: Vec<(&str, &[u8])> = vec![("A", b""); 2];
    let lists = [vec![], vec![("", &b""[..])], vec![("A B", b"")], twice, nine.clone(), many, vec![(&long, b"")]];
    for given in lists {
        assert_eq!(
            Recorder::new().begin(&given, &[]).unwrap_err().reason(),
            Reason::Sections,
            "{} sections",
            given.len()
        );
        assert_eq!(running().begin(&given, &[]).unwrap_err().reason(), Reason::Stage);
    }
    assert_eq!(Recorder::new().begin(&[("A", &wide)], &[]).unwrap_err().reason(), Reason::Sections);
    assert!(Recorder::new().begin(&[("A", &wide[1..])], &[]).is_ok());
    assert!(Recorder::new().begin(&nine[..8], &[]).is_ok());
    let tables = [vec![("", "")], vec![("A", "\u{7f}")], vec![("A", ""); 2], vec![("A", &long)], vec![(&long, "")]];
    for given in tables {
        assert_eq!(Recorder::new().begin(&[("A", b"")], &given).unwrap_err().reason(), Reason::SystemTable);
        assert_eq!(Recorder::new().begin(&[], &given).unwrap_err().reason(), Reason::Sections);
    }
    let tags = vec![("A", ""); 1001];
    assert_eq!(Recorder::new().begin(&[("A", b"")], &tags).unwrap_err().reason(), Reason::SystemTable);
    // "a set-up list runs out of bytes or has bytes left over"
    for list in [&b""[..], &[1], &[1, 1, b'A', 0], &[1, 1, b'A', 0, 0, 0]] {
        assert_eq!(Recorder::new().begin_in_file_form(list, &[0; 4]).unwrap_err().reason(), Reason::Sheet);
    }
}

#[test]
fn frames_of_another_shape() {
    let mut recorder = Recorder::new();
    recorder.begin(&[("A", b""), ("B", b"")], &[]).unwrap();
    let huge = vec![0; 16_777_217];
    let shapes: Vec<Vec<&[u8]>> = vec![vec![], vec![b""], vec![b""; 3], vec![b""; 100_000], vec![b"", &huge]];
    for shape in shapes {
        assert_eq!(recorder.add(0, 0, &shape).unwrap_err().reason(), Reason::FrameShape, "{} sections", shape.len());
    }
    assert_eq!(recorder.add_in_file_form(0, 0, &[0; 7]).unwrap_err().reason(), Reason::FrameShape);
    assert_eq!(recorder.add_in_file_form(0, 0, &[0; 9]).unwrap_err().reason(), Reason::FrameShape);
    assert!(recorder.add_in_file_form(0, 0, &[0; 8]).is_ok());
    assert!(recorder.add(0, 0, &[b"", b"ab"]).is_ok());
}

#[test]
fn times_at_their_edges() {
    let mut recorder = running();
    recorder.add(i64::MIN, 0, &[b""]).unwrap();
    assert_eq!(recorder.add(i64::MAX, 0, &[b""]).unwrap_err().reason(), Reason::Clock);
    assert_eq!(recorder.add(i64::MIN + 4_294_967_296, 0, &[b""]).unwrap_err().reason(), Reason::Clock);
    assert!(recorder.add(i64::MIN + 4_294_967_295, 0, &[b""]).is_ok());
}

#[test]
fn stages_take_their_calls_only() {
    let mut recorder = Recorder::new();
    assert_eq!(recorder.add(0, 0, &[]).unwrap_err().reason(), Reason::Stage);
    assert_eq!(recorder.close().unwrap_err().reason(), Reason::Stage);
    recorder.begin(&[("A", b"")], &[]).unwrap();
    assert_eq!(recorder.begin(&[("A", b"")], &[]).unwrap_err().reason(), Reason::Stage);
    recorder.close().unwrap();
    assert_eq!(recorder.add(0, 0, &[b""]).unwrap_err().reason(), Reason::Stage);
    for _ in 1..5 {
        recorder.close().unwrap();
    }
    assert_eq!(recorder.close().unwrap_err().reason(), Reason::Stage);
}

#[test]
fn sheets_that_are_none() {
    let long = "x".repeat(256);
    let mut sheets = Vec::new();
    for (name, value) in [("", "A"), ("é", "A"), ("A", "\n"), (long.as_str(), "A"), ("A", long.as_str())] {
        let mut sheet = Sheet::new();
        sheet.change(name).seen(None).set(value);
        sheets.push(sheet);
    }
    let mut twice = Sheet::new();
    twice.change("A").seen(None).set("1");
    twice.change("A").seen(None).remove();
    sheets.push(twice);
    for changes in [65, 255, 256, 257, 320] {
        let mut sheet = Sheet::new();
        for number in 0..changes {
            sheet.change(&format!("T{number}")).seen(None).remove();
        }
        assert_eq!(sheet.len(), changes);
        sheets.push(sheet);
    }
    for sheet in sheets {
        assert_eq!(look(&WHOLE, &sheet).unwrap_err().reason(), Reason::Sheet, "{sheet:?}");
        assert_eq!(commit(&WHOLE, &sheet).unwrap_err().reason(), Reason::Sheet, "{sheet:?}");
        // 1 to 7 are ahead of 10
        assert_eq!(look(&WHOLE[..97], &sheet).unwrap_err().reason(), Reason::UserTable);
        assert_eq!(commit(&WHOLE[..97], &sheet).unwrap_err().reason(), Reason::UserTable);
    }
}

#[test]
fn repairs_that_are_refused() {
    assert_eq!(repair(b"").unwrap_err().reason(), Reason::NotFstf);
    assert_eq!(repair(&with(4, 9)).unwrap_err().reason(), Reason::Revision);
    assert_eq!(repair(&with(33, 9)).unwrap_err().reason(), Reason::Sections);
    let mut file = recorded(&[("A", b"")], &[], &[(7, 0, vec![b""]), (8, 0, vec![b""])]);
    assert_eq!(repair(&file).unwrap_err().reason(), Reason::Whole);
    // The first frame stands behind 33 + 1 + 1 + 1 + 8 + 4 = 48 bytes; its time, behind the mark, becomes 9: the second is before it.
    assert_eq!(file[52], 7);
    file[52] = 9;
    assert_eq!(Recording::open(&file).unwrap_err().reason(), Reason::Index);
    assert_eq!(repair(&file).unwrap_err().reason(), Reason::Clock);
}
