//! Sheets: which tag breaks the rules, from forms, from bytes, and their changes one by one.

mod common;

use common::{tagged, WHOLE};
use suljanko::{
    calls, commit, look, Fault, Lent, Recorder, Recording, Refusal, Seen, Sheet, SheetChange, SheetFault, TagPart,
};

fn one(name: &str, seen: Option<&str>, new: &str) -> Sheet {
    let mut sheet = Sheet::new();
    sheet.change(name).seen(seen).set(new);
    sheet
}

/// What a commit's refusal points at, if it is refused 10; a look's is the same.
fn pointed(sheet: &Sheet) -> Option<SheetFault<'_>> {
    let refusal = commit(&WHOLE, sheet).err()?;
    assert_eq!(look(&WHOLE, sheet).err(), Some(refusal).filter(|refusal| refusal.number() == 10));
    sheet.fault_at(refusal)
}

/// The library's word on a sheet.
fn refused(sheet: &Sheet) -> bool {
    calls::look(&WHOLE, &sheet.to_vec()).refused == 10
}

#[test]
fn each_fault_is_told_with_its_tag() {
    let long = "x".repeat(256);
    let umlauts = "ä".repeat(128);
    let strings = [
        ("ä", Fault::Character { character: 'ä', place: 0 }),
        ("a\tb", Fault::Character { character: '\t', place: 1 }),
        ("line\n", Fault::Character { character: '\n', place: 4 }),
        ("\u{7f}", Fault::Character { character: '\u{7f}', place: 0 }),
        ("\u{1f}", Fault::Character { character: '\u{1f}', place: 0 }),
        (&long, Fault::TooLong { bytes: 256 }),
        (&umlauts, Fault::Character { character: 'ä', place: 0 }),
    ];
    for (string, fault) in strings {
        let sheets = [
            (TagPart::Name, one(string, None, "")),
            (TagPart::Seen, one("A", Some(string), "")),
            (TagPart::New, one("A", None, string)),
        ];
        for (part, sheet) in sheets {
            let faults = sheet.faults();
            assert_eq!(faults.len(), 1, "{faults:?}");
            assert_eq!((faults[0].place, faults[0].part, faults[0].fault), (0, part, fault));
            assert_eq!(Some(faults[0].name), sheet.name(0));
            assert!(refused(&sheet));
            assert_eq!(pointed(&sheet), Some(faults[0]));
        }
    }
    let sheet = one("", None, "");
    assert_eq!((sheet.faults()[0].part, sheet.faults()[0].fault), (TagPart::Name, Fault::Empty));
    assert!(refused(&sheet));
}

#[test]
fn a_name_used_twice_is_told_each_time() {
    let mut sheet = Sheet::new();
    for name in ["SITE", "NOTE", "SITE", "site", "SITE"] {
        sheet.change(name).seen(None).remove();
    }
    let faults: Vec<_> = sheet.faults().iter().map(|fault| (fault.place, fault.name, fault.fault)).collect();
    assert_eq!(faults, [(2, "SITE", Fault::Twice { first: 0 }), (4, "SITE", Fault::Twice { first: 0 })]);
    assert!(refused(&sheet));
    assert_eq!(sheet.faults()[0].to_string(), r#"change 2, tag "SITE": its name is that of change 0 too"#);
}

#[test]
fn more_than_64_changes_are_told_once() {
    let mut sheet = Sheet::new();
    for number in 0..64 {
        sheet.change(&format!("T{number}")).seen(None).remove();
    }
    assert!(sheet.faults().is_empty() && !refused(&sheet));
    for number in 64..300 {
        sheet.change(&format!("T{number}")).seen(None).remove();
        let faults = sheet.faults();
        assert_eq!((faults.len(), faults[0].place, faults[0].name), (1, 64, "T64"));
        assert_eq!(faults[0].fault, Fault::TooMany { changes: number + 1 });
        assert!(refused(&sheet));
        assert_eq!(pointed(&sheet), Some(faults[0]));
    }
}

#[test]
fn a_refusal_points_at_the_first_fault() {
    let mut sheet = Sheet::new();
    sheet.change("SITE").seen(Some("Inari")).set("Enontekiö");
    sheet.change("").seen(None).remove();
    let refusal = commit(&WHOLE, &sheet).unwrap_err();
    // 1 and 4 letters, kind and 1 and 5 letters, kind and length, 8 letters: the first of the two bytes of the ö
    assert_eq!((refusal.number(), refusal.place()), (10, Some(1 + 5 + 7 + 2 + 8)));
    let fault = sheet.fault_at(refusal).unwrap();
    assert_eq!((fault.place, fault.name, fault.part), (0, "SITE", TagPart::New));
    assert_eq!(fault.fault, Fault::Character { character: 'ö', place: 8 });
    // the same by the two numbers alone, and by the bytes of the sheet
    assert_eq!(sheet.fault_at(Refusal::of(10, 23).unwrap()), Some(fault));
    let spot = refusal.spot(&sheet.to_vec()).unwrap().to_string();
    assert_eq!(spot, r#"change 0, "SITE": character 8 of its new value, byte 0xC3"#);
    assert_eq!(Sheet::from_bytes(&sheet.to_vec()), Err(refusal));
    // too many changes are told where the library tells them, ahead of the others
    for number in 0..70 {
        sheet.change(&format!("T{number}")).seen(None).remove();
    }
    assert_eq!(commit(&WHOLE, &sheet).unwrap_err().place(), Some(0));
    assert_eq!(pointed(&sheet).map(|fault| fault.fault), Some(Fault::TooMany { changes: 72 }));
    assert_eq!(sheet.faults().len(), 3);
}

#[test]
fn other_refusals_point_at_no_fault() {
    let sheet = one("A", Some("x"), "y");
    let conflict = commit(&WHOLE, &sheet).unwrap_err();
    let not_opened = commit(&WHOLE[..97], &sheet).unwrap_err();
    let list = Recorder::new().begin_in_file_form(&[], &[]).unwrap_err();
    assert_eq!((conflict.number(), not_opened.number(), list.number()), (11, 7, 10));
    assert_eq!(list.position().map(|position| position.lent), Some(Lent::SetUp));
    for sheet in [sheet, one("", None, "")] {
        for refusal in [conflict, not_opened, list] {
            assert_eq!(sheet.fault_at(refusal), None);
        }
        // a place that is not of this sheet
        assert_eq!(sheet.fault_at(Refusal::of(10, u64::MAX).unwrap()), None);
    }
}

#[test]
fn a_sheet_without_a_form_is_led_to_its_first_fault() {
    let long = "x".repeat(256);
    let mut sheet = one("A", None, &long);
    let refusal = commit(&WHOLE, &sheet).unwrap_err();
    assert_eq!((refusal.number(), refusal.place(), sheet.to_vec().len()), (10, Some(0), 0));
    assert_eq!(pointed(&sheet).map(|fault| fault.fault), Some(Fault::TooLong { bytes: 256 }));
    sheet.change("A").seen(None).set("\t");
    assert_eq!(pointed(&sheet), sheet.faults().first().copied());
    // one that is ahead of it comes first
    let mut sheet = one("A", None, "\t");
    sheet.change(&long).seen(None).remove();
    assert_eq!(pointed(&sheet).map(|fault| fault.fault), Some(Fault::Character { character: '\t', place: 0 }));
}

#[test]
fn what_is_legal_has_no_fault() {
    let long = "~".repeat(255);
    for sheet in [Sheet::new(), one(" ", Some(""), ""), one(&long, Some(&long), &long), one("A", None, "a b ~ !")] {
        assert_eq!(sheet.faults(), []);
        assert!(!refused(&sheet));
    }
}

#[test]
fn faults_are_what_the_library_refuses() {
    let strings = ["", "A", "B", "a b", "~", "ä", "\t", "\u{7f}", "\u{0}", "a\tb", "abcdö", "~€~"].map(str::to_string);
    let strings: Vec<_> = strings.into_iter().chain([255, 256, 511].map(|length| "y".repeat(length))).collect();
    let mut seed = 0x5eed_u64;
    let mut below = |limit: usize| {
        seed = seed.wrapping_mul(6_364_136_223_846_793_005).wrapping_add(1_442_695_040_888_963_407);
        (seed >> 33) as usize % limit
    };
    let (mut legal, mut broken) = (0, 0);
    for _ in 0..6000 {
        let mut sheet = Sheet::new();
        for _ in 0..below(6) {
            // mostly good ones
            let mut pick = || strings[if below(4) == 0 { below(strings.len()) } else { 1 + below(4) }].as_str();
            let (name, seen, new) = (pick(), pick(), pick());
            match below(3) {
                0 => sheet.change(name).seen(Some(seen)).set(new),
                1 => sheet.change(name).seen(Some(seen)).remove(),
                _ => sheet.change(name).seen(None).set(new),
            }
        }
        assert_eq!(sheet.faults().is_empty(), !refused(&sheet), "{sheet:?}");
        // the library's position, by the commit and by the bytes, is that of the first fault
        assert_eq!(pointed(&sheet), sheet.faults().first().copied(), "{sheet:?}");
        match Sheet::from_bytes(&sheet.to_vec()) {
            Ok(again) => {
                legal += 1;
                assert_eq!(again, sheet);
            }
            Err(refusal) => {
                broken += 1;
                assert_eq!(refusal.number(), 10);
                assert!(refused(&sheet));
                assert_eq!(sheet.fault_at(refusal), sheet.faults().first().copied(), "{sheet:?}");
            }
        }
    }
    assert!(legal > 500 && broken > 500, "{legal} legal, {broken} broken");
}

#[test]
fn bytes_that_are_no_sheet() {
    let sheet = one("SITE", Some("A"), "B").to_vec();
    assert_eq!(Sheet::from_bytes(&sheet).unwrap(), one("SITE", Some("A"), "B"));
    assert_eq!(Sheet::from_bytes(&[0]).unwrap(), Sheet::new());
    for length in 0..sheet.len() {
        assert_eq!(Sheet::from_bytes(&sheet[..length]).unwrap_err().number(), 10, "{length} bytes");
    }
    let longer = [&sheet[..], &[0]].concat();
    let kinds = [[1, 1, b'A', 2, 0], [1, 1, b'A', 3, 0], [1, 1, b'A', 0, 2], [1, 1, 9, 0, 0]];
    for bytes in kinds.iter().map(|bytes| &bytes[..]).chain([&[1, 0, 0, 0][..], &longer]) {
        assert_eq!(Sheet::from_bytes(bytes).unwrap_err().number(), 10, "{bytes:?}");
    }
}

#[test]
fn the_changes_one_by_one() {
    let mut sheet = Sheet::new();
    sheet.change("A").seen(None).set("1");
    sheet.change("B").seen(Some("2")).remove();
    sheet.change("C").seen(Some("")).set("");
    let changes = [
        SheetChange { name: "A", seen: Seen::Absent, new: Some("1") },
        SheetChange { name: "B", seen: Seen::Value("2"), new: None },
        SheetChange { name: "C", seen: Seen::Value(""), new: Some("") },
    ];
    assert_eq!(sheet.changes().len(), 3);
    assert!(sheet.changes().eq(changes));
    assert!(Sheet::from_bytes(&sheet.to_vec()).unwrap().changes().eq(changes));
    assert_eq!(Sheet::new().changes().next(), None);
}

#[test]
fn a_form_before_and_after() {
    let before = [("SITE", "Inari"), ("NOTE", "wind"), ("OBSERVER", "Aino"), ("EMPTY", "")];
    let after = [("NEW", "1"), ("OBSERVER", "Aino and Veli"), ("NOTE", "wind"), ("EMPTY", ""), ("LAST", "")];
    let sheet = Sheet::from_form(&before, &after);
    let changes = [
        SheetChange { name: "SITE", seen: Seen::Value("Inari"), new: None },
        SheetChange { name: "OBSERVER", seen: Seen::Value("Aino"), new: Some("Aino and Veli") },
        SheetChange { name: "NEW", seen: Seen::Absent, new: Some("1") },
        SheetChange { name: "LAST", seen: Seen::Absent, new: Some("") },
    ];
    assert!(sheet.changes().eq(changes), "{sheet:?}");
    assert!(Sheet::from_form(&before, &before).is_empty());
    assert!(Sheet::from_form(&[], &[]).is_empty());
}

#[test]
fn a_form_is_committed_to_what_it_holds() {
    let file = tagged(5);
    let before: Vec<_> = Recording::open(&file).unwrap().user_tags().map(|tag| (tag.name, tag.value)).collect();
    let mut after = before.clone();
    after.remove(1);
    after[2].1 = "changed";
    after.push(("T9", "new"));
    let file = commit(&file, &Sheet::from_form(&before, &after)).unwrap().to_vec();
    let tags: Vec<_> = Recording::open(&file).unwrap().user_tags().map(|tag| (tag.name, tag.value)).collect();
    assert_eq!(tags, after);
}

#[test]
fn another_members_tag_stays() {
    let file = tagged(2);
    let before = [("T0", "V0"), ("T1", "V1")];
    let aino = Sheet::from_form(&before, &[("T0", "Aino"), ("T1", "V1")]);
    let veli = Sheet::from_form(&before, &[("T0", "V0"), ("T1", "Veli")]);
    let file = commit(&file, &aino).unwrap().to_vec();
    let file = commit(&file, &veli).unwrap().to_vec();
    let recording = Recording::open(&file).unwrap();
    assert_eq!((recording.user_tag("T0"), recording.user_tag("T1")), (Some("Aino"), Some("Veli")));
    // the same tag is told
    let late = Sheet::from_form(&before, &[("T0", "late"), ("T1", "V1")]);
    assert_eq!(commit(&file, &late).unwrap_err().number(), 11);
}

#[test]
fn a_name_twice_in_a_form_is_told() {
    let before = [("SITE", "A")];
    // also where one of them is what was shown
    let forms: [&[(&str, &str)]; 3] =
        [&[("SITE", "A"), ("SITE", "B")], &[("SITE", "A"), ("SITE", "A")], &[("SITE", "A"), ("N", "1"), ("N", "1")]];
    for after in forms {
        let sheet = Sheet::from_form(&before, after);
        assert_eq!(sheet.faults().len(), 1, "{sheet:?}");
        assert!(matches!(sheet.faults()[0].fault, Fault::Twice { .. }));
        assert!(refused(&sheet));
    }
    let sheet = Sheet::from_form(&[("SITE", "A"), ("SITE", "B")], &[("SITE", "A")]);
    assert!(matches!(sheet.faults()[0].fault, Fault::Twice { first: 0 }), "{sheet:?}");
}
