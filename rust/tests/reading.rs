//! Reading a recording of several sections, frames and tags.

mod common;

use common::{recorded, tagged, WHOLE};
use suljanko::{calls, commit, raw, Reason, Recording, Section, Sheet, Tag};

/// Two sections, one of them with a configuration, two system tags, three frames.
fn evening() -> Vec<u8> {
    recorded(
        &[("IMAGE", b"64x48"), ("STATUS2", b"")],
        &[("CAMERA", "QHY 174"), ("NOTE", "")],
        &[
            (-5, 40, vec![b"stars", b""]),
            // the mark of a frame inside pixels makes no frame
            (-5, u32::MAX, vec![&[0xFF, 0x22, 0x01, 0xEE], b"ok"]),
            (10_000, 0, vec![b"", b"clouds"]),
        ],
    )
}

#[test]
fn frames_hold_what_was_recorded() {
    let file = evening();
    let recording = Recording::open(&file).unwrap();
    let heads: Vec<_> = recording.frames().map(|f| (f.number(), f.time(), f.exposure())).collect();
    assert_eq!(heads, [(0, -5, 40), (1, -5, u32::MAX), (2, 10_000, 0)]);
    // 16 bytes of a head, and 4 of each size
    let lengths: Vec<_> = recording.frames().map(|f| f.length()).collect();
    assert_eq!(lengths, [24 + 5, 24 + 6, 24 + 6]);
    for pair in recording.frames().collect::<Vec<_>>().windows(2) {
        assert_eq!(pair[0].place() + pair[0].length(), pair[1].place());
    }
    let bytes: Vec<Vec<_>> = recording.frames().map(|f| f.sections().collect()).collect();
    assert_eq!(bytes, [[&b"stars"[..], b""], [&[0xFF, 0x22, 0x01, 0xEE], b"ok"], [b"", b"clouds"]]);
}

#[test]
fn frames_from_any_end() {
    let file = evening();
    let recording = Recording::open(&file).unwrap();
    let numbers: Vec<_> = recording.frames().rev().map(|f| f.number()).collect();
    assert_eq!(numbers, [2, 1, 0]);
    assert_eq!(recording.frames().nth(2).map(|f| f.number()), Some(2));
    assert!(recording.frames().nth(3).is_none());
    assert_eq!(recording.frames().len(), 3);
    assert_eq!(recording.frame(2).unwrap().section(1), Ok(&b"clouds"[..]));
}

#[test]
fn sections_have_names_and_configurations() {
    let file = evening();
    let recording = Recording::open(&file).unwrap();
    let sections: Vec<_> = recording.sections().collect();
    let image = Section { name: "IMAGE", configuration: b"64x48" };
    let status = Section { name: "STATUS2", configuration: b"" };
    assert_eq!(sections, [image, status]);
}

#[test]
fn parts_are_of_the_file_and_no_copies() {
    let file = evening();
    let recording = Recording::open(&file).unwrap();
    let section = recording.frame(2).unwrap().section(1).unwrap();
    assert!(file.as_ptr_range().contains(&section.as_ptr()));
    let name = recording.section_name(0).unwrap();
    assert!(file.as_ptr_range().contains(&name.as_ptr()));
}

#[test]
fn what_is_not_there() {
    let file = evening();
    let recording = Recording::open(&file).unwrap();
    for number in [3, 4, 1_000_000, usize::MAX] {
        assert_eq!(recording.frame(number).unwrap_err().reason(), Reason::NoSuchItem);
    }
    for number in [2, 8, usize::MAX] {
        assert_eq!(recording.section_name(number).unwrap_err().reason(), Reason::NoSuchItem);
        assert_eq!(recording.configuration(number).unwrap_err().reason(), Reason::NoSuchItem);
        assert_eq!(recording.frame(0).unwrap().section(number).unwrap_err().reason(), Reason::NoSuchItem);
    }
}

#[test]
fn tags_of_both_tables() {
    let file = evening();
    let mut sheet = Sheet::new();
    sheet.change("NOTE").seen(None).set("a clear night");
    let file = commit(&file, &sheet).unwrap().to_vec();
    let recording = Recording::open(&file).unwrap();
    let system: Vec<_> = recording.system_tags().collect();
    assert_eq!(system, [Tag { name: "CAMERA", value: "QHY 174" }, Tag { name: "NOTE", value: "" }]);
    let user: Vec<_> = recording.user_tags().collect();
    assert_eq!(user, [Tag { name: "NOTE", value: "a clear night" }]);
    // "The same name may stand in both tables"; absent and empty are different; `A` and `a` differ
    assert_eq!(recording.system_tag("NOTE"), Some(""));
    assert_eq!(recording.user_tag("NOTE"), Some("a clear night"));
    assert_eq!(recording.user_tag("CAMERA"), None);
    assert_eq!(recording.system_tag("camera"), None);
}

#[test]
fn a_thousand_tags_are_those_of_the_library() {
    let file = tagged(1000);
    let recording = Recording::open(&file).unwrap();
    assert_eq!(recording.user_tags().len(), 1000);
    let table = recording.user_table();
    for (number, tag) in recording.user_tags().enumerate() {
        assert_eq!((tag.name, tag.value), (&*format!("T{number}"), &*format!("V{number}")));
        let name = calls::part_of(&file, recording.opened(), raw::FSTF_USER_NAME, number as u64, 0);
        let value = calls::part_of(&file, recording.opened(), raw::FSTF_USER_VALUE, number as u64, 0);
        assert_eq!(part(&file, name), tag.name.as_bytes());
        assert_eq!(part(&file, value), tag.value.as_bytes());
    }
    for number in [0, 1, 500, 999] {
        let at = calls::tag_at(table, number);
        let named = calls::tag_named(table, format!("T{number}").as_bytes());
        assert_eq!((at.refused, at.found), (0, 1));
        assert_eq!(at, named);
        let value = &table[at.value as usize..(at.value + at.value_length) as usize];
        assert_eq!(value, format!("V{number}").as_bytes());
    }
    assert_eq!(calls::tag_at(table, 1000).found, 0);
    assert_eq!(recording.user_tag("T999"), Some("V999"));
    assert_eq!(recording.user_tag("T1000"), None);
}

fn part(file: &[u8], part: raw::FstfPart) -> &[u8] {
    assert_eq!(part.refused, 0);
    &file[part.start as usize..(part.start + part.length) as usize]
}

#[test]
fn tables_keep_their_order() {
    let file = tagged(3);
    let mut sheet = Sheet::new();
    sheet.change("NEW").seen(None).set("last");
    sheet.change("T1").seen(Some("V1")).set("");
    sheet.change("T0").seen(Some("V0")).remove();
    sheet.change("GONE").seen(None).remove();
    let file = commit(&file, &sheet).unwrap().to_vec();
    let recording = Recording::open(&file).unwrap();
    let tags: Vec<_> = recording.user_tags().map(|tag| (tag.name, tag.value)).collect();
    // "Kept tags keep their order and a changed tag its place; removed tags vanish; new ones come last in sheet order."
    assert_eq!(tags, [("T1", ""), ("T2", "V2"), ("NEW", "last")]);
}

#[test]
fn an_empty_sheet_leaves_the_file() {
    for file in [WHOLE.to_vec(), tagged(70), evening()] {
        assert!(Sheet::new().is_empty());
        assert_eq!(commit(&file, &Sheet::new()).unwrap().to_vec(), file);
    }
}
