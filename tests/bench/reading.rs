//! Frames and parts of files, and tags of tables. Each side's answer is the sum of places and lengths.

use crate::build::*;
use crate::calls;
use crate::inputs::*;
use crate::measure::*;
use crate::raw::*;
use crate::verdict::*;
use rival::Item;

fn frame_sum(frame: FstfFrame) -> u64 {
    assert_eq!(frame.refused, 0);
    frame.start + frame.length + frame.time as u64 + frame.exposure
}

fn their_frame_sum(frame: Result<rival::Frame, rival::Refusal>) -> u64 {
    frame.map_or(0, |frame| frame.place + frame.length + frame.time as u64 + u64::from(frame.exposure))
}

fn rows_of_frames(report: &mut Report) {
    let (file, _) = file_of(1000, |_| 2);
    report.row("frame 999 of 1,000 frames of 22 bytes, opening included", &["frame"], ROW, &mut || {
        measure(&FULL, &mut || frame_sum(calls::frame(&file, 999)), &mut || their_frame_sum(rival::frame(&file, 999)))
    });
    let opened = calls::open(&file);
    let held = rival::hold(&file).unwrap();
    report.row("1,000 frames of 22 bytes of an opened file, one after another", &["frame_of"], ROW, &mut || {
        measure(&FULL, &mut || (0..1000).map(|i| frame_sum(calls::frame_of(&file, opened, i))).sum(), &mut || {
            (0..1000).map(|i| their_frame_sum(rival::frame_of(&file, &held, i))).sum()
        })
    });
}

/// Items of a file: a kind of the C face, its two numbers, and the same item for the rival.
type Asked = (u64, u64, u64, Item);

fn part_sum(part: FstfPart) -> u64 {
    assert_eq!(part.refused, 0);
    part.start + part.length
}

fn their_part_sum(part: Result<(u64, u64), rival::Refusal>) -> u64 {
    part.map_or(0, |(start, length)| start + length)
}

/// The items, by a call that opens the file for each of them.
fn parts(file: &[u8], asked: &[Asked]) -> Times {
    measure(
        &FULL,
        &mut || asked.iter().map(|&(kind, i, j, _)| part_sum(calls::part(file, kind, i, j))).sum(),
        &mut || asked.iter().map(|&(_, _, _, item)| their_part_sum(rival::part(file, item))).sum(),
    )
}

/// The items, by an opening that went ahead.
pub fn parts_of(effort: &Effort, file: &[u8], asked: &[Asked]) -> Times {
    let opened = calls::open(file);
    let held = rival::hold(file).unwrap();
    measure(
        effort,
        &mut || asked.iter().map(|&(kind, i, j, _)| part_sum(calls::part_of(file, opened, kind, i, j))).sum(),
        &mut || asked.iter().map(|&(_, _, _, item)| their_part_sum(rival::part_of(file, &held, item))).sum(),
    )
}

/// Eight sections with a name of 8 bytes, a configuration of 100 and 2 bytes in each of a thousand frames; a thousand tags in both tables.
fn full_file() -> Vec<u8> {
    let section = |i| Section { name: format!("SECTION{}", i).into_bytes(), configuration: vec![7; 100] };
    let frame = |time| Frame { time, exposure: 40, sections: vec![vec![0x34, 0x12]; 8] };
    let recording = Recording {
        sections: (0..8).map(section).collect(),
        system: named_tags(1000, short_name),
        frames: (0..1000).map(frame).collect(),
        user: named_tags(1000, short_name),
    };
    recording.file().bytes
}

fn rows_of_parts(report: &mut Report) {
    let file = full_file();
    let section = |i| (FSTF_SECTION, i, 7, Item::Section(i, 7));
    let name = |i| (FSTF_SECTION_NAME, i, 0, Item::SectionName(i));
    let configuration = |i| (FSTF_CONFIGURATION, i, 0, Item::Configuration(i));
    let eight: Vec<Asked> = (0..8).map(name).chain((0..8).map(configuration)).collect();
    let system =
        [(FSTF_SYSTEM_NAME, 999, 0, Item::SystemName(999)), (FSTF_SYSTEM_VALUE, 999, 0, Item::SystemValue(999))];
    let user = [(FSTF_USER_NAME, 999, 0, Item::UserName(999)), (FSTF_USER_VALUE, 999, 0, Item::UserValue(999))];
    let both: [(&str, &[Asked]); 3] = [
        ("names and configurations of 8 sections", &eight),
        ("name and value of the last of 1,000 system tags", &system),
        ("name and value of the last of 1,000 user tags", &user),
    ];
    let times = &mut || parts(&file, &[section(999)]);
    report.row("the last of 8 sections of frame 999, opening included", &["part"], ROW, times);
    for (name, asked) in both {
        report.row(&format!("{}, opening included", name), &["part"], ROW, &mut || parts(&file, asked));
    }
    let last: Vec<Asked> = (0..1000).map(section).collect();
    let times = &mut || parts_of(&FULL, &file, &last);
    report.row("the last of 8 sections of 1,000 frames, of an opened file", &["part_of"], ROW, times);
    for (name, asked) in both {
        report.row(&format!("{}, of an opened file", name), &["part_of"], ROW, &mut || parts_of(&FULL, &file, asked));
    }
}

fn tag_sum(tag: FstfTag) -> u64 {
    assert_eq!(tag.refused, 0);
    tag.name + tag.name_length + tag.value + tag.value_length
}

fn their_tag_sum(tag: Result<Option<rival::Tag>, rival::Refusal>) -> u64 {
    tag.unwrap().map_or(0, |tag| tag.name + tag.name_length + tag.value + tag.value_length)
}

pub fn by_name(effort: &Effort, table: &[u8], name: &[u8]) -> Times {
    measure(effort, &mut || tag_sum(calls::tag_named(table, name)), &mut || {
        their_tag_sum(rival::tag_named(table, name))
    })
}

/// The value lengths and places of all tags, added up: each tag is read behind the one before.
pub fn listing(effort: &Effort, table: &[u8]) -> Times {
    measure(
        effort,
        &mut || {
            let mut sum = 0;
            let mut at = calls::first_tag(table);
            while at.found != 0 {
                sum += at.value + at.value_length;
                at = calls::next_tag(table, at);
            }
            sum
        },
        &mut || {
            let mut sum = 0;
            let mut next = rival::first_tag(table).unwrap_or(None);
            while let Some(at) = next {
                sum += at.tag.value + at.tag.value_length;
                next = rival::next_tag(table, at);
            }
            sum
        },
    )
}

fn rows_of_tables(report: &mut Report) {
    let tags = named_tags(1000, short_name);
    let table = table(&tags).bytes;
    let both = &["first_tag", "next_tag"];
    report.row("1,000 tags of a table, one after another", both, ROW, &mut || listing(&FULL, &table));
    report.row("the last of 1,000 tags of a table, by its number", &["tag_at"], ROW, &mut || {
        measure(&FULL, &mut || tag_sum(calls::tag_at(&table, 999)), &mut || their_tag_sum(rival::tag_at(&table, 999)))
    });
    let times = &mut || by_name(&FULL, &table, &tags[999].name);
    report.row("the last of 1,000 tags of a table, by its name", &["tag_named"], ROW, times);
}

pub fn rows(report: &mut Report) {
    rows_of_tables(report);
    rows_of_frames(report);
    rows_of_parts(report);
}
