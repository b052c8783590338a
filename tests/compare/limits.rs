//! The largest of everything, and one more.

use crate::build::*;
use crate::files;
use crate::random::Random;
use crate::raw::FstfRecorder;
use crate::sides::Sides;

const SECTION_LIMIT: usize = 16_777_216;
const FRAME_LIMIT: usize = 1_000_000;
const LARGEST_SHEET: usize = 1 + 64 * (256 + 257 + 257);

/// A section of 16,777,216 bytes and of one more: added, and in files that are opened, read and repaired.
pub fn large_sections(sides: &mut Sides, random: &mut Random) {
    for length in [SECTION_LIMIT, SECTION_LIMIT + 1] {
        let mut recording = worked();
        recording.frames.push(Frame { time: 1000, exposure: 1, sections: vec![random.bytes(length)] });
        recording.frames.push(Frame { time: 1001, exposure: 2, sections: vec![vec![7]] });
        let sections = sizes(&recording.frames[1].sections).bytes;
        let state = FstfRecorder { stage: 1, piece: 0, sections: 1, frames: 1, first: 1000, last: 1000, end: 74 };
        let notes = random.bytes(40);
        for room in [length + 20, length + 19, length + 21, 0] {
            let out = random.bytes(room);
            sides.add(state, 1000, 1, &sections, &notes, &out);
        }
        let file = recording.file().bytes;
        let opened = sides.open(&file);
        for i in 0..4 {
            sides.frame(&file, opened, i);
            sides.part(&file, opened, 0, i, 0);
            sides.part(&file, opened, 0, i, 1);
        }
        let unclosed = recording.unclosed().bytes;
        for cut in [0, 1, 25, 26, 27] {
            files::repair(sides, random, &unclosed[..unclosed.len() - cut]);
        }
    }
}

/// Tables of 1,000 tags and of one more, as system and as user table, in files and alone.
pub fn full_tables(sides: &mut Sides, random: &mut Random) {
    for count in [1000, 1001] {
        let many = tags(random, count);
        let bytes = table(&many).bytes;
        for number in [0, 1, 500, 999, 1000, 1001, u64::MAX] {
            sides.tag_at(&bytes, number);
        }
        for tag in [&many[0], &many[999], &many[count - 1]] {
            sides.tag_named(&bytes, &tag.name);
            sides.tag_named(&bytes, b"not in the table, I think");
        }
        let state = sides.fresh();
        let list = setup(&smallest().sections).bytes;
        let out = random.bytes(bytes.len() + 100);
        sides.begin(state, &list, &bytes, &[1; 9], &out);
        for (system, user) in [(many.clone(), Vec::new()), (Vec::new(), many.clone())] {
            let recording = Recording { system, user, ..worked() };
            let file = recording.file().bytes;
            let opened = sides.open(&file);
            for i in [0, 999, 1000] {
                for kind in 3..7 {
                    sides.part(&file, opened, kind, i, 0);
                }
            }
            files::repair(sides, random, &file);
            files::repair(sides, random, &recording.unclosed().bytes);
        }
    }
}

/// The largest sheets, by ones who looked and by ones who did not: 64 changes, with names and values of 255 bytes. Converted they are of equal length.
pub fn largest_sheets(sides: &mut Sides, random: &mut Random) {
    let longest = |first: u8| -> Vec<u8> { (0..255).map(|i| first + i % 40).collect() };
    let value = longest(60);
    let names: Vec<Vec<u8>> = (0..64).map(|i| [&[33 + i], &longest(50)[1..]].concat()).collect();
    let user: Vec<Tag> = names.iter().map(|name| Tag { name: name.clone(), value: value.clone() }).collect();
    let file = Recording { user, ..smallest() }.file().bytes;
    for looked_at in [0, 1, 63, 64] {
        let mut old = vec![64];
        for (place, name) in names.iter().enumerate() {
            let value = [&[1, 255], &value[..]].concat();
            let seen: &[u8] = if place < looked_at { &value } else { &[2] };
            old.extend([&[255], &name[..], seen, &value].concat());
        }
        let looked = sides.look(&file, &old);
        for room in [LARGEST_SHEET, LARGEST_SHEET - 1, LARGEST_SHEET + 1, 0] {
            let (converted, new) = sides.convert(&file, &old, looked, &random.bytes(room));
            let answer = if room < LARGEST_SHEET { (9, 0) } else { (0, LARGEST_SHEET as u64) };
            sides.known((converted.refused, converted.length) == answer, "the largest sheet has 49,281 bytes", &old);
            if converted.refused == 0 {
                let new = &new[..LARGEST_SHEET];
                let looked = sides.look(&file, new);
                let out = random.bytes(file.len() + old.len());
                sides.commit_of_converted(&file, &old, new, looked, &out);
            }
        }
    }
}

/// Configurations of 65,535 bytes and of one more, at each of three sections, and eight of the largest.
pub fn large_configurations(sides: &mut Sides, random: &mut Random) {
    for length in [65_535, 65_536] {
        for at in 0..3 {
            let mut recording = worked();
            recording.sections = (0..3)
                .map(|i| Section {
                    name: format!("S{}", i).into_bytes(),
                    configuration: random.bytes(if i == at { length } else { i }),
                })
                .collect();
            recording.frames.clear();
            let file = recording.file().bytes;
            let opened = sides.open(&file);
            for i in 0..4 {
                sides.part(&file, opened, 2, i, 0);
            }
            files::repair(sides, random, &recording.unclosed().bytes);
        }
    }
    let sections: Vec<Section> =
        (0..8).map(|i| Section { name: vec![b'A' + i; 255], configuration: random.bytes(65_535) }).collect();
    let many = tags(random, 1000);
    let recording = Recording { sections, system: many, frames: Vec::new(), user: Vec::new() };
    let state = sides.fresh();
    let front = recording.unclosed().bytes;
    let list = setup(&recording.sections).bytes;
    let system = table(&recording.system).bytes;
    for room in [front.len(), front.len() - 1, front.len() + 9] {
        let out = random.bytes(room);
        sides.begin(state, &list, &system, &[9; 4], &out);
    }
    sides.open(&recording.file().bytes);
}

/// Files of 1,000,000 frames and of one more, and the recorder's state there.
pub fn many_frames(sides: &mut Sides, random: &mut Random) {
    let mut recording = worked();
    recording.frames = (0..FRAME_LIMIT as i64)
        .map(|i| Frame { time: i / 3, exposure: i as u32, sections: vec![Vec::new()] })
        .collect();
    for more in 0..2 {
        if more == 1 {
            recording.frames.push(Frame { time: 1 << 30, exposure: 9, sections: vec![vec![1]] });
        }
        let file = recording.file().bytes;
        let opened = sides.open(&file);
        for i in [0, 500_000, 999_999, 1_000_000, 1_000_001] {
            sides.frame(&file, opened, i);
        }
        sides.part(&file, opened, 0, 999_999, 0);
        let unclosed = recording.unclosed().bytes;
        for cut in [0, 1] {
            let cut_file = &unclosed[..unclosed.len() - cut];
            sides.repair(cut_file, &random.bytes(16 * FRAME_LIMIT + 30));
            sides.repair(cut_file, &random.bytes(16 * FRAME_LIMIT + 7));
        }
        // The header's count alone: the frames before the last, and one that is not there.
        for count in [FRAME_LIMIT as u64 - 1, FRAME_LIMIT as u64, FRAME_LIMIT as u64 + 1] {
            let mut nudged = file.clone();
            set_number(&mut nudged, 5, 4, count);
            sides.open(&nudged);
        }
    }
    let full = 4 + 16 * FRAME_LIMIT;
    for frames in [FRAME_LIMIT as u64 - 1, FRAME_LIMIT as u64] {
        let state = FstfRecorder { stage: 1, piece: 0, sections: 1, frames, first: 0, last: 9, end: 1 << 30 };
        for room in [full, full - 1, full + 1] {
            let notes = random.bytes(room);
            sides.add(state, 9, 1, &[1, 0, 0, 0, 5], &notes, &[0; 30]);
            let out = random.bytes(full);
            sides.close(state, &notes, &out);
        }
    }
}

/// Recordings of more than 1 MiB, of which repair keeps lengths: of frames of one length, of many lengths, and of one length but for one; of fewer than
/// 10,000 frames and of more. They are cut here and there, and one time is broken.
pub fn long_recordings(sides: &mut Sides, random: &mut Random) {
    let lengths: [fn(usize, usize) -> usize; 4] =
        [|_, _| 130, |i, _| 100 + 37 * i % 61, |i, frames| if 2 * i == frames { 7 } else { 130 }, |i, _| if i == 0 { 7 } else { 130 }];
    for frames in [9_998, 10_000, 10_002, 12_000] {
        for length in lengths {
            let mut recording = worked();
            recording.frames = (0..frames)
                .map(|i| Frame { time: i as i64 / 2, exposure: 40, sections: vec![random.bytes(length(i, frames))] })
                .collect();
            let file = recording.file().bytes;
            sides.open(&file);
            let unclosed = recording.unclosed().bytes;
            for cut in [0, 1, 130, 150, 300_000] {
                let cut_file = &unclosed[..unclosed.len() - cut];
                sides.repair(cut_file, &random.bytes(16 * frames + 30));
                sides.repair(cut_file, &random.bytes(16 * frames - 100));
            }
            recording.frames[frames - 3].time = -1;
            sides.repair(&recording.unclosed().bytes, &random.bytes(16 * frames + 30));
        }
    }
}
