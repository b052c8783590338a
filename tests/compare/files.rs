//! Files, legal and not: opened, read, repaired, looked at with sheets, committed to, and old sheets converted by them.

use crate::build::*;
use crate::random::Random;
use crate::raw::FstfOpened;
use crate::sides::Sides;
use crate::tags;

fn kind(random: &mut Random) -> u64 {
    match random.below(24) {
        0 => random.next(),
        1 => u64::MAX,
        2 => 256,
        _ => random.below(9),
    }
}

/// One item, its number about the count that bounds it.
fn some_part(sides: &mut Sides, random: &mut Random, file: &[u8], opened: FstfOpened) {
    let kind = kind(random);
    let count = match kind {
        0 => opened.frames,
        1 | 2 => opened.sections,
        3 | 4 => opened.system_tags,
        _ => opened.user_tags,
    };
    let i = random.near(count);
    let j = random.near(opened.sections);
    sides.part(file, opened, kind, i, j);
}

/// Repair with ample room, and again around the answer's length.
pub fn repair(sides: &mut Sides, random: &mut Random, file: &[u8]) {
    // A frame is longer than its entry, so a tail is never longer than its file.
    let out = random.bytes(file.len());
    let (ample, _) = sides.repair(file, &out);
    let room = random.room(ample.tail as usize);
    let out = random.bytes(room);
    sides.repair(file, &out);
}

/// Opening, repair, and one of the other calls that take a file.
fn glance(sides: &mut Sides, random: &mut Random, file: &[u8], user: &[Tag]) {
    let opened = sides.open(file);
    repair(sides, random, file);
    match random.below(3) {
        0 => {
            let i = random.near(opened.frames);
            sides.frame(file, opened, i);
        }
        1 => some_part(sides, random, file, opened),
        _ => tags::some_save(sides, random, file, user),
    }
}

/// Every call that takes a file, some of them many times.
fn every_call(sides: &mut Sides, random: &mut Random, recording: &Recording, file: &[u8]) {
    let opened = sides.open(file);
    repair(sides, random, file);
    for _ in 0..3 {
        let i = random.near(opened.frames);
        sides.frame(file, opened, i);
        some_part(sides, random, file, opened);
        tags::some_save(sides, random, file, &recording.user);
    }
}

/// A legal file: all its frames and items are asked for, where they are few.
pub fn legal(sides: &mut Sides, random: &mut Random) {
    let recording = recording(random);
    let file = recording.file().bytes;
    every_call(sides, random, &recording, &file);
    let opened = sides.open(&file);
    let counts = [recording.frames.len(), recording.sections.len(), recording.system.len(), recording.user.len()];
    let reported = [opened.frames, opened.sections, opened.system_tags, opened.user_tags];
    sides.known(opened.refused == 0 && counts.map(|count| count as u64) == reported, "a legal file opens", &file);
    if recording.frames.len() + recording.system.len() + recording.user.len() > 30 {
        return;
    }
    for i in 0..=opened.frames {
        sides.frame(&file, opened, i);
        for j in 0..=opened.sections {
            sides.part(&file, opened, 0, i, j);
        }
    }
    for kind in 1..=7 {
        let count = match kind {
            1 | 2 => opened.sections,
            3 | 4 => opened.system_tags,
            _ => opened.user_tags,
        };
        for i in 0..=count {
            sides.part(&file, opened, kind, i, 0);
        }
    }
}

/// A legal file with bytes set at random places.
pub fn damaged(sides: &mut Sides, random: &mut Random) {
    let recording = recording(random);
    let whole = recording.file().bytes;
    for _ in 0..10 {
        let mut file = whole.clone();
        for _ in 0..=random.size(1) {
            let at = random.size(file.len() - 1);
            file[at] = random.next() as u8;
        }
        glance(sides, random, &file, &recording.user);
    }
}

fn nudged(random: &mut Random, value: u64) -> u64 {
    match random.below(8) {
        0..=2 => value.wrapping_add(1),
        3..=5 => value.wrapping_sub(1),
        6 => random.pick(&[0, 1, 1001, 1_000_001, 65_536, 16_777_217, 1 << 32, 1 << 40, 1 << 63, u64::MAX]),
        _ => value.wrapping_add(random.below(65_537)),
    }
}

/// A legal file, closed or not, with one or two of its numbers changed, most by one.
pub fn numbers_nudged(sides: &mut Sides, random: &mut Random) {
    let recording = recording(random);
    let written = if random.one_in(4) { recording.unclosed() } else { recording.file() };
    for _ in 0..10 {
        let mut file = written.bytes.clone();
        for _ in 0..=random.size(1) {
            // Front numbers decide most, and where tags are many they would be drawn too seldom.
            let among = if random.one_in(2) { written.fields.len().min(12) } else { written.fields.len() };
            let (at, width) = written.fields[random.size(among - 1)];
            let value = nudged(random, number(&file, at, width));
            set_number(&mut file, at, width, value);
        }
        glance(sides, random, &file, &recording.user);
    }
}

/// Names and values that may break their rule, in files whose offsets are all in order.
pub fn rules_bent(sides: &mut Sides, random: &mut Random) {
    let mut recording = recording(random);
    match random.below(3) {
        0 => bend_sections(random, &mut recording.sections),
        1 => bend_tags(random, &mut recording.system),
        _ => bend_tags(random, &mut recording.user),
    }
    let user = recording.user.clone();
    for file in [recording.file().bytes, recording.unclosed().bytes] {
        glance(sides, random, &file, &user);
    }
}

/// Frames whose times may break the rule, in closed and unclosed files.
pub fn times_bent(sides: &mut Sides, random: &mut Random) {
    let mut recording = recording(random);
    bend_time(random, &mut recording);
    let whole = recording.file().bytes;
    let unclosed = recording.unclosed().bytes;
    for file in [&whole, &unclosed] {
        glance(sides, random, file, &recording.user);
        let cut = random.size(file.len());
        glance(sides, random, &file[..cut], &recording.user);
    }
}

/// Random bytes behind a good front, or behind some of a good file.
pub fn random_behind(sides: &mut Sides, random: &mut Random) {
    let recording = recording(random);
    let written = recording.file();
    for _ in 0..8 {
        let keep = match random.below(4) {
            0 => 33,
            1 => random.size(written.bytes.len()),
            _ => random.pick(&written.starts),
        };
        let mut file = written.bytes[..keep].to_vec();
        let more = random.size(120);
        file.extend_from_slice(&random.bytes(more));
        if random.one_in(3) {
            // Small bytes are more often counts and lengths that fit.
            for byte in &mut file[keep..] {
                *byte &= 3;
            }
        }
        glance(sides, random, &file, &recording.user);
    }
}

/// The start of one file and the end of another, or of the same one, cut where structures start.
pub fn spliced(sides: &mut Sides, random: &mut Random) {
    let front = recording(random);
    let back = if random.one_in(3) { front.clone() } else { recording(random) };
    let head = front.file();
    let tail = if random.one_in(4) { back.unclosed() } else { back.file() };
    for _ in 0..8 {
        let keep = random.pick(&head.starts);
        let from = random.pick(&tail.starts);
        let mut file = head.bytes[..keep].to_vec();
        file.extend_from_slice(&tail.bytes[from..]);
        if random.one_in(2) {
            // Header fields that suit the new length are the ones that lead further.
            let user = file.len().saturating_sub(table(&back.user).bytes.len());
            set_number(&mut file, 25, 8, user as u64);
        }
        glance(sides, random, &file, &front.user);
    }
}

/// Bytes put in or taken out where a structure starts, with the header's offsets moved along: source 001 permits gaps, document 01 none.
pub fn gaps(sides: &mut Sides, random: &mut Random) {
    let recording = recording(random);
    let written = recording.file();
    for _ in 0..6 {
        let at = random.pick(&written.starts);
        let mut file = written.bytes.clone();
        let moved = 1 + random.size(3);
        let more = random.one_in(2);
        if more {
            let gap = if random.one_in(2) { vec![0; moved] } else { random.bytes(moved) };
            file.splice(at..at, gap);
        } else {
            let end = (at + moved).min(file.len());
            file.drain(at..end);
        }
        for place in [9, 17, 25] {
            let offset = number(&written.bytes, place, 8);
            // Where the structure itself starts, moved or not: either may be taken for the right reading.
            let behind = offset > at as u64 || offset == at as u64 && random.one_in(2);
            let step = if more { moved as u64 } else { (moved as u64).wrapping_neg() };
            if behind && file.len() >= 33 {
                set_number(&mut file, place, 8, offset.wrapping_add(step));
            }
        }
        glance(sides, random, &file, &recording.user);
    }
}

/// Frames of one number, an index of another, and a header that says either.
pub fn miscounted(sides: &mut Sides, random: &mut Random) {
    let all = recording(random);
    let mut some = all.clone();
    some.frames.truncate(random.size(all.frames.len()));
    let full = all.file().bytes;
    let part = some.file().bytes;
    let full_index = number(&full, 9, 8) as usize;
    let part_index = number(&part, 9, 8) as usize;
    let mut file = full[..full_index].to_vec();
    file.extend_from_slice(&part[part_index..]);
    let user = file.len() - table(&all.user).bytes.len();
    set_number(&mut file, 25, 8, user as u64);
    for count in [all.frames.len(), some.frames.len()] {
        for index in [full_index, part_index] {
            set_number(&mut file, 5, 4, count as u64);
            set_number(&mut file, 9, 8, index as u64);
            glance(sides, random, &file, &all.user);
        }
    }
}

/// Cuts of a file, closed or not, at random places.
pub fn cut(sides: &mut Sides, random: &mut Random) {
    let recording = recording(random);
    for written in [recording.file(), recording.unclosed()] {
        for _ in 0..4 {
            let length = if random.one_in(3) { random.pick(&written.starts) } else { random.size(written.bytes.len()) };
            glance(sides, random, &written.bytes[..length], &recording.user);
        }
    }
}

/// A recording cut before it was closed: repair gives the file that closing after its last whole frame would have given.
pub fn repaired(sides: &mut Sides, random: &mut Random) {
    let mut recording = recording(random);
    recording.user.clear();
    let unclosed = recording.unclosed().bytes;
    let front = Recording { frames: Vec::new(), ..recording.clone() }.unclosed().bytes.len();
    let cut = &unclosed[..front + random.size(unclosed.len() - front)];
    let out = random.bytes(cut.len());
    let (answer, left) = sides.repair(cut, &out);
    sides.known(answer.refused == 0, "a recording that was not closed is repaired", cut);
    if answer.refused != 0 {
        return;
    }
    let mut file = cut[..answer.kept as usize].to_vec();
    file.extend_from_slice(&left[..answer.tail as usize]);
    for (place, width, value) in [(5, 4, answer.count), (9, 8, answer.index), (25, 8, answer.user)] {
        set_number(&mut file, place, width, value);
    }
    while recording.unclosed().bytes.len() > cut.len() {
        recording.frames.pop();
    }
    sides.known(file == recording.file().bytes, "repair gives the file closed after its last whole frame", cut);
    sides.open(&file);
}

/// Each byte of the two smallest files set to each other value.
pub fn each_byte(sides: &mut Sides, random: &mut Random) {
    for recording in [smallest(), worked()] {
        let mut file = recording.file().bytes;
        for at in 0..file.len() {
            let good = file[at];
            for value in 0..=255 {
                file[at] = value;
                glance(sides, random, &file, &recording.user);
            }
            file[at] = good;
        }
    }
}

/// Each byte of a small file set to several values.
pub fn each_byte_of_small(sides: &mut Sides, random: &mut Random) {
    let recording = small(random);
    let mut file = recording.file().bytes;
    for at in 0..file.len() {
        let good = file[at];
        let drawn = random.next() as u8;
        for value in [good ^ 1, good.wrapping_add(1), good.wrapping_sub(1), 0, 255, drawn] {
            file[at] = value;
            let opened = sides.open(&file);
            if opened.refused > 4 {
                let out = random.bytes(file.len());
                sides.repair(&file, &out);
            }
            if opened.refused == 0 {
                some_part(sides, random, &file, opened);
            }
        }
        file[at] = good;
    }
}

/// Every cut of a closed and of an unclosed small file.
pub fn each_cut_of_small(sides: &mut Sides, random: &mut Random) {
    let recording = small(random);
    for file in [recording.file().bytes, recording.unclosed().bytes] {
        for length in 0..=file.len() {
            glance(sides, random, &file[..length], &recording.user);
        }
    }
}

/// Frames and items by numbers that are of no opening, or of another file's: answered within the file, or refused 8.
pub fn numbers_of_no_opening(sides: &mut Sides, random: &mut Random) {
    let file = recording(random).file().bytes;
    let other = recording(random).file().bytes;
    let own = sides.open(&file);
    for _ in 0..6 {
        let mut numbers = if random.one_in(3) { sides.open(&other) } else { own };
        for _ in 0..random.size(2) {
            let drawn = random.next();
            let about = file.len() as u64;
            let value = random.pick(&[0, 1, 8, 9, about, about + 1, 1_000_000, 1 << 60, u64::MAX, drawn]);
            let near = random.size(1) as u64;
            match random.below(9) {
                0 => numbers.frames = value,
                1 => numbers.sections = value,
                2 => numbers.system_tags = value,
                3 => numbers.user_tags = value,
                4 => numbers.system = value,
                5 => numbers.start = value,
                6 => numbers.index = value,
                7 => numbers.user = value,
                _ => numbers.index = numbers.index.wrapping_sub(near),
            }
        }
        if random.one_in(12) {
            numbers.refused = 1 + random.below(7);
            numbers.place = random.next();
        }
        let i = random.near(own.frames);
        sides.frame_of(&file, numbers, i);
        let kind = kind(random);
        let i = random.near(own.frames);
        let j = random.near(own.sections);
        sides.part_of(&file, numbers, kind, i, j);
    }
}

/// What a cut of the card shows, also while it is closed.
pub fn card(sides: &mut Sides, random: &mut Random, file: &[u8]) {
    glance(sides, random, file, &[]);
}
