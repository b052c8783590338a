//! Tables and sheets: look, commit and convert, the tag browser, tags by their name, tags one after another.

use crate::build::*;
use crate::marks;
use crate::random::Random;
use crate::raw::{FstfCursor, FstfLooked};
use crate::sides::Sides;

#[derive(Clone, PartialEq)]
enum Seen {
    Absent,
    Value(Vec<u8>),
    /// In old sheets only: convert takes it, look and commit do not.
    NobodyLooked,
}

#[derive(Clone)]
struct Change {
    name: Vec<u8>,
    seen: Seen,
    new: Option<Vec<u8>>,
}

fn short(bytes: &[u8], sheet: &mut Vec<u8>) {
    sheet.push(bytes.len() as u8);
    sheet.extend_from_slice(bytes);
}

fn sheet_bytes(changes: &[Change]) -> Vec<u8> {
    let mut sheet = vec![changes.len() as u8];
    for change in changes {
        short(&change.name, &mut sheet);
        match &change.seen {
            Seen::Absent => sheet.push(0),
            Seen::Value(value) => {
                sheet.push(1);
                short(value, &mut sheet);
            }
            Seen::NobodyLooked => sheet.push(2),
        }
        match &change.new {
            None => sheet.push(0),
            Some(value) => {
                sheet.push(1);
                short(value, &mut sheet);
            }
        }
    }
    sheet
}

/// A name of the table, or one that is not in it.
fn change_name(random: &mut Random, user: &[Tag]) -> Vec<u8> {
    if !user.is_empty() && random.one_in(2) {
        return user[random.size(user.len() - 1)].name.clone();
    }
    let length = match random.below(30) {
        0 => 255,
        1..=5 => 1,
        _ => 2 + random.size(6),
    };
    text(random, length)
}

fn new_value(random: &mut Random) -> Option<Vec<u8>> {
    if random.one_in(3) {
        return None;
    }
    let length = match random.below(30) {
        0 => 255,
        1..=6 => 0,
        _ => random.size(6),
    };
    Some(text(random, length))
}

/// What the table says.
fn right(user: &[Tag], name: &[u8]) -> Seen {
    match user.iter().find(|tag| tag.name == name) {
        None => Seen::Absent,
        Some(tag) => Seen::Value(tag.value.clone()),
    }
}

/// What the table says or, one time in `wrong`, something else.
fn seen(random: &mut Random, user: &[Tag], name: &[u8], wrong: u64) -> Seen {
    match (right(user, name), random.one_in(wrong)) {
        (Seen::Value(value), true) => match random.below(4) {
            0 => Seen::Absent,
            1 => Seen::Value(text(random, value.len())),
            2 => Seen::Value(value[..value.len() / 2].to_vec()),
            _ => Seen::Value(Vec::new()),
        },
        (_, true) => Seen::Value(if random.one_in(2) { Vec::new() } else { text(random, 2) }),
        (right, false) => right,
    }
}

/// The sheet as an old one: one in so many of the entries that are right is of one who did not look. Converted, it has to come back as it was.
fn not_looked(random: &mut Random, user: &[Tag], changes: &[Change], many: u64) -> Vec<Change> {
    let mut old = changes.to_vec();
    for change in &mut old {
        if random.one_in(many) && change.seen == right(user, &change.name) {
            change.seen = Seen::NobodyLooked;
        }
    }
    old
}

fn changes(random: &mut Random, user: &[Tag], count: usize, wrong: u64) -> Vec<Change> {
    let mut changes: Vec<Change> = Vec::new();
    for _ in 0..count {
        let name = change_name(random, user);
        if changes.iter().any(|change| change.name == name) {
            continue;
        }
        let seen = seen(random, user, &name, wrong);
        let new = new_value(random);
        changes.push(Change { name, seen, new });
    }
    changes
}

/// A sheet with one fault, in one of the ways a sheet can be malformed.
fn malformed(random: &mut Random, mut changes: Vec<Change>) -> Vec<u8> {
    let bad = random.pick(&[0, 10, 31, 127, 128, 255]);
    let last = changes.len().saturating_sub(1);
    let at = random.size(last);
    match random.below(11) {
        0 => return Vec::new(),
        1 if !changes.is_empty() => {
            let name = changes[at].name.clone();
            changes.push(Change { name, seen: Seen::Absent, new: None });
        }
        2 if !changes.is_empty() => changes[at].name = Vec::new(),
        // The tags that names are taken from may be bent: then a name can be empty.
        3 if !changes.is_empty() && !changes[at].name.is_empty() => {
            let place = random.size(changes[at].name.len() - 1);
            changes[at].name[place] = bad;
        }
        4 if !changes.is_empty() => changes[at].seen = Seen::Value(vec![65, bad]),
        5 if !changes.is_empty() => changes[at].new = Some(vec![bad, 65]),
        _ => (),
    }
    let mut sheet = sheet_bytes(&changes);
    match random.below(8) {
        0 => sheet.push(random.next() as u8),
        1 => {
            let length = random.size(sheet.len());
            sheet.truncate(length);
        }
        2 => sheet[0] = sheet[0].wrapping_add(1),
        3 => sheet[0] = sheet[0].wrapping_sub(1),
        4 => {
            let place = random.size(sheet.len() - 1);
            sheet[place] = random.size(4) as u8;
        }
        5 => {
            let place = random.size(sheet.len() - 1);
            sheet[place] = random.next() as u8;
        }
        _ => (),
    }
    sheet
}

fn some_changes(random: &mut Random, user: &[Tag]) -> Vec<Change> {
    let count = match random.below(60) {
        0 => 64,
        1 => 65,
        2 => 63 + random.size(4),
        3..=8 => random.size(64),
        9..=14 => 0,
        _ => random.size(5),
    };
    let wrong = random.pick(&[2, 8, 1000]);
    changes(random, user, count, wrong)
}

/// Every third is an old one.
fn some_sheet(random: &mut Random, user: &[Tag]) -> Vec<u8> {
    let mut changes = some_changes(random, user);
    if random.one_in(3) {
        let many = random.pick(&[1, 2, 5]);
        changes = not_looked(random, user, &changes, many);
    }
    if random.one_in(4) {
        return malformed(random, changes);
    }
    sheet_bytes(&changes)
}

/// Look, and a commit with ample room and again around the answer's length: what look answered, and the new table.
fn commit(sides: &mut Sides, random: &mut Random, file: &[u8], sheet: &[u8]) -> (FstfLooked, Option<Vec<u8>>) {
    let looked = sides.look(file, sheet);
    // A new table holds nothing that is not in the file or in the sheet.
    let out = random.bytes(file.len() + sheet.len());
    let (ample, left) = sides.commit(file, sheet, looked, &out);
    let length = ample.length as usize;
    let room = random.room(length);
    let out = random.bytes(room);
    sides.commit(file, sheet, looked, &out);
    if ample.refused != 0 {
        return (looked, None);
    }
    (looked, Some(left[..length].to_vec()))
}

/// A conversion with ample room and again around the answer's length. The new sheet is committed, with ample room and again around that answer's
/// length, and each answer is held against what the old sheet gave.
fn convert(sides: &mut Sides, random: &mut Random, file: &[u8], old: &[u8], looked: FstfLooked) -> Option<Vec<u8>> {
    // What nobody looked at takes a length and 255 bytes more at most.
    let changes = usize::from(old.first().copied().unwrap_or(0).min(64));
    let out = random.bytes(old.len() + 256 * changes);
    let (ample, left) = sides.convert(file, old, looked, &out);
    let length = ample.length as usize;
    let room = random.room(length);
    let out = random.bytes(room);
    sides.convert(file, old, looked, &out);
    if ample.refused != 0 {
        return None;
    }
    let new = left[..length].to_vec();
    let looked = sides.look(file, &new);
    let out = random.bytes(file.len() + old.len());
    let committed = sides.commit_of_converted(file, old, &new, looked, &out);
    let room = random.room(committed.length as usize);
    let out = random.bytes(room);
    sides.commit_of_converted(file, old, &new, looked, &out);
    Some(new)
}

/// A sheet of any kind: looked at, committed and converted. The new table, where there is one.
fn save(sides: &mut Sides, random: &mut Random, file: &[u8], sheet: &[u8]) -> Option<Vec<u8>> {
    let (looked, table) = commit(sides, random, file, sheet);
    convert(sides, random, file, sheet, looked);
    table
}

/// The old sheets of one that is legal: each has to give it back, whatever it is about to conflict with.
fn convert_back(sides: &mut Sides, random: &mut Random, file: &[u8], user: &[Tag], changes: &[Change]) {
    let sheet = sheet_bytes(changes);
    for many in [1, 3] {
        let old = sheet_bytes(&not_looked(random, user, changes, many));
        let looked = sides.look(file, &old);
        let new = convert(sides, random, file, &old, looked);
        sides.known(new.as_ref() == Some(&sheet), "what nobody looked at is filled in from the table", &old);
    }
}

/// One sheet for a file whose user tags are, or were, these.
pub fn some_save(sides: &mut Sides, random: &mut Random, file: &[u8], user: &[Tag]) {
    let sheet = some_sheet(random, user);
    save(sides, random, file, &sheet);
}

/// Sheets for a legal file; what an accepted one gives is stored, opened, and committed to again with the same sheet.
pub fn sheets(sides: &mut Sides, random: &mut Random) {
    let mut recording = recording(random);
    let count = if random.one_in(100) { 900 + random.size(100) } else { random.size(80) };
    recording.user = tags(random, count);
    let file = recording.file().bytes;
    let before_user = number(&file, 25, 8) as usize;
    for _ in 0..6 {
        let sheet = some_sheet(random, &recording.user);
        if let Some(table) = save(sides, random, &file, &sheet) {
            let mut stored = file[..before_user].to_vec();
            stored.extend_from_slice(&table);
            sides.open(&stored);
            save(sides, random, &stored, &sheet);
        }
    }
}

/// Old sheets for legal files of up to 1,000 tags: the sheets that they came from are known. Then some with bytes changed, of the sheet and of the file.
pub fn conversions(sides: &mut Sides, random: &mut Random) {
    let mut recording = if random.one_in(4) { recording(random) } else { smallest() };
    let count = match random.below(60) {
        0 => 1000,
        1 => 900 + random.size(100),
        2..=9 => random.size(120),
        _ => random.size(12),
    };
    recording.user = tags(random, count);
    let file = recording.file().bytes;
    let mut changes = some_changes(random, &recording.user);
    changes.truncate(64);
    convert_back(sides, random, &file, &recording.user, &changes);
    let many = random.pick(&[1, 2, 4]);
    let old = sheet_bytes(&not_looked(random, &recording.user, &changes, many));
    for _ in 0..3 {
        let mut sheet = old.clone();
        let at = random.size(sheet.len() - 1);
        sheet[at] = if random.one_in(2) { random.size(4) as u8 } else { random.next() as u8 };
        save(sides, random, &file, &sheet);
        let mut damaged = file.clone();
        let at = random.size(damaged.len() - 1);
        damaged[at] = random.next() as u8;
        save(sides, random, &damaged, &old);
    }
}

/// Another entry than the one that is right for this name.
fn mistaken(random: &mut Random, user: &[Tag], name: &[u8]) -> Seen {
    let mut wrong = match user.iter().find(|tag| tag.name == name) {
        None => return Seen::Value(if random.one_in(2) { Vec::new() } else { b"not so".to_vec() }),
        Some(tag) => tag.value.clone(),
    };
    // Absent, or a value that is longer, shorter, or another at its end.
    match (random.below(4), wrong.pop()) {
        (0, _) => return Seen::Absent,
        (_, None) => wrong.push(b'x'),
        (1, Some(last)) if wrong.len() < 254 => wrong.extend([last, b'x']),
        (2, Some(_)) => (),
        (_, Some(last)) => wrong.push(if last == b'x' { b'y' } else { b'x' }),
    }
    Seen::Value(wrong)
}

/// The same changes, wrong about what was seen at each place of a set.
fn wrong_at(random: &mut Random, user: &[Tag], right: &[Change], set: u64) -> Vec<Change> {
    let mut wrong = right.to_vec();
    for (place, change) in wrong.iter_mut().enumerate() {
        if set >> place & 1 == 1 {
            change.seen = mistaken(random, user, &change.name);
        }
    }
    wrong
}

/// Changes that are right but at the places of a set, which look has to show, and the lowest of which commit is refused at.
fn conflicting(sides: &mut Sides, random: &mut Random, recording: &Recording, right: &[Change], set: u64) {
    let file = recording.file().bytes;
    let changes = wrong_at(random, &recording.user, right, set);
    let sheet = sheet_bytes(&changes);
    let (looked, _) = commit(sides, random, &file, &sheet);
    let shown = (looked.refused, looked.changes, looked.conflicts) == (0, right.len() as u64, set);
    sides.known(shown, "look shows each change that was made to conflict, and no other", &sheet);
    if random.one_in(4) {
        convert_back(sides, random, &file, &recording.user, &changes);
    }
}

/// One wrong seen entry at each place of a sheet, and several of them.
pub fn conflicts(sides: &mut Sides, random: &mut Random) {
    let mut recording = small(random);
    recording.user = tags(random, 12);
    let count = if random.one_in(8) { 64 } else { 8 };
    let right = changes(random, &recording.user, count, u64::MAX);
    let places = u64::MAX >> (64 - right.len());
    for place in 0..right.len() {
        conflicting(sides, random, &recording, &right, 1 << place);
        let second = random.size(right.len() - 1);
        conflicting(sides, random, &recording, &right, 1 << place | 1 << second);
        let several = random.next() & places;
        conflicting(sides, random, &recording, &right, several);
    }
}

/// 64 changes of tags and of names that are none, all of them right.
fn full_sheet(random: &mut Random, user: &[Tag]) -> Vec<Change> {
    let mut right = changes(random, user, 64, u64::MAX);
    for i in right.len()..64 {
        let name = format!("none of the tags, number {}", i).into_bytes();
        let at = random.size(right.len());
        right.insert(at, Change { name, seen: Seen::Absent, new: new_value(random) });
    }
    right
}

/// As many changes as a sheet may have, with conflicts at the last of them, at either end, at all, at none, and at any.
pub fn full_sheets(sides: &mut Sides, random: &mut Random) {
    let mut recording = smallest();
    let count = if random.one_in(16) { 1000 } else { random.size(120) };
    recording.user = tags(random, count);
    let right = full_sheet(random, &recording.user);
    let place = random.size(63);
    let ends = [0, u64::MAX, 1 << 62, 1 << 63, 3 << 62, 1 << 63 | 1, 1 << 32, 1 << 31];
    let drawn = [1 << place, u64::MAX << place, u64::MAX >> place, random.next(), random.next() & random.next()];
    for set in ends.into_iter().chain(drawn) {
        conflicting(sides, random, &recording, &right, set);
    }
}

/// A name whose mark stands in the first word of the library's marks, where a few names set all bits: each further one may be any of them.
pub fn crowding(random: &mut Random) -> Vec<u8> {
    loop {
        let length = match random.below(8) {
            0 => 255,
            1 => 9 + random.size(60),
            _ => 3 + random.size(9),
        };
        let mut name = text(random, length);
        for _ in 0..2000 {
            if marks::place(marks::mark(&name)) == 0 {
                return name;
            }
            let at = random.size(length - 1);
            name[at] = 32 + random.below(95) as u8;
        }
    }
}

/// Tables and sheets of names that were chosen against the marks, in any order, ascending and descending, and with one of them twice.
pub fn crowded(sides: &mut Sides, random: &mut Random) {
    let mut names: Vec<Vec<u8>> = (0..40 + random.size(60)).map(|_| crowding(random)).collect();
    match random.below(3) {
        0 => names.sort(),
        1 => names.sort_by(|a, b| b.cmp(a)),
        _ => {}
    }
    names.dedup();
    let mut recording = smallest();
    recording.user = names.iter().map(|name| Tag { name: name.clone(), value: text(random, 3) }).collect();
    if random.one_in(3) {
        let twice = recording.user[random.size(recording.user.len() - 1)].clone();
        let at = random.size(recording.user.len());
        recording.user.insert(at, twice);
    }
    let file = recording.file().bytes;
    sides.open(&file);
    let bytes = table(&recording.user).bytes;
    for name in names.iter().step_by(9) {
        sides.tag_named(&bytes, name);
    }
    for _ in 0..3 {
        let sheet = some_sheet(random, &recording.user);
        save(sides, random, &file, &sheet);
    }
    let changes: Vec<Change> = names
        .iter()
        .take(64)
        .map(|name| Change { name: name.clone(), seen: right(&recording.user, name), new: new_value(random) })
        .collect();
    commit(sides, random, &file, &sheet_bytes(&changes));
    let old = sheet_bytes(&not_looked(random, &recording.user, &changes, 1));
    save(sides, random, &file, &old);
}

/// Sheets that bring a table to 1,000 tags and over.
pub fn table_full(sides: &mut Sides, random: &mut Random) {
    let mut recording = smallest();
    let count = 1000 - random.size(3);
    recording.user = tags(random, count);
    let file = recording.file().bytes;
    for _ in 0..2 {
        let added = random.size(5);
        let mut changes: Vec<Change> = (0..added)
            .map(|i| Change {
                name: format!("an added tag, number {}", i).into_bytes(),
                seen: Seen::Absent,
                new: Some(b"new".to_vec()),
            })
            .collect();
        if random.one_in(2) {
            let tag = recording.user[random.size(count - 1)].clone();
            let at = random.size(changes.len());
            changes.insert(at, Change { name: tag.name, seen: Seen::Value(tag.value), new: None });
        }
        if random.one_in(6) {
            changes.push(Change { name: b"last".to_vec(), seen: Seen::Value(b"not so".to_vec()), new: None });
        }
        commit(sides, random, &file, &sheet_bytes(&changes));
        convert_back(sides, random, &file, &recording.user, &changes);
    }
}

/// A table with one fault, or none.
fn some_table(random: &mut Random, tags: &[Tag]) -> Vec<u8> {
    let written = table(tags);
    let mut bytes = written.bytes;
    match random.below(10) {
        0 => bytes.push(random.next() as u8),
        1 => {
            let length = random.size(bytes.len());
            bytes.truncate(length);
        }
        2 => {
            let at = random.size(bytes.len() - 1);
            bytes[at] = random.next() as u8;
        }
        3 => {
            let (at, width) = random.pick(&written.fields);
            let value = number(&bytes, at, width);
            let step = random.pick(&[1, u64::MAX]);
            set_number(&mut bytes, at, width, value.wrapping_add(step));
        }
        4 if tags.len() > 1 => {
            // A name that comes twice.
            let mut twice = tags.to_vec();
            let from = random.size(tags.len() - 1);
            let to = random.size(tags.len() - 1);
            twice[to].name = twice[from].name.clone();
            return table(&twice).bytes;
        }
        _ => (),
    }
    bytes
}

/// Tables good and bad, browsed at every number and asked for names in and not in them.
pub fn browsed(sides: &mut Sides, random: &mut Random) {
    let count = if random.one_in(2) { 1 + random.size(12) } else { tag_count(random) };
    let tags = tags(random, count);
    let table = some_table(random, &tags);
    let every = if count > 50 { 97 } else { 1 };
    for number in (0..count as u64 + 2).step_by(every) {
        sides.tag_at(&table, number);
    }
    for number in [1000, u64::from(u32::MAX) + 1, u64::MAX, random.next()] {
        sides.tag_at(&table, number);
    }
    for tag in tags.iter().step_by(every) {
        sides.tag_named(&table, &tag.name);
        sides.tag_named(&table, &tag.value);
        let shorter = &tag.name[..tag.name.len() - 1];
        sides.tag_named(&table, shorter);
        let mut longer = tag.name.clone();
        longer.push(b' ');
        sides.tag_named(&table, &longer);
    }
    let length = random.size(300);
    let any = random.bytes(length);
    sides.tag_named(&table, &any);
    sides.tag_named(&table, &[]);
}

/// A cursor from the first tag of a table to its end and once more, each step as the browser's.
fn walked(sides: &mut Sides, table: &[u8]) {
    let mut at = sides.first_tag(table);
    let mut number = 0;
    while at.found != 0 {
        if number < 50 {
            let tag = sides.tag_at(table, number);
            let same = (at.name, at.name_length, at.value, at.value_length)
                == (tag.name, tag.name_length, tag.value, tag.value_length);
            sides.known(same, "the cursor is at the browser's tag", table);
        }
        number += 1;
        at = sides.next_tag(table, at);
    }
    let stays = sides.next_tag(table, at);
    sides.known(stays == at, "at the end, and where it is refused, the cursor stays", table);
}

/// A cursor that no table gave: numbers around those of the table's tags, around its end, and any.
fn some_cursor(random: &mut Random, table: &[u8], tags: &[Tag]) -> FstfCursor {
    let end = table.len() as u64;
    let mut place = 4;
    for tag in tags.iter().take(random.size(tags.len())) {
        place += 2 + (tag.name.len() + tag.value.len()) as u64;
    }
    let any = random.next();
    let number = |random: &mut Random| match random.below(6) {
        0 => any,
        1 => u64::MAX - random.below(3),
        2 => end.wrapping_add(random.below(4)).wrapping_sub(2),
        3 => random.below(end + 2),
        4 => (1 << 63) - 1 + random.below(3),
        _ => random.below(3),
    };
    let (value, value_length) = match random.below(4) {
        // just ahead of a tag, or one byte off
        0 | 1 => {
            let length = random.below(place + 1);
            (place - length, length + random.below(20) / 19)
        }
        // a sum that wraps to such a place
        2 => {
            let value = u64::MAX - random.below(300);
            (value, place.wrapping_sub(value))
        }
        _ => (number(random), number(random)),
    };
    let refused = if random.one_in(8) { random.pick(&[7, 11, 18, u64::MAX]) } else { 0 };
    FstfCursor {
        refused,
        place: number(random),
        found: if random.one_in(8) { 0 } else { random.pick(&[1, 1, 2, u64::MAX]) },
        name: number(random),
        name_length: number(random),
        value,
        value_length,
        left: if random.one_in(3) { number(random) } else { 1 + random.below(5) },
    }
}

/// Tables good and bad, walked by a cursor, and asked for what stands behind cursors that are none of theirs.
pub fn cursors(sides: &mut Sides, random: &mut Random) {
    let count = if random.one_in(2) { 1 + random.size(12) } else { tag_count(random) };
    let tags = tags(random, count);
    let table = some_table(random, &tags);
    walked(sides, &table);
    for _ in 0..20 {
        let at = some_cursor(random, &table, &tags);
        sides.next_tag(&table, at);
    }
}
