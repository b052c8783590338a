//! Faults, and where they stand: small files, tables, sheets and set-up lists with one fault and with several, through every call that tells a place.

use crate::build::*;
use crate::random::Random;
use crate::sides::Sides;
use crate::tags;
use std::collections::HashSet;

/// Lends bytes to every call that takes such bytes and tells the place of a fault in them.
type Lend = fn(&mut Sides, &mut Random, &[u8]);

/// The file's faults are told ahead of the sheet's, whichever this is.
const SHEETS: [&[u8]; 4] = [&[0], &[1, 1, b'A', 0, 1, 0], &[1, 1, b'A', 2, 1, 0], &[1, 1, b'A', 7]];

const LIST: [u8; 5] = [1, 1, b'I', 0, 0];

fn as_file(sides: &mut Sides, random: &mut Random, file: &[u8]) {
    let opened = sides.open(file);
    let inside = opened.place <= file.len() as u64 || opened.refused == 4 && opened.place == number(file, 17, 8);
    sides.known(inside, "a place is in the file, or it is where the header puts the system table", file);
    let (kind, i, j) = (random.below(7), random.below(3), random.below(2));
    sides.frame(file, opened, i);
    sides.part(file, opened, kind, i, j);
    sides.repair(file, &[0xAA; 120]);
    let sheet = random.pick(&SHEETS);
    let looked = sides.look(file, sheet);
    sides.commit(file, sheet, looked, &[0x55; 300]);
    sides.convert(file, sheet, looked, &[0x66; 300]);
}

/// Alone, as the system table of a recording that is begun, and in a file at either place.
fn as_table(sides: &mut Sides, random: &mut Random, table: &[u8]) {
    alone(sides, random, table);
    as_file(sides, random, &with_system(table));
    as_file(sides, random, &with_user(table));
}

fn alone(sides: &mut Sides, random: &mut Random, table: &[u8]) {
    sides.tag_at(table, random.below(4));
    sides.tag_named(table, random.pick(&[b"A", b"B", b"Z"]));
    let first = sides.first_tag(table);
    let next = sides.next_tag(table, first);
    sides.known(first.refused == 0 || next == first, "a refused cursor stays as it is", table);
    let state = sides.fresh();
    let (taken, _, _) = sides.begin(state, &LIST, table, &[9; 4], &[0x33; 200]);
    let same = first.refused == 0 || (taken.refused, taken.place) == (4, first.place);
    sides.known(same, "the browser's 7 and the recorder's 4 stand at one place", table);
}

/// Frames stand behind the table: what it takes to be a tag may go on in them.
fn with_system(table: &[u8]) -> Vec<u8> {
    let worked = worked().unclosed().bytes;
    [&worked[..48], table, &worked[52..]].concat()
}

fn with_user(table: &[u8]) -> Vec<u8> {
    let worked = worked().file().bytes;
    [&worked[..94], table].concat()
}

fn as_sheet(sides: &mut Sides, _: &mut Random, sheet: &[u8]) {
    let file = with_user(&[1, 0, 0, 0, 1, b'A', 0]);
    let looked = sides.look(&file, sheet);
    let (committed, _) = sides.commit(&file, sheet, looked, &[0x77; 600]);
    let (converted, _) = sides.convert(&file, sheet, looked, &[0x99; 600]);
    let inside = looked.place.max(committed.place).max(converted.place) <= sheet.len() as u64;
    sides.known(inside, "a place is in the sheet", sheet);
}

/// With a good system table and with a bad one, which is told behind the list's faults.
fn as_list(sides: &mut Sides, random: &mut Random, list: &[u8]) {
    let state = sides.fresh();
    let system: &[u8] = random.pick(&[&[0; 4], &[0; 5]]);
    let (taken, _, _) = sides.begin(state, list, system, &[9; 4], &[0x33; 900]);
    let inside = taken.place <= list.len().max(system.len()) as u64;
    sides.known(inside, "a place is in the list, or in the table", list);
}

fn section(name: &[u8], configuration: &[u8]) -> Section {
    Section { name: name.to_vec(), configuration: configuration.to_vec() }
}

fn tag(name: &[u8], value: &[u8]) -> Tag {
    Tag { name: name.to_vec(), value: value.to_vec() }
}

/// Frames whose sections are a byte or none, in turns.
fn few_frames(count: usize, sections: usize) -> Vec<Frame> {
    (0..count)
        .map(|i| Frame { time: i as i64, exposure: 7, sections: (0..sections).map(|j| vec![9; (i + j) % 2]).collect() })
        .collect()
}

/// From one section to four, with and without configurations, with no tags and with some in both tables, with no frame to three.
fn fixed_files() -> Vec<Recording> {
    let two = vec![section(b"IMAGE", b""), section(b"STATUS", b"")];
    let three = vec![section(b"A", b""), section(b"B", b"xy"), section(b"C", b"z")];
    let four = vec![section(b"A", b"1"), section(b"AB", b""), section(b"B", b""), section(b"ab0", b"-")];
    let some = vec![tag(b"A", b""), tag(b"AB", b"x")];
    let more = vec![tag(b"B", b"yz"), tag(b"A", b" ~"), tag(b"a", b"")];
    vec![
        smallest(),
        worked(),
        Recording { sections: two, system: Vec::new(), frames: Vec::new(), user: more.clone() },
        Recording { sections: three, system: some.clone(), frames: few_frames(2, 3), user: Vec::new() },
        Recording { sections: four, system: more, frames: few_frames(3, 4), user: some },
    ]
}

fn fixed_tables() -> Vec<Vec<u8>> {
    let tables = [
        vec![],
        vec![tag(b"A", b"")],
        vec![tag(b"A", b"xy"), tag(b"B", b"")],
        vec![tag(b"AB", b"x"), tag(b"A", b""), tag(b"B", b"AB")],
    ];
    tables.iter().map(|tags| table(tags).bytes).collect()
}

/// By ones who looked, and by ones who did not.
fn fixed_sheets() -> Vec<Vec<u8>> {
    vec![
        vec![0],
        vec![1, 1, b'A', 0, 0],
        vec![1, 1, b'A', 2, 0],
        vec![2, 1, b'A', 1, 1, b'x', 1, 0, 2, b'A', b'B', 0, 1, 1, b'y'],
        vec![3, 1, b'A', 0, 0, 1, b'B', 1, 0, 0, 2, b'B', b'A', 0, 1, 2, b' ', b'~'],
        vec![3, 1, b'A', 2, 0, 1, b'B', 1, 0, 0, 2, b'B', b'A', 2, 1, 2, b' ', b'~'],
    ]
}

fn fixed_lists() -> Vec<Vec<u8>> {
    fixed_files().iter().map(|recording| setup(&recording.sections).bytes).collect()
}

/// Ends of what a name, a value, a kind or a length may be, the byte's neighbours, and any.
fn values(random: &mut Random, good: u8) -> [u8; 11] {
    let drawn = random.next() as u8;
    [0, 1, good.wrapping_add(1), good.wrapping_sub(1), 0x1F, 0x20, b'-', 0x7E, 0x7F, 0xFF, drawn]
}

fn each_byte(sides: &mut Sides, random: &mut Random, good: &[u8], lend: Lend) {
    for at in 0..good.len() {
        for value in values(random, good[at]) {
            let mut bytes = good.to_vec();
            bytes[at] = value;
            lend(sides, random, &bytes);
        }
    }
}

fn each_cut(sides: &mut Sides, random: &mut Random, good: &[u8], lend: Lend) {
    for length in 0..=good.len() {
        lend(sides, random, &good[..length]);
    }
}

/// One byte put in, and one taken out.
fn each_shift(sides: &mut Sides, random: &mut Random, good: &[u8], lend: Lend) {
    for at in 0..=good.len() {
        let drawn = random.next() as u8;
        for value in [0, 1, b'A', 0x7F, drawn] {
            let mut bytes = good.to_vec();
            bytes.insert(at, value);
            lend(sides, random, &bytes);
        }
        let mut bytes = good.to_vec();
        bytes.drain(at..good.len().min(at + 1));
        lend(sides, random, &bytes);
    }
}

/// Counts around the true one and around every limit of a count, and the largest.
fn each_count(sides: &mut Sides, random: &mut Random, good: &[u8], at: usize, width: usize, lend: Lend) {
    let count = number(good, at, width);
    let near = [count.wrapping_sub(1), count + 1, count + 2, count + 256];
    for value in [0, 1, 8, 9, 64, 65, 128, 255, 256, 1000, 1001, 65_536, 1 << 31, u64::MAX].iter().chain(&near) {
        let mut bytes = good.to_vec();
        set_number(&mut bytes, at, width, *value);
        lend(sides, random, &bytes);
    }
}

fn each_fault(sides: &mut Sides, random: &mut Random, good: &[u8], lend: Lend) {
    each_byte(sides, random, good, lend);
    each_cut(sides, random, good, lend);
    each_shift(sides, random, good, lend);
}

pub fn of_files(sides: &mut Sides, random: &mut Random) {
    for recording in fixed_files() {
        let file = recording.file().bytes;
        each_fault(sides, random, &file, as_file);
        let unclosed = recording.unclosed().bytes;
        each_cut(sides, random, &unclosed, as_file);
        each_count(sides, random, &file, 33, 1, as_file);
        for place in [17, 25] {
            let table = number(&file, place, 8) as usize;
            each_count(sides, random, &file, table, 4, as_file);
            each_offset(sides, random, &file, place);
        }
        for place in offset_places(&recording) {
            each_offset(sides, random, &file, place);
        }
    }
}

fn offset_places(recording: &Recording) -> Vec<usize> {
    let definitions = recording.file().starts.into_iter().skip(1).zip(&recording.sections);
    definitions.map(|(start, section)| start + 1 + section.name.len()).collect()
}

/// An offset by itself: as far off as may be and one further, in the file, at its end and behind it.
fn each_offset(sides: &mut Sides, random: &mut Random, file: &[u8], place: usize) {
    let offset = number(file, place, 8);
    let end = file.len() as u64;
    let off = [1, 2, 3, 4, 1000, 65_535, 65_536, 1 << 32, 1 << 63];
    let moved = off.iter().flat_map(|step| [offset.wrapping_add(*step), offset.wrapping_sub(*step)]);
    for value in moved.chain([0, end - 3, end - 1, end, end + 1, u64::MAX]) {
        let mut bytes = file.to_vec();
        set_number(&mut bytes, place, 8, value);
        as_file(sides, random, &bytes);
    }
}

pub fn of_tables(sides: &mut Sides, random: &mut Random) {
    for table in fixed_tables() {
        each_fault(sides, random, &table, as_table);
        each_count(sides, random, &table, 0, 4, as_table);
    }
}

pub fn of_sheets(sides: &mut Sides, random: &mut Random) {
    for sheet in fixed_sheets() {
        each_fault(sides, random, &sheet, as_sheet);
        each_count(sides, random, &sheet, 0, 1, as_sheet);
    }
}

pub fn of_lists(sides: &mut Sides, random: &mut Random) {
    for list in fixed_lists() {
        each_fault(sides, random, &list, as_list);
        each_count(sides, random, &list, 0, 1, as_list);
    }
}

/// Two bytes of those at `places` changed, and one changed with a cut behind it: the first fault is told, whichever of the two it is.
fn each_two(sides: &mut Sides, random: &mut Random, good: &[u8], places: &[usize], lend: Lend) {
    for (i, first) in places.iter().enumerate() {
        for value in [0, 2, b'-', b'A', 0x7F] {
            let mut one = good.to_vec();
            one[*first] = value;
            for second in &places[i + 1..] {
                let mut both = one.clone();
                both[*second] = random.pick(&[0, 1, b'-', b'A', 0x7F, good[*second].wrapping_add(1)]);
                lend(sides, random, &both);
                lend(sides, random, &one[..*second]);
            }
        }
    }
}

pub fn in_twos(sides: &mut Sides, random: &mut Random) {
    for table in fixed_tables() {
        let places: Vec<usize> = (0..table.len()).collect();
        each_two(sides, random, &table, &places, as_table);
    }
    for sheet in fixed_sheets() {
        let places: Vec<usize> = (0..sheet.len()).collect();
        each_two(sides, random, &sheet, &places, as_sheet);
    }
    for list in fixed_lists() {
        let places: Vec<usize> = (0..list.len()).collect();
        each_two(sides, random, &list, &places, as_list);
    }
    // Of a file, what stands ahead of its frames: the low bytes of offsets, names, the system table.
    for recording in [&fixed_files()[0], &fixed_files()[3]] {
        let front = Recording { frames: Vec::new(), ..recording.clone() }.unclosed().bytes.len();
        let file = recording.file().bytes;
        let places: Vec<usize> = (33..front).filter(|at| file[*at] != 0).collect();
        let places = [&[17], &places[..]].concat();
        each_two(sides, random, &file, &places, as_file);
    }
}

/// Names of few letters, so that one changed byte makes two of them equal.
fn alike(random: &mut Random) -> Vec<u8> {
    let length = 1 + random.size(2);
    (0..length).map(|_| random.pick(b"AB")).collect()
}

fn different(random: &mut Random, count: usize) -> Vec<Vec<u8>> {
    let mut names: Vec<Vec<u8>> = Vec::new();
    while names.len() < count {
        let name = alike(random);
        if !names.contains(&name) {
            names.push(name);
        }
    }
    names
}

fn few_tags(random: &mut Random) -> Vec<Tag> {
    let count = random.size(4);
    different(random, count)
        .into_iter()
        .map(|name| {
            let length = random.size(2);
            Tag { name, value: text(random, length) }
        })
        .collect()
}

fn few_sections(random: &mut Random) -> Vec<Section> {
    let count = 1 + random.size(3);
    different(random, count)
        .into_iter()
        .map(|name| {
            let length = random.size(3);
            Section { name, configuration: random.bytes(length) }
        })
        .collect()
}

fn few(random: &mut Random) -> Recording {
    let sections = few_sections(random);
    let frames = few_frames(random.size(3), sections.len());
    Recording { sections, frames, system: few_tags(random), user: few_tags(random) }
}

/// A kind of a sheet, and behind kind 1 a value.
fn entry(random: &mut Random, sheet: &mut Written, kinds: u64) {
    let kind = random.below(kinds);
    sheet.number(kind, 1);
    if kind == 1 {
        let length = random.size(2);
        sheet.short(&text(random, length));
    }
}

/// Seen kinds that a sheet may have, and those of an old one.
const SEEN_KINDS: u64 = 2;
const SEEN_KINDS_OF_OLD: u64 = 3;

fn sheet_of(random: &mut Random, names: &[Vec<u8>], seen_kinds: u64) -> Written {
    let mut sheet = Written::default();
    sheet.number(names.len() as u64, 1);
    for name in names {
        sheet.start();
        sheet.short(name);
        entry(random, &mut sheet, seen_kinds);
        entry(random, &mut sheet, 2);
    }
    sheet
}

/// One more fault, or none where the bytes have become too few for it.
fn spoil(random: &mut Random, written: &Written, bytes: &mut Vec<u8>) {
    if bytes.is_empty() {
        return;
    }
    let at = random.size(bytes.len() - 1);
    match random.below(8) {
        0..=2 => bytes[at] = random.pick(&[0, 1, 0x1F, b'-', 0x7F, 0xFF]),
        3 => bytes.insert(at, random.pick(&[0, 1, b'A', 0x7F])),
        4 => {
            bytes.remove(at);
        }
        5 => bytes.truncate(at),
        6 => nudge(random, written, bytes),
        _ => repeat(random, written, bytes),
    }
}

/// A number that is one off, or far off.
fn nudge(random: &mut Random, written: &Written, bytes: &mut [u8]) {
    let (at, width) = random.pick(&written.fields);
    if at + width > bytes.len() {
        return;
    }
    let value = number(bytes, at, width);
    let step = random.pick(&[1, 1, 2, 8, 65_535, 65_536, u64::MAX, u64::MAX, u64::MAX - 1]);
    set_number(bytes, at, width, value.wrapping_add(step));
}

/// A string put over another of its length: where both are names, one is used twice.
fn repeat(random: &mut Random, written: &Written, bytes: &mut [u8]) {
    let strings: Vec<(usize, usize)> = written.fields.iter().copied().filter(|field| field.1 == 1).collect();
    if strings.is_empty() {
        return;
    }
    let (from, _) = random.pick(&strings);
    let (to, _) = random.pick(&strings);
    let end = from.max(to) + 1 + usize::from(bytes.get(from).copied().unwrap_or(0));
    if end > bytes.len() || bytes[from] != bytes[to] {
        return;
    }
    let string = bytes[from..=from + usize::from(bytes[from])].to_vec();
    bytes[to..to + string.len()].copy_from_slice(&string);
}

/// What a fault is put into, and how it is lent.
fn some(random: &mut Random) -> (Written, Lend) {
    match random.below(6) {
        0 | 1 => (few(random).file(), as_file),
        2 => (few(random).unclosed(), as_file),
        3 => (table(&few_tags(random)), as_table),
        4 => {
            let count = random.size(5);
            let names = different(random, count);
            let seen_kinds = random.pick(&[SEEN_KINDS, SEEN_KINDS_OF_OLD]);
            (sheet_of(random, &names, seen_kinds), as_sheet)
        }
        _ => (setup(&few_sections(random)), as_list),
    }
}

/// One fault to three, of any kind, in any order.
pub fn several(sides: &mut Sides, random: &mut Random) {
    let (written, lend) = some(random);
    for _ in 0..12 {
        let mut bytes = written.bytes.clone();
        for _ in 0..=random.size(2) {
            spoil(random, &written, &mut bytes);
        }
        lend(sides, random, &bytes);
    }
}

/// One fault of a section that is named by one byte: its name stands at 35 + 10·i, its offset at 36 + 10·i.
fn spoil_section(random: &mut Random, i: usize, file: &mut [u8]) {
    let (name, offset) = (35 + 10 * i, 36 + 10 * i);
    match random.below(6) {
        0 => file[name] = random.pick(&[47, 58, 64, 91, 96, 123]),
        1 => file[name - 1] = random.pick(&[0, 2, 255]),
        2 | 3 => file[name] = random.pick(b"ABC"),
        _ => {
            let step = random.pick(&[1, 2, u64::MAX, u64::MAX - 1, 65_535, 65_536, 1 << 40]);
            let moved = number(file, offset, 8).wrapping_add(step);
            set_number(file, offset, 8, random.pick(&[moved, moved, moved, 0, 40]));
        }
    }
}

/// Definitions with one fault to three, and at times a cut: some faults end the reading, and some do not.
pub fn of_definitions(sides: &mut Sides, random: &mut Random) {
    let count = 1 + random.size(5);
    let mut recording = smallest();
    recording.sections = (b'A'..)
        .take(count)
        .map(|letter| {
            let length = random.size(2);
            section(&[letter], &random.bytes(length))
        })
        .collect();
    let good = recording.file().bytes;
    for _ in 0..12 {
        let mut file = good.clone();
        for _ in 0..=random.size(2) {
            let i = if random.one_in(3) { 0 } else { random.size(count - 1) };
            spoil_section(random, i, &mut file);
        }
        if random.one_in(5) {
            file.truncate(34 + random.size(10 * count));
        }
        as_file(sides, random, &file);
    }
}

/// The first name that equals one ahead of it.
fn repeated(names: &[Vec<u8>]) -> Option<usize> {
    let mut known = HashSet::new();
    names.iter().position(|name| !known.insert(name))
}

/// Where it stands, by the places where each name starts.
fn second(names: &[Vec<u8>], starts: &[usize]) -> Option<u64> {
    repeated(names).map(|i| starts[i] as u64)
}

/// Whether a call answered with this number and place, where there is one.
fn told(refused: u64, place: u64, number: u64, expected: Option<u64>) -> bool {
    match expected {
        Some(expected) => (refused, place) == (number, expected),
        None => refused != number,
    }
}

const TWICE: &str = "the second of equal names is told, the first that is met";

/// Tags, of which one's value may be bad, at times that behind the second of equal names: what is met first is told, alone and in a file at either place.
fn twice_in_tables(sides: &mut Sides, random: &mut Random, names: &[Vec<u8>]) {
    let mut tags: Vec<Tag> = names.iter().map(|name| Tag { name: name.clone(), value: text(random, 2) }).collect();
    let any = random.size(tags.len() - 1);
    match random.below(3) {
        0 => tags[any].value[1] = 0x7F,
        1 => tags[repeated(names).unwrap_or(any)].value[1] = 0x7F,
        _ => (),
    }
    let written = table(&tags);
    let value = |i: usize| written.starts[1 + i] + names[i].len() + 3;
    let broken = (0..tags.len()).find(|i| tags[*i].value[1] == 0x7F).map(|i| value(i) as u64);
    let expected = second(names, &written.starts[1..]).into_iter().chain(broken).min();
    let first = sides.first_tag(&written.bytes);
    sides.known(told(first.refused, first.place, 7, expected), TWICE, &written.bytes);
    sides.next_tag(&written.bytes, first);
    sides.tag_at(&written.bytes, 0);
    sides.tag_named(&written.bytes, &names[0]);
    let state = sides.fresh();
    let (taken, _, _) = sides.begin(state, &LIST, &written.bytes, &[9; 4], &[]);
    sides.known(told(taken.refused, taken.place, 4, expected), TWICE, &written.bytes);
    for (number, offset, file) in [(4, 48, with_system(&written.bytes)), (7, 94, with_user(&written.bytes))] {
        let opened = sides.open(&file);
        sides.known(told(opened.refused, opened.place, number, expected.map(|place| offset + place)), TWICE, &file);
        as_file(sides, random, &file);
    }
}

/// In a sheet by ones who looked, and in an old one, of which convert tells.
fn twice_in_sheets(sides: &mut Sides, random: &mut Random, names: &[Vec<u8>]) {
    let names = &names[..names.len().min(64)];
    let file = worked().file().bytes;
    for seen_kinds in [SEEN_KINDS, SEEN_KINDS_OF_OLD] {
        let sheet = sheet_of(random, names, seen_kinds);
        let expected = second(names, &sheet.starts);
        let looked = sides.look(&file, &sheet.bytes);
        sides.commit(&file, &sheet.bytes, looked, &[]);
        let (converted, _) = sides.convert(&file, &sheet.bytes, looked, &[]);
        sides.known(told(converted.refused, converted.place, 10, expected), TWICE, &sheet.bytes);
        let as_expected = told(looked.refused, looked.place, 10, expected);
        sides.known(seen_kinds == SEEN_KINDS_OF_OLD || as_expected, TWICE, &sheet.bytes);
    }
}

/// In a set-up list, and in the definitions of a file.
fn twice_in_sections(sides: &mut Sides, random: &mut Random, names: &[Vec<u8>]) {
    let mut recording = worked();
    recording.sections = names
        .iter()
        .map(|name| {
            let length = random.size(2);
            Section { name: name.clone(), configuration: random.bytes(length) }
        })
        .collect();
    recording.frames.clear();
    let list = setup(&recording.sections);
    let state = sides.fresh();
    let (taken, _, _) = sides.begin(state, &list.bytes, &[0; 4], &[9; 4], &[]);
    sides.known(told(taken.refused, taken.place, 3, second(names, &list.starts)), TWICE, &list.bytes);
    let file = recording.file();
    let opened = sides.open(&file.bytes);
    sides.known(told(opened.refused, opened.place, 3, second(names, &file.starts[1..])), TWICE, &file.bytes);
    as_file(sides, random, &file.bytes);
}

/// A few names in any order, most of them more than once: A B B A, A B C B A C and the like.
pub fn names_twice(sides: &mut Sides, random: &mut Random) {
    let kinds = 1 + random.size(5);
    let among = different(random, kinds);
    let count = 1 + random.size(7);
    let names: Vec<Vec<u8>> = (0..count).map(|_| among[random.size(kinds - 1)].clone()).collect();
    twice_in_tables(sides, random, &names);
    twice_in_sheets(sides, random, &names);
    twice_in_sections(sides, random, &names);
}

/// Many names, of which a few are used twice, one pair within another or across it; some names are chosen against the marks.
pub fn names_twice_among_many(sides: &mut Sides, random: &mut Random) {
    let mut names: Vec<Vec<u8>> = if random.one_in(3) {
        (0..40).map(|_| tags::crowding(random)).collect()
    } else {
        let count = random.pick(&[20, 64, 65, 200, 1000]);
        tags(random, count).into_iter().map(|tag| tag.name).collect()
    };
    for _ in 0..random.size(4) {
        let from = random.size(names.len() - 1);
        let to = random.size(names.len() - 1);
        names[to] = names[from].clone();
    }
    twice_in_tables(sides, random, &names);
    twice_in_sheets(sides, random, &names);
}
