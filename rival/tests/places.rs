//! Where the fault is: the places that refusals 3, 4, 7 and 10 carry.

mod common;
use common::*;
use rival::*;

/// The number and the place of a refusal.
fn told<T: std::fmt::Debug>(answer: Result<T, Refusal>) -> (u64, u64) {
    let refusal = answer.unwrap_err();
    (refusal.number, refusal.place)
}

fn file_told(file: &[u8]) -> (u64, u64) {
    let opened = told(open(file));
    // Whatever opens the file answers the same, whatever item is asked for.
    assert_eq!(told(hold(file)), opened);
    assert_eq!(told(frame(file, u64::MAX)), opened);
    assert_eq!(told(part(file, Item::UserName(0))), opened);
    assert_eq!(told(look(file, &[9])), opened);
    assert_eq!(told(commit(file, &[9], &mut [])), opened);
    assert_eq!(told(convert(file, &[9], &mut [])), opened);
    assert_eq!(told(commit_of_old_sheet(file, &[9], &mut [])), opened);
    if opened.0 < 5 {
        assert_eq!(told(repair(file, &mut [])), opened);
    }
    opened
}

fn table_told(table: &[u8]) -> (u64, u64) {
    let told_at = told(tag_at(table, u64::MAX));
    assert_eq!(told(tag_named(table, b"A")), told_at);
    assert_eq!(told(first_tag(table)), told_at);
    // The same table ends a file, and begins a recording.
    let (number, place) = told_at;
    assert_eq!(file_told(&with_table(&WORKED, table)), (number, 94 + place));
    assert_eq!(begin_told(&[1, 1, b'A', 0, 0], table), (4, place));
    told_at
}

fn begin_told(list: &[u8], system: &[u8]) -> (u64, u64) {
    told(begin(State::new(), list, system, &mut [], &mut []))
}

fn list_told(list: &[u8]) -> (u64, u64) {
    // The list is asked first, so a bad system table changes nothing.
    assert_eq!(begin_told(list, &[7]), begin_told(list, &[0; 4]));
    begin_told(list, &[0; 4])
}

fn sheet_told(sheet: &[u8]) -> (u64, u64) {
    let looked = told(look(&WORKED, sheet));
    assert_eq!(told(commit(&WORKED, sheet, &mut [])), looked);
    looked
}

fn old_sheet_told(sheet: &[u8]) -> (u64, u64) {
    let converted = told(convert(&WORKED, sheet, &mut []));
    let committed = commit_of_old_sheet(&WORKED, sheet, &mut []);
    assert_eq!(told(committed), converted);
    converted
}

type SheetTold = fn(&[u8]) -> (u64, u64);

/// What asks about a sheet, and the seen kinds without a value that are legal
/// there.
const SHEETS_TOLD: [(SheetTold, u8); 3] =
    [(sheet_told, 0), (old_sheet_told, 0), (old_sheet_told, 2)];

fn offset(file: &[u8], at: usize, offset: u64) -> Vec<u8> {
    with(file, at, &offset.to_le_bytes())
}

/// Sections with names of one byte and no configurations: names at 34, 44, 54
/// and so on, each with its offset two bytes on.
fn named(names: &[u8]) -> Vec<u8> {
    let letters = b"ABCDEFGH";
    let legal: Vec<(&[u8], &[u8])> = (0..names.len())
        .map(|n| (&letters[n..n + 1], &b""[..]))
        .collect();
    let mut file = Recording::begin(&setup(&legal), &[0; 4]).close();
    for (n, &name) in names.iter().enumerate() {
        file[35 + 10 * n] = name;
    }
    file
}

#[test]
fn the_settled_examples() {
    assert_eq!(file_told(&WORKED[..51]), (4, 48));
    assert_eq!(sheet_told(&[1, 5, 0x41, 7]), (10, 3));
    let twice = [2, 0, 0, 0, 1, 0x41, 0, 1, 0x41, 1, 7];
    assert_eq!(table_told(&twice), (7, 7));
    let list = [1, 5, 0x49, 0x4D, 0x41, 0x47, 0x45, 5, 0, 0x61, 0x62, 0x63];
    assert_eq!(list_told(&list), (10, 9));
    assert_eq!(list_told(&[1, 5, 0x2D, 0x41]), (10, 4));
    let list = setup(&[(b"IMAGE", b""), (b"STATUS", b"")]);
    let two = Recording::begin(&list, &[0; 4]).close();
    assert_eq!((two[40], two[55]), (63, 63));
    let wrong = offset(&two, 40, 64);
    assert_eq!(file_told(&wrong), (3, 40));
    assert_eq!(file_told(&with(&wrong, 52, b"-")), (3, 52));
    assert_eq!(file_told(&offset(&WORKED, 17, 1048)), (4, 1048));
}

#[test]
fn the_second_of_equal_names_that_is_met_first() {
    assert_eq!(file_told(&named(b"ABBA")), (3, 54));
    assert_eq!(file_told(&named(b"ABCBAC")), (3, 64));
    assert_eq!(file_told(&named(b"AAA")), (3, 44));
    let tags = |names: &[u8]| {
        let tags: Vec<(&[u8], &[u8])> = names.chunks(1).map(|name| (name, &b"v"[..])).collect();
        table_told(&table(&tags))
    };
    assert_eq!(tags(b"ABBA"), (7, 4 + 2 * 4));
    assert_eq!(tags(b"ABCBAC"), (7, 4 + 3 * 4));
    for (sheet_told, seen) in SHEETS_TOLD {
        let sheet = |names: &[u8]| {
            let changes = names.iter().flat_map(|&name| [1, name, seen, 0]);
            let count = names.len() as u8;
            let sheet: Vec<u8> = std::iter::once(count).chain(changes).collect();
            sheet_told(&sheet)
        };
        assert_eq!(sheet(b"ABBA"), (10, 1 + 2 * 4));
        assert_eq!(sheet(b"ABCBAC"), (10, 1 + 3 * 4));
    }
    let list = |names: &[u8]| {
        let sections: Vec<(&[u8], &[u8])> = names.chunks(1).map(|name| (name, &b"c"[..])).collect();
        list_told(&setup(&sections))
    };
    assert_eq!(list(b"ABBA"), (3, 1 + 2 * 5));
    assert_eq!(list(b"ABCBAC"), (3, 1 + 3 * 5));
}

#[test]
fn definitions_that_end_the_reading() {
    // The count is ahead of all else.
    assert_eq!(file_told(&with(&WORKED, 33, &[0])), (3, 33));
    assert_eq!(file_told(&with(&WORKED[..34], 33, &[9])), (3, 33));
    // A string that runs out is told at the end, a number at its start.
    assert_eq!(file_told(&WORKED[..34]), (3, 34));
    assert_eq!(file_told(&WORKED[..35]), (3, 35));
    assert_eq!(file_told(&WORKED[..39]), (3, 39));
    assert_eq!(file_told(&WORKED[..40]), (3, 40));
    assert_eq!(file_told(&WORKED[..47]), (3, 40));
    // A name: too short, with a bad byte, with one ahead of the end.
    assert_eq!(file_told(&with(&WORKED, 34, &[0])), (3, 34));
    assert_eq!(file_told(&with(&WORKED, 35, b"-")), (3, 35));
    assert_eq!(file_told(&with(&WORKED, 39, b"[")), (3, 39));
    assert_eq!(file_told(&with(&WORKED[..39], 36, b"- ")), (3, 36));
    // A length of 6 takes in the digit that the offset begins with, and the
    // offset is then read a byte further on; one of 255 meets its zeros.
    assert_eq!(file_told(&with(&WORKED, 34, &[6])), (3, 41));
    assert_eq!(file_told(&with(&WORKED, 34, &[255])), (3, 41));
    // A second section where there is none: the table's zeros are its name.
    assert_eq!(file_told(&with(&WORKED, 33, &[2])), (3, 48));
}

#[test]
fn offsets_and_equal_names_do_not_end_the_reading() {
    assert_eq!(file_told(&offset(&WORKED, 40, 47)), (3, 40));
    assert_eq!(file_told(&offset(&WORKED, 40, u64::MAX)), (3, 40));
    // Three sections: names at 34, 44, 54, offsets at 36, 46, 56, all 64.
    let three = named(b"ABC");
    assert_eq!((three[36], three[46], three[56]), (64, 64, 64));
    // Of two offsets that do not suit each other, the later.
    assert_eq!(file_told(&offset(&three, 46, 63)), (3, 46));
    assert_eq!(file_told(&offset(&three, 56, 63)), (3, 56));
    assert_eq!(file_told(&offset(&three, 46, 65)), (3, 56));
    assert_eq!(file_told(&offset(&three, 46, 64 + 65_536)), (3, 46));
    assert_eq!(file_told(&offset(&three, 56, 64 + 65_536)), (3, 56));
    // As far apart as may be: then the system table is ahead of the last one.
    assert_eq!(file_told(&offset(&three, 56, 64 + 65_535)), (4, 17));
    // The lower of two faults, where neither ends the reading.
    let falling = offset(&three, 46, 63);
    assert_eq!(file_told(&with(&falling, 55, b"A")), (3, 46));
    let falling = offset(&three, 56, 63);
    assert_eq!(file_told(&with(&falling, 55, b"A")), (3, 54));
    // What ends it comes behind what does not.
    assert_eq!(file_told(&named(b"AA-")), (3, 44));
    assert_eq!(file_told(&named(b"-AA")), (3, 35));
    let falling = offset(&named(b"AB-"), 46, 63);
    assert_eq!(file_told(&falling), (3, 46));
    assert_eq!(file_told(&named(b"ABA")[..60]), (3, 54));
    assert_eq!(file_told(&named(b"ABC")[..60]), (3, 56));
    // The first offset is asked about where the definitions end, or never.
    let early = offset(&named(b"AAB"), 36, 0);
    assert_eq!(file_told(&early), (3, 36));
    let early = offset(&named(b"AB-"), 36, 0);
    assert_eq!(file_told(&early), (3, 55));
    assert_eq!(file_told(&offset(&three, 36, 0)[..63]), (3, 56));
    // A first offset that is too high also leaves the second one falling.
    let late = offset(&named(b"AB-"), 36, 65);
    assert_eq!(file_told(&late), (3, 46));
}

#[test]
fn system_tables() {
    for system in [0, 47, 48 + 65_536, u64::MAX] {
        assert_eq!(file_told(&offset(&WORKED, 17, system)), (4, 17));
    }
    // Where the count should stand but does not, at the end or behind it.
    for system in [95, 97, 98, 99, 48 + 65_535] {
        assert_eq!(file_told(&offset(&WORKED, 17, system)), (4, system));
    }
    assert_eq!(file_told(&WORKED[..48]), (4, 48));
    // The mark of the frame is no count.
    assert_eq!(file_told(&offset(&WORKED, 17, 52)), (4, 52));
    assert_eq!(file_told(&with(&WORKED, 48, &[0xE9, 3])), (4, 48));
    // As a tag it is a length and a good byte, then a bad one.
    assert_eq!(file_told(&with(&WORKED, 48, &[1])), (4, 54));

    // The count at 71; RECORDER at 75, its value at 84; EMPTY at 86, its value
    // at 92; the frames from 93 on.
    let file = rich();
    assert_eq!(open(&file).unwrap().start, 93);
    for (at, byte) in [(75, 0), (76, 31), (83, 127), (85, 255), (86, 0), (91, 10)] {
        let place = at as u64;
        assert_eq!(file_told(&with(&file, at, &[byte])), (4, place));
    }
    assert_eq!(file_told(&with(&file, 92, &[1])), (4, 93));
    assert_eq!(file_told(&with(&file, 71, &[3])), (4, 95));
    for (cut, place) in [(71, 71), (74, 71), (75, 75), (80, 80), (84, 84), (92, 92)] {
        assert_eq!(file_told(&file[..cut]), (4, place));
    }
    assert_eq!(file_told(&with(&file[..90], 88, &[0])), (4, 88));
    // The lower number is told, though its fault stands further on.
    let both = with(&offset(&file, 17, 0), 35, b"-");
    assert_eq!(file_told(&both), (3, 35));
}

#[test]
fn tables() {
    assert_eq!(table_told(&[]), (7, 0));
    assert_eq!(table_told(&[0; 3]), (7, 0));
    assert_eq!(table_told(&[0; 5]), (7, 4));
    assert_eq!(table_told(&[0, 0, 0, 0, 1, b'A', 0]), (7, 4));
    assert_eq!(table_told(&[0xE9, 3, 0, 0]), (7, 0));
    assert_eq!(table_told(&[0, 0, 0, 1]), (7, 0));
    // 1,000 tags, of which none is there.
    assert_eq!(table_told(&[0xE8, 3, 0, 0]), (7, 4));
    let tag = |bytes: &[u8]| table_told(&[&[1, 0, 0, 0], bytes].concat());
    assert_eq!(tag(&[]), (7, 4));
    assert_eq!(tag(&[0, 0]), (7, 4));
    assert_eq!(tag(&[1]), (7, 5));
    assert_eq!(tag(&[2, b'A']), (7, 6));
    assert_eq!(tag(&[1, b'A']), (7, 6));
    assert_eq!(tag(&[1, b'A', 1]), (7, 7));
    assert_eq!(tag(&[1, b'A', 2, 127]), (7, 7));
    assert_eq!(tag(&[3, b'A', 31]), (7, 6));
    assert_eq!(tag(&[1, b'A', 0, 9]), (7, 7));
    // A bad value, and a name used twice behind it, and ahead of it.
    let two = |bytes: &[u8]| table_told(&[&[2, 0, 0, 0], bytes].concat());
    assert_eq!(two(&[1, b'A', 1, 31, 1, b'A', 0]), (7, 7));
    assert_eq!(two(&[1, b'A', 0, 1, b'A', 9]), (7, 7));
    assert_eq!(two(&[1, b'A', 0, 2, b'A']), (7, 9));
    assert_eq!(two(&[1, b'A', 0, 1, 127, 0, 9]), (7, 8));
    // An opened file has its user table at 94: the last byte cut, one added.
    assert_eq!(file_told(&WORKED[..97]), (7, 94));
    assert_eq!(file_told(&[&WORKED[..], &[5]].concat()), (7, 98));
}

#[test]
fn sheets() {
    for (sheet_told, seen) in SHEETS_TOLD {
        assert_eq!(sheet_told(&[]), (10, 0));
        assert_eq!(sheet_told(&[65]), (10, 0));
        assert_eq!(sheet_told(&[0, 0]), (10, 1));
        let one = |bytes: &[u8]| sheet_told(&[&[1], bytes].concat());
        assert_eq!(one(&[]), (10, 1));
        assert_eq!(one(&[0, seen, 0]), (10, 1));
        assert_eq!(one(&[1]), (10, 2));
        assert_eq!(one(&[1, 31, seen, 0]), (10, 2));
        // A kind that is missing, and one that there is not.
        assert_eq!(one(&[1, b'A']), (10, 3));
        assert_eq!(one(&[1, b'A', 3, 0]), (10, 3));
        assert_eq!(one(&[1, b'A', 255, 0]), (10, 3));
        assert_eq!(one(&[1, b'A', seen]), (10, 4));
        assert_eq!(one(&[1, b'A', seen, 2]), (10, 4));
        // The value seen, and the new one.
        assert_eq!(one(&[1, b'A', 1]), (10, 4));
        assert_eq!(one(&[1, b'A', 1, 2, b'B']), (10, 6));
        assert_eq!(one(&[1, b'A', 1, 1, 127, 0]), (10, 5));
        assert_eq!(one(&[1, b'A', 1, 0]), (10, 5));
        assert_eq!(one(&[1, b'A', seen, 1, 1, 127]), (10, 6));
        assert_eq!(one(&[1, b'A', seen, 0, 9]), (10, 5));
        // A name used twice ahead of a bad kind, and behind one.
        let two = |bytes: &[u8]| sheet_told(&[&[2], bytes].concat());
        assert_eq!(two(&[1, b'A', seen, 0, 1, b'A', 3, 0]), (10, 5));
        assert_eq!(two(&[1, b'A', 3, 0, 1, b'A', seen, 0]), (10, 3));
        assert_eq!(two(&[1, b'A', seen, 0]), (10, 5));
    }
    // What the file breaks is told first, with its own place.
    for sheet in [&[65][..], &[1, 1, b'A', 2, 0]] {
        let file = &WORKED[..97];
        assert_eq!(told(look(file, sheet)), (7, 94));
        assert_eq!(told(commit(file, sheet, &mut [])), (7, 94));
        assert_eq!(told(convert(file, sheet, &mut [])), (7, 94));
    }
}

/// From request 111 on it is a fault, but not in an old sheet.
#[test]
fn nobody_looked() {
    assert_eq!(sheet_told(&[1, 1, b'A', 2, 0]), (10, 3));
    assert_eq!(old_sheet_told(&[1, 1, b'A', 2, 0]), (9, 0));
    // It ends the reading: what stands behind it is not asked about.
    for behind in [&[][..], &[2], &[0, 9], &[1, 1, 127]] {
        let sheet = [&[1, 1, b'A', 2], behind].concat();
        assert_eq!(sheet_told(&sheet), (10, 3));
    }
    // The old sheet's own faults, behind the kind and ahead of it.
    assert_eq!(old_sheet_told(&[1, 1, b'A', 2, 1, 1, 127]), (10, 6));
    let twice = [3, 1, b'A', 0, 0, 1, b'A', 2, 0, 1, b'B', 2, 0];
    assert_eq!(sheet_told(&twice), (10, 5));
    assert_eq!(old_sheet_told(&twice), (10, 5));
    let twice = [3, 1, b'A', 0, 0, 1, b'B', 2, 0, 1, b'A', 2, 0];
    assert_eq!(sheet_told(&twice), (10, 7));
    assert_eq!(old_sheet_told(&twice), (10, 9));
}

#[test]
fn set_up_lists() {
    // Incomplete: its count and its bytes are not asked about.
    assert_eq!(list_told(&[]), (10, 0));
    assert_eq!(list_told(&[9]), (10, 1));
    assert_eq!(list_told(&[1, 1, b'-']), (10, 3));
    assert_eq!(list_told(&[1, 0, 5]), (10, 2));
    assert_eq!(list_told(&[1, 1, b'A', 1, 0]), (10, 5));
    assert_eq!(list_told(&[2, 1, b'A', 0, 0, 1, b'A']), (10, 7));
    assert_eq!(list_told(&[0, 5]), (10, 1));
    assert_eq!(list_told(&[1, 1, b'-', 0, 0, 9]), (10, 5));
    // Complete: counted in the list.
    assert_eq!(list_told(&[0]), (3, 0));
    assert_eq!(list_told(&[1, 0, 0, 0]), (3, 1));
    assert_eq!(list_told(&[1, 1, b'-', 0, 0]), (3, 2));
    assert_eq!(list_told(&[1, 3, b'A', b'1', b' ', 0, 0]), (3, 4));
    let twice = [2, 1, b'A', 1, 0, b'-', 1, b'A', 0, 0];
    assert_eq!(list_told(&twice), (3, 6));
    let nine = [&[9][..], &[1, b'-', 0, 0].repeat(9)].concat();
    assert_eq!(list_told(&nine), (3, 0));
}

#[test]
fn other_numbers_carry_no_place() {
    assert_eq!(file_told(&WORKED[..33]), (1, 0));
    assert_eq!(file_told(&with(&WORKED, 4, &[2])), (2, 0));
    assert_eq!(file_told(&with(&WORKED, 9, &[0])), (5, 0));
    assert_eq!(file_told(&with(&WORKED, 9, &[75])), (6, 0));
    assert_eq!(told(frame(&WORKED, 1)), (8, 0));
    assert_eq!(told(part(&WORKED, Item::UserName(0))), (8, 0));
    let held = hold(&WORKED).unwrap();
    assert_eq!(told(frame_of(&WORKED, &held, 1)), (8, 0));
    assert_eq!(told(part_of(&WORKED, &held, Item::SectionName(1))), (8, 0));
    assert_eq!(told(repair(&WORKED, &mut [])), (16, 0));
    assert_eq!(told(repair(&unclosed(), &mut [])), (9, 0));
    assert_eq!(told(commit(&WORKED, &[0], &mut [])), (9, 0));
    assert_eq!(told(convert(&WORKED, &[0], &mut [])), (9, 0));
    assert_eq!(begin_told(&[1, 1, b'A', 0, 0], &[0; 4]), (9, 0));
    assert_eq!(told(close(State::new(), &[], &mut [])), (12, 0));
    let running = Recording::begin(&[1, 1, b'A', 0, 0], &[0; 4]).state;
    let added = add(running, 0, 0, &[0], &mut [], &mut []);
    assert_eq!(told(added), (14, 0));
    // 11 counts changes: the second of two, far into the sheet.
    let sheet = [2, 3, b'A', b'B', b'C', 0, 0, 1, b'A', 1, 0, 0];
    assert_eq!(told(commit(&WORKED, &sheet, &mut [])), (11, 1));
}
