//! Look: which changes of a sheet conflict, and what it is refused.

mod common;
use common::*;
use rival::*;

const ABSENT: &[u8] = &[0];
const NOBODY_LOOKED: &[u8] = &[2];
const SOME_VALUE: &[u8] = &[1, 1, b'v'];

/// The number of changes and the set of those that conflict. What commit
/// answers to the same sheet is held against it.
fn looked(file: &[u8], sheet: &[u8]) -> (u64, u64) {
    let mut out = vec![0xAA; file.len() + sheet.len()];
    let committed = commit_after_look(file, sheet, &mut out);
    let Looked { changes, conflicts } = look(file, sheet).unwrap();
    assert_eq!(committed.is_ok(), conflicts == 0);
    (changes, conflicts)
}

/// One change's bit. It is the same whatever the change makes of the tag: a new
/// value, none, or what was seen.
fn one(file: &[u8], name: &[u8], seen: &[u8]) -> u64 {
    let of_new = |new: &[u8]| looked(file, &sheet(&[(name, seen, new)]));
    let (changes, conflicts) = of_new(SOME_VALUE);
    assert_eq!(changes, 1);
    assert_eq!(of_new(ABSENT), (1, conflicts));
    assert_eq!(of_new(seen), (1, conflicts));
    conflicts
}

#[test]
fn each_kind_of_seen_entry() {
    let file = with_table(&WORKED, &table(&[(b"A", b"1"), (b"B", b"")]));
    // A value: equal, another, longer, shorter, and of another tag.
    assert_eq!(one(&file, b"A", &[1, 1, b'1']), 0);
    assert_eq!(one(&file, b"A", &[1, 1, b'2']), 1);
    assert_eq!(one(&file, b"A", &[1, 2, b'1', b'1']), 1);
    assert_eq!(one(&file, b"A", &[1, 0]), 1);
    assert_eq!(one(&file, b"B", &[1, 1, b'1']), 1);
    // An empty value is not an absent tag.
    assert_eq!(one(&file, b"B", &[1, 0]), 0);
    assert_eq!(one(&file, b"B", ABSENT), 1);
    assert_eq!(one(&file, b"C", &[1, 0]), 1);
    assert_eq!(one(&file, b"C", ABSENT), 0);
    // Names are told apart by every byte, and system tags are none of these.
    assert_eq!(one(&file, b"a", ABSENT), 0);
    assert_eq!(one(&file, b"AB", ABSENT), 0);
    assert_eq!(one(&rich(), b"RECORDER", ABSENT), 0);
}

#[test]
fn what_nobody_looked_at_is_refused_at_its_kind() {
    let file = with_table(&WORKED, &table(&[(b"A", b"1"), (b"B", b"")]));
    let refused = |sheet: &[u8]| {
        let refused = look(&file, sheet).unwrap_err();
        assert_eq!(commit(&file, sheet, &mut [0; 64]), Err(refused));
        (refused.number, refused.place)
    };
    for name in [&b"A"[..], b"B", b"C"] {
        for new in [ABSENT, SOME_VALUE] {
            assert_eq!(refused(&sheet(&[(name, NOBODY_LOOKED, new)])), (10, 3));
        }
    }
    // The first of two, behind a change that conflicts, which is not told.
    let changes: [(&[u8], &[u8], &[u8]); 3] = [
        (b"B", ABSENT, ABSENT),
        (b"A", NOBODY_LOOKED, ABSENT),
        (b"C", NOBODY_LOOKED, SOME_VALUE),
    ];
    assert_eq!(refused(&sheet(&changes)), (10, 7));
}

#[test]
fn an_empty_sheet_has_no_conflict() {
    assert_eq!(looked(&WORKED, &[0]), (0, 0));
    assert_eq!(looked(&rich(), &[0]), (0, 0));
}

#[test]
fn all_conflicts_are_shown() {
    let file = with_table(&WORKED, &table(&[(b"A", b"1"), (b"B", b""), (b"C", b"3")]));
    let changes: [(&[u8], &[u8], &[u8]); 5] = [
        (b"C", &[1, 1, b'3'], SOME_VALUE),
        (b"Z", SOME_VALUE, ABSENT),
        (b"A", ABSENT, SOME_VALUE),
        (b"Y", ABSENT, SOME_VALUE),
        (b"B", SOME_VALUE, SOME_VALUE),
    ];
    assert_eq!(looked(&file, &sheet(&changes)), (5, 0b10110));
}

/// Changes of 64 names, the even ones of which are tags. Those in the set
/// conflict: there the tag is said to be absent, or to have a value.
fn sixty_four(conflicts: u64) -> (Vec<u8>, Vec<u8>) {
    let names: Vec<Vec<u8>> = (0..64).map(|i| format!("N{}", i).into_bytes()).collect();
    let tags: Vec<(&[u8], &[u8])> = names
        .iter()
        .step_by(2)
        .map(|n| (&n[..], &b"v"[..]))
        .collect();
    let changes: Vec<(&[u8], &[u8], &[u8])> = (0..64)
        .map(|i| {
            let is_tag = i % 2 == 0;
            let agrees = conflicts >> i & 1 == 0;
            let seen = if is_tag == agrees { SOME_VALUE } else { ABSENT };
            (&names[i][..], seen, ABSENT)
        })
        .collect();
    (with_table(&WORKED, &table(&tags)), sheet(&changes))
}

#[test]
fn each_bit_is_its_change() {
    let conflicting = |set| {
        let (file, sheet) = sixty_four(set);
        assert_eq!(looked(&file, &sheet), (64, set));
    };
    conflicting(0);
    conflicting(u64::MAX);
    for i in 0..64 {
        conflicting(1 << i);
        conflicting(u64::MAX << i);
        conflicting(1 << 63 | 1 << i);
        conflicting(!(1 << i));
    }
    conflicting(3 << 62);
    conflicting(1 << 32 | 1 << 31);
    let mut seeded = Seeded(0x0BAD_5EED_0BAD_5EED);
    for _ in 0..200 {
        conflicting(seeded.next());
    }
}

#[test]
fn refused_1_to_7_then_10() {
    let told = |file: &[u8]| {
        // The file is asked first, whatever the sheet is.
        let malformed = look(file, &[65]);
        let conflicting = look(file, &sheet(&[(b"A", SOME_VALUE, ABSENT)]));
        assert_eq!(malformed, conflicting);
        assert_eq!(commit(file, &[65], &mut []), malformed.map(|_| 0));
        malformed.map_err(|refusal| (refusal.number, refusal.place))
    };
    // Of two faults the lower number is told: each is mended in its turn.
    let mut file = [&WORKED[..], &[9]].concat();
    file[9] = 75;
    file[29] = 1;
    file[48] = 1;
    file[35] = b'-';
    file[4] = 2;
    file[0] = b'G';
    assert_eq!(told(&file), Err((1, 0)));
    file[0] = b'F';
    assert_eq!(told(&file), Err((2, 0)));
    file[4] = 1;
    assert_eq!(told(&file), Err((3, 35)));
    file[35] = b'I';
    assert_eq!(told(&file), Err((4, 54)));
    file[48] = 0;
    assert_eq!(told(&file), Err((5, 0)));
    file[29] = 0;
    assert_eq!(told(&file), Err((6, 0)));
    file[9] = 74;
    assert_eq!(told(&file), Err((7, 98)));
    file.pop();
    let refused = look(&file, &[65]).unwrap_err();
    assert_eq!((refused.number, refused.place), (10, 0));
    // A malformed sheet is told ahead of its conflicts, at the place in it.
    let sheet = [2, 1, b'A', 1, 0, 0, 1, b'B', 3, 0];
    let refused = look(&file, &sheet).unwrap_err();
    assert_eq!((refused.number, refused.place), (10, 8));
}

#[test]
fn a_full_table_and_room_are_not_asked_about() {
    let names: Vec<Vec<u8>> = (0..1000).map(|n| format!("{}", n).into_bytes()).collect();
    let tags: Vec<(&[u8], &[u8])> = names.iter().map(|name| (&name[..], &b"v"[..])).collect();
    let file = with_table(&WORKED, &table(&tags));
    let number = |sheet: &[u8]| commit_after_look(&file, sheet, &mut []).unwrap_err().number;
    let adding = sheet(&[(b"A", ABSENT, SOME_VALUE)]);
    let agrees = Looked {
        changes: 1,
        conflicts: 0,
    };
    assert_eq!(look(&file, &adding), Ok(agrees));
    assert_eq!(number(&adding), 17);
    // Here commit lacks room, and there it is refused for the conflict first.
    assert_eq!(number(&sheet(&[(b"999", SOME_VALUE, ABSENT)])), 9);
    let both = sheet(&[(b"A", ABSENT, SOME_VALUE), (b"999", ABSENT, ABSENT)]);
    assert_eq!(look(&file, &both).unwrap().conflicts, 0b10);
    assert_eq!(number(&both), 11);
}
