//! Convert: what becomes of an old sheet, what is refused, and that the commit
//! of the new sheet gives what the old one gave.

mod common;
use common::*;
use rival::*;

const ABSENT: &[u8] = &[0];
const NOBODY_LOOKED: &[u8] = &[2];
const SOME_VALUE: &[u8] = &[1, 1, b'v'];

/// 64 changes of a name and two values of 255 bytes.
const LARGEST_SHEET: usize = 1 + 64 * (256 + 257 + 257);

/// The number, the place and what is in the output after a call.
type Left = (Result<u64, Refusal>, Vec<u8>);
type Call = fn(&[u8], &[u8], &mut [u8]) -> Result<u64, Refusal>;

fn left_by(call: Call, file: &[u8], sheet: &[u8], room: usize) -> Left {
    let before = vec![0xAA; room];
    let mut out = before.clone();
    let answer = call(file, sheet, &mut out);
    let written = answer.unwrap_or(0) as usize;
    assert!(out[written..] == before[written..]);
    (answer, out)
}

/// What a refused call answers, and that nothing is written.
fn refused(file: &[u8], sheet: &[u8], room: usize) -> (u64, u64) {
    let refusal = left_by(convert, file, sheet, room).0.unwrap_err();
    (refusal.number, refusal.place)
}

/// The new sheet, or the refusal, in ample room: 256 bytes more for each change.
/// What is accepted needs exactly its own length, and what is refused there is
/// refused so in any room.
fn converted(file: &[u8], old: &[u8]) -> Result<Vec<u8>, Refusal> {
    let (answer, mut out) = left_by(convert, file, old, old.len() + 64 * 256);
    if answer.is_err() {
        assert_eq!(left_by(convert, file, old, 0).0, answer);
    }
    let length = answer? as usize;
    out.truncate(length);
    assert!(length >= old.len() && length <= LARGEST_SHEET);
    assert_eq!(left_by(convert, file, old, length), (answer, out.clone()));
    assert_eq!(refused(file, old, length - 1), (9, 0));
    Ok(out)
}

/// The seen kinds of a legal sheet, old or new.
fn seen_kinds(sheet: &[u8]) -> Vec<u8> {
    let mut kinds = Vec::new();
    let mut at = 1;
    for _ in 0..sheet[0] {
        at += 1 + usize::from(sheet[at]);
        kinds.push(sheet[at]);
        for _seen_and_new in 0..2 {
            let value = sheet[at] == 1;
            at += 1;
            if value {
                at += 1 + usize::from(sheet[at]);
            }
        }
    }
    assert_eq!(at, sheet.len());
    kinds
}

/// In one room the new sheet is committed as the old one was before request 111:
/// number, place and table.
fn committed_alike(file: &[u8], old: &[u8], new: &[u8], room: usize) {
    let before = left_by(commit_of_old_sheet, file, old, room);
    assert_eq!(left_by(commit, file, new, room), before);
}

/// Everything that is claimed of a conversion, but for what the table says.
/// The new sheet comes with what its commit answers in ample room.
fn held_to_the_claims(file: &[u8], old: &[u8]) -> Result<(Vec<u8>, Result<u64, Refusal>), Refusal> {
    let new = converted(file, old);
    let ample = file.len() + old.len();
    let before = left_by(commit_of_old_sheet, file, old, ample).0;
    // Refused 10 are those that were refused 10, and 1 to 7 those whose file is.
    let refused_before = before.err().filter(|refusal| refusal.number <= 10);
    assert_eq!(new.as_ref().err(), refused_before.as_ref());
    let new = new?;
    assert!(seen_kinds(&new).iter().all(|&kind| kind < 2));
    assert!(look(file, &new).is_ok());
    match look(file, old) {
        Ok(_) => assert!(new == old),
        Err(refusal) => {
            // The first kind byte that is replaced, and no byte ahead of it.
            let place = refusal.place as usize;
            assert_eq!((refusal.number, old[place]), (10, 2));
            assert!(new[..place] == old[..place] && new[place] < 2);
        }
    }
    assert_eq!(seen_kinds(&new).len(), seen_kinds(old).len());
    let length = before.unwrap_or(1) as usize;
    for room in [length - 1, length, ample] {
        committed_alike(file, old, &new, room);
    }
    Ok((new, before))
}

/// The new sheet of an old one that is accepted.
fn new_sheet(file: &[u8], old: &[u8]) -> Vec<u8> {
    held_to_the_claims(file, old).unwrap().0
}

#[test]
fn the_sheet_of_p11_by_one_who_did_not_look() {
    let old = [0x01, 0x04, 0x53, 0x49, 0x54, 0x45, 0x02, 0x01, 0x01, 0x41];
    let new = [0x01, 0x04, 0x53, 0x49, 0x54, 0x45, 0x00, 0x01, 0x01, 0x41];
    assert_eq!(new_sheet(&WORKED, &old), new);

    // On the table that comes of it, where P12's sheet conflicts.
    let file = with_table(&WORKED, &table(&[(b"SITE", b"A")]));
    #[rustfmt::skip]
    let new = [0x01, 0x04, 0x53, 0x49, 0x54, 0x45, 0x01, 0x01, 0x41, 0x01, 0x01, 0x41];
    assert_eq!(new_sheet(&file, &old), new);
    let mut out = [0xAA; 16];
    assert_eq!(commit(&file, &new, &mut out), Ok(11));
    assert_eq!(out[..11], file[94..]);
}

#[test]
fn each_kind_of_seen_entry() {
    let file = with_table(&WORKED, &table(&[(b"A", b"1"), (b"B", b"")]));
    let one = |name: &[u8], seen: &[u8], new: &[u8]| {
        let sheet_with = |seen: &[u8]| sheet(&[(name, seen, new)]);
        assert_eq!(
            new_sheet(&file, &sheet_with(NOBODY_LOOKED)),
            sheet_with(seen)
        );
        assert_eq!(new_sheet(&file, &sheet_with(seen)), sheet_with(seen));
    };
    for new in [ABSENT, SOME_VALUE, &[1, 0]] {
        one(b"A", &[1, 1, b'1'], new);
        // An empty value is not an absent tag.
        one(b"B", &[1, 0], new);
        one(b"C", ABSENT, new);
        // Names are told apart by every byte.
        one(b"a", ABSENT, new);
        one(b"AB", ABSENT, new);
    }
    // System tags are none of these.
    let old = sheet(&[(b"RECORDER", NOBODY_LOOKED, ABSENT)]);
    assert_eq!(
        new_sheet(&rich(), &old),
        sheet(&[(b"RECORDER", ABSENT, ABSENT)])
    );
}

#[test]
fn all_else_stays_as_it_was() {
    let file = with_table(
        &WORKED,
        &table(&[(b"A", b"1"), (b"BB", b"22"), (b"C", b"")]),
    );
    // The table's order is another; twos are lengths and counts as well, and
    // what was seen wrongly is left so.
    let old = sheet(&[
        (b"C", &[1, 2, b'x', b'y'], &[1, 2, b' ', b'2']),
        (b"BB", NOBODY_LOOKED, &[1, 2, b'z', b'z']),
        (b"22", ABSENT, ABSENT),
        (b"A", NOBODY_LOOKED, ABSENT),
        (b"D", NOBODY_LOOKED, &[1, 0]),
        (b"E", SOME_VALUE, ABSENT),
    ]);
    let expected = sheet(&[
        (b"C", &[1, 2, b'x', b'y'], &[1, 2, b' ', b'2']),
        (b"BB", &[1, 2, b'2', b'2'], &[1, 2, b'z', b'z']),
        (b"22", ABSENT, ABSENT),
        (b"A", &[1, 1, b'1'], ABSENT),
        (b"D", ABSENT, &[1, 0]),
        (b"E", SOME_VALUE, ABSENT),
    ]);
    let (new, before) = held_to_the_claims(&file, &old).unwrap();
    assert_eq!(new, expected);
    // It conflicts as it did, at the first of two.
    assert_eq!(before, Err(conflict_at(0)));
    assert_eq!(look(&file, &new).unwrap().conflicts, 0b100001);
    // Converted once more, it is as it is.
    assert_eq!(new_sheet(&file, &new), new);
    assert_eq!(new_sheet(&file, &[0]), [0]);
}

#[test]
fn the_largest_sheet() {
    let name = |i: u8| vec![33 + i; 255];
    let names: Vec<Vec<u8>> = (0..64).map(name).collect();
    let value = vec![b'v'; 255];
    let tags: Vec<(&[u8], &[u8])> = names.iter().map(|name| (&name[..], &value[..])).collect();
    let file = with_table(&WORKED, &table(&tags));
    let entry = [&[1, 255], &value[..]].concat();
    let changes = |seen| -> Vec<(&[u8], &[u8], &[u8])> {
        names
            .iter()
            .map(|name| (&name[..], seen, &entry[..]))
            .collect()
    };
    let old = sheet(&changes(NOBODY_LOOKED));
    let new = new_sheet(&file, &old);
    assert_eq!(new, sheet(&changes(&entry)));
    assert_eq!((old.len(), new.len()), (32_897, 49_281));
    assert_eq!(new.len(), old.len() + 64 * 256);
    assert_eq!(refused(&file, &old, 49_280), (9, 0));
}

#[test]
fn conflicts_and_a_full_table_are_not_asked_about() {
    let names: Vec<Vec<u8>> = (0..1000).map(|n| format!("{}", n).into_bytes()).collect();
    let tags: Vec<(&[u8], &[u8])> = names.iter().map(|name| (&name[..], &b"v"[..])).collect();
    let file = with_table(&WORKED, &table(&tags));
    let number = |old: &[u8]| {
        let (_, before) = held_to_the_claims(&file, old).unwrap();
        before.map_or_else(|refusal| refusal.number, |_| 0)
    };
    let adding = (&b"A"[..], NOBODY_LOOKED, SOME_VALUE);
    let removing = (&b"999"[..], NOBODY_LOOKED, ABSENT);
    assert_eq!(number(&sheet(&[adding])), 17);
    assert_eq!(number(&sheet(&[adding, removing])), 0);
    assert_eq!(number(&sheet(&[adding, (b"0", ABSENT, ABSENT)])), 11);
    let both = sheet(&[adding, removing]);
    let expected = sheet(&[(b"A", ABSENT, SOME_VALUE), (b"999", SOME_VALUE, ABSENT)]);
    assert_eq!(new_sheet(&file, &both), expected);
}

#[test]
fn refused_1_to_7_then_10_then_9() {
    let told = |file: &[u8], sheet: &[u8]| {
        // The output is asked last.
        assert_eq!(refused(file, sheet, 0), refused(file, sheet, 64));
        refused(file, sheet, 0)
    };
    let old = sheet(&[(b"A", NOBODY_LOOKED, ABSENT)]);
    let file_told = |file: &[u8]| {
        assert_eq!(told(file, &old), told(file, &[65]));
        told(file, &old)
    };
    // Of two faults the lower number is told: each is mended in its turn.
    let mut file = [&WORKED[..], &[9]].concat();
    file[9] = 75;
    file[29] = 1;
    file[48] = 1;
    file[35] = b'-';
    file[4] = 2;
    file[0] = b'G';
    assert_eq!(file_told(&file), (1, 0));
    file[0] = b'F';
    assert_eq!(file_told(&file), (2, 0));
    file[4] = 1;
    assert_eq!(file_told(&file), (3, 35));
    file[35] = b'I';
    assert_eq!(file_told(&file), (4, 54));
    file[48] = 0;
    assert_eq!(file_told(&file), (5, 0));
    file[29] = 0;
    assert_eq!(file_told(&file), (6, 0));
    file[9] = 74;
    assert_eq!(file_told(&file), (7, 98));
    file.pop();
    assert_eq!(told(&file, &[65]), (10, 0));
    // Behind a change that nobody looked at, and behind one that conflicts.
    let bad = sheet(&[(b"A", NOBODY_LOOKED, ABSENT), (b"B", &[3], ABSENT)]);
    assert_eq!(told(&file, &bad), (10, 7));
    let bad = sheet(&[(b"A", SOME_VALUE, ABSENT), (b"B", ABSENT, &[2])]);
    assert_eq!(told(&file, &bad), (10, 10));
    assert_eq!(refused(&file, &old, old.len() - 1), (9, 0));
    assert_eq!(refused(&file, &old, 0), (9, 0));
    assert_eq!(new_sheet(&file, &old), sheet(&[(b"A", ABSENT, ABSENT)]));
}

/// A change as a list has it; nobody looked where `seen` is `None`.
#[derive(Clone)]
struct Change {
    name: Vec<u8>,
    seen: Option<Option<Vec<u8>>>,
    new: Option<Vec<u8>>,
}

fn entry(value: &Option<Vec<u8>>) -> Vec<u8> {
    match value {
        None => ABSENT.to_vec(),
        Some(value) => [&[1], &short(value)[..]].concat(),
    }
}

fn sheet_of(changes: &[Change]) -> Vec<u8> {
    let mut sheet = vec![changes.len() as u8];
    for change in changes {
        sheet.extend(short(&change.name));
        sheet.extend(change.seen.as_ref().map_or(NOBODY_LOOKED.to_vec(), entry));
        sheet.extend(entry(&change.new));
    }
    sheet
}

type Tags = Vec<(Vec<u8>, Vec<u8>)>;

fn value_of(tags: &Tags, name: &[u8]) -> Option<Vec<u8>> {
    let tag = tags.iter().find(|tag| tag.0 == name);
    tag.map(|tag| tag.1.clone())
}

/// What a conversion comes to, by lists.
fn filled(changes: &[Change], tags: &Tags) -> Vec<Change> {
    let mut filled = changes.to_vec();
    for change in &mut filled {
        let in_table = value_of(tags, &change.name);
        change.seen.get_or_insert(in_table);
    }
    filled
}

fn some_name(seeded: &mut Seeded) -> Vec<u8> {
    match seeded.below(40) {
        0 => vec![b'n' + seeded.below(3) as u8; 255],
        _ => format!("N{}", seeded.below(14)).into_bytes(),
    }
}

fn some_value(seeded: &mut Seeded) -> Vec<u8> {
    let length = match seeded.below(60) {
        0 => 255,
        _ => seeded.below(4) as usize,
    };
    vec![b'u' + seeded.below(2) as u8; length]
}

/// Few tags, or at times nearly as many as there may be.
fn some_tags(seeded: &mut Seeded) -> Tags {
    if seeded.below(1000) == 0 {
        let count = 1000 - seeded.below(3);
        return (0..count)
            .map(|i| (format!("N{}", i).into_bytes(), some_value(seeded)))
            .collect();
    }
    let mut tags = Tags::new();
    for _ in 0..seeded.below(10) {
        let name = some_name(seeded);
        if value_of(&tags, &name).is_none() {
            tags.push((name, some_value(seeded)));
        }
    }
    tags
}

/// Names are different but for one time in twelve. What was seen is mostly what
/// the table says.
fn some_changes(seeded: &mut Seeded, tags: &Tags) -> Vec<Change> {
    let most = if seeded.below(100) == 0 { 66 } else { 6 };
    let may_repeat = seeded.below(12) == 0;
    let nobody = [1, 2, 4, 1_000_000][seeded.below(4) as usize];
    let mut changes: Vec<Change> = Vec::new();
    for i in 0..seeded.below(most + 1) {
        let is_new = most > 6 || tags.len() > 900 && seeded.below(4) > 0;
        let name = if is_new {
            format!("M{}", i).into_bytes()
        } else {
            some_name(seeded)
        };
        if !may_repeat && changes.iter().any(|change| change.name == name) {
            continue;
        }
        let claimed = match seeded.below(12) {
            0 => None,
            1 => Some(some_value(seeded)),
            _ => value_of(tags, &name),
        };
        let seen = if seeded.below(nobody) == 0 {
            None
        } else {
            Some(claimed)
        };
        let new = if seeded.below(3) == 0 {
            None
        } else {
            Some(some_value(seeded))
        };
        changes.push(Change { name, seen, new });
    }
    changes
}

/// One byte set, put in or taken out, or a cut.
fn spoil(seeded: &mut Seeded, bytes: &mut Vec<u8>) {
    let at = seeded.below(bytes.len() as u64) as usize;
    let any = seeded.next() as u8;
    let byte = [0, 1, 2, 3, 31, b'N', 127, any][seeded.below(8) as usize];
    match seeded.below(5) {
        0 => bytes.insert(at, byte),
        1 => {
            bytes.remove(at);
        }
        2 => bytes.truncate(at),
        _ => bytes[at] = byte,
    }
}

/// What was met of the answers.
#[derive(Default, Debug)]
struct Met {
    filled_in: u32,
    unchanged: u32,
    refused: [u32; 18],
    committed: [u32; 18],
}

const INPUTS: u32 = 200_000;

/// The claims of request 111 over seeded files and sheets, whole and spoilt.
#[test]
fn a_converted_sheet_commits_as_the_old_one_did() {
    let mut seeded = Seeded(0x1110_0111_DEAD_10CC);
    let fronts = [
        WORKED[..94].to_vec(),
        rich()[..open(&rich()).unwrap().user as usize].to_vec(),
    ];
    let mut met = Met::default();
    for _ in 0..INPUTS {
        let tags = some_tags(&mut seeded);
        let changes = some_changes(&mut seeded, &tags);
        let listed: Vec<(&[u8], &[u8])> = tags.iter().map(|tag| (&tag.0[..], &tag.1[..])).collect();
        let mut file = fronts[seeded.below(2) as usize].clone();
        file.extend(table(&listed));
        let mut old = sheet_of(&changes);
        let (spoil_file, spoil_sheet) = (seeded.below(12) == 0, seeded.below(3) == 0);
        if spoil_file {
            spoil(&mut seeded, &mut file);
        }
        if spoil_sheet {
            spoil(&mut seeded, &mut old);
        }
        match held_to_the_claims(&file, &old) {
            Ok((new, before)) => {
                if !spoil_file && !spoil_sheet {
                    assert_eq!(new, sheet_of(&filled(&changes, &tags)));
                }
                let met_so = if new == old {
                    &mut met.unchanged
                } else {
                    &mut met.filled_in
                };
                *met_so += 1;
                met.committed[before.map_or_else(|r| r.number, |_| 0) as usize] += 1;
            }
            Err(refusal) => {
                assert!(spoil_file || refusal.number == 10);
                met.refused[refusal.number as usize] += 1;
            }
        }
    }
    assert!(
        met.filled_in > 50_000 && met.unchanged > 10_000,
        "{:?}",
        met
    );
    assert!((1..=7).all(|number| met.refused[number] > 20), "{:?}", met);
    assert!(met.refused[10] > 10_000, "{:?}", met);
    assert!(
        met.committed[0] > 50_000 && met.committed[11] > 10_000,
        "{:?}",
        met
    );
    assert!(met.committed[17] > 20, "{:?}", met);
}
