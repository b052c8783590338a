//! To convert: old sheets with seen kind 2, that nobody looked, filled in from the file that they were prepared against.

mod common;

use common::{before_closing, tagged, with, WHOLE};
use suljanko::{
    calls, commit, convert, convert_room, look, Lent, Position, Reason, Recording, Refusal, Seen, Sheet, LARGEST_SHEET,
};

/// An entry of a sheet: no such tag, or a value.
type Entry<'e> = Option<&'e str>;

/// A change of an old sheet: its name; what was seen, none where nobody looked; what is new.
type OldChange<'e> = (&'e str, Option<Entry<'e>>, Entry<'e>);

fn put_string(bytes: &mut Vec<u8>, string: &str) {
    bytes.push(string.len() as u8);
    bytes.extend_from_slice(string.as_bytes());
}

fn put_entry(bytes: &mut Vec<u8>, entry: Entry<'_>) {
    bytes.push(u8::from(entry.is_some()));
    if let Some(value) = entry {
        put_string(bytes, value);
    }
}

/// The bytes of an old sheet, which no other part of the crate makes any more.
fn old_sheet(changes: &[OldChange<'_>]) -> Vec<u8> {
    let mut bytes = vec![changes.len() as u8];
    for (name, seen, new) in changes {
        put_string(&mut bytes, name);
        match seen {
            Some(entry) => put_entry(&mut bytes, *entry),
            None => bytes.push(2),
        }
        put_entry(&mut bytes, *new);
    }
    bytes
}

/// The worked file with these user tags.
fn file_with(tags: &[(&str, &str)]) -> Vec<u8> {
    commit(&WHOLE, &Sheet::from_form(&[], tags)).unwrap().to_vec()
}

fn user_tags(file: &[u8]) -> Vec<(&str, &str)> {
    Recording::open(file).unwrap().user_tags().map(|tag| (tag.name, tag.value)).collect()
}

/// What the library writes into a longer output than is needed, having looked that it leaves the rest.
fn converted(file: &[u8], old: &[u8]) -> Vec<u8> {
    let mut out = vec![0x5A; convert_room(old.len()) + 7];
    let answer = calls::convert(file, old, &mut out);
    assert_eq!((answer.refused, answer.place), (0, 0), "{old:?}");
    let new = out[..answer.length as usize].to_vec();
    assert!(out[new.len()..].iter().all(|byte| *byte == 0x5A));
    new
}

/// That it is refused so, and nothing is written, with all the room that it could need.
fn refused(file: &[u8], old: &[u8], number: u64, place: u64) {
    let mut out = vec![0x5A; LARGEST_SHEET];
    let answer = calls::convert(file, old, &mut out);
    assert_eq!((answer.refused, answer.place, answer.length), (number, place, 0), "{old:?}");
    assert!(out.iter().all(|byte| *byte == 0x5A));
    let refusal = convert(file, old).unwrap_err();
    assert_eq!((Some(refusal), refusal.number()), (answer.refusal(), number));
}

// P11's file and sheet: nobody looked whether there is a tag SITE, and it is to be A.
const NOBODY_LOOKED: &[u8] = &[0x01, 0x04, 0x53, 0x49, 0x54, 0x45, 0x02, 0x01, 0x01, 0x41];

#[test]
fn p11_where_nobody_looked() {
    // there is no such tag: the sheet of P11
    let p11 = [0x01, 0x04, 0x53, 0x49, 0x54, 0x45, 0x00, 0x01, 0x01, 0x41];
    assert_eq!(converted(&WHOLE, NOBODY_LOOKED), p11);
    let done = convert(&WHOLE, NOBODY_LOOKED).unwrap();
    assert_eq!((done.bytes(), done.sheet().to_vec()), (&p11[..], p11.to_vec()));
    let committed = commit(&WHOLE, done.sheet()).unwrap();
    assert_eq!(committed.table(), [0x01, 0x00, 0x00, 0x00, 0x04, 0x53, 0x49, 0x54, 0x45, 0x01, 0x41]);
    // against what that gave: SITE is A, and stays A, as the old sheet left it when it was committed twice
    let file = committed.to_vec();
    let again = [0x01, 0x04, 0x53, 0x49, 0x54, 0x45, 0x01, 0x01, 0x41, 0x01, 0x01, 0x41];
    assert_eq!(converted(&file, NOBODY_LOOKED), again);
    assert_eq!(commit(&file, convert(&file, NOBODY_LOOKED).unwrap().sheet()).unwrap().to_vec(), file);
    // P12: what was prepared against the file before is told of the change
    assert_eq!(commit(&file, done.sheet()).err(), Refusal::of(11, 0));
}

#[test]
fn an_empty_value_is_a_value() {
    let file = file_with(&[("SITE", "")]);
    let filled = [0x01, 0x04, 0x53, 0x49, 0x54, 0x45, 0x01, 0x00, 0x01, 0x01, 0x41];
    assert_eq!(converted(&file, NOBODY_LOOKED), filled);
}

#[test]
fn the_other_changes_stay_as_they_were() {
    let file = file_with(&[("NOTE", "wind"), ("SITE", "Inari"), ("OLD", "")]);
    let old = old_sheet(&[
        ("SITE", None, Some("Kuusamo")),
        // neither of these agrees with the file, and that is not for the converter to find
        ("NOTE", Some(None), Some("")),
        ("NEW", Some(Some("seen")), None),
        ("OLD", None, None),
        ("site", None, None),
        ("LAST", Some(None), Some("1")),
    ]);
    let new = old_sheet(&[
        ("SITE", Some(Some("Inari")), Some("Kuusamo")),
        ("NOTE", Some(None), Some("")),
        ("NEW", Some(Some("seen")), None),
        ("OLD", Some(Some("")), None),
        ("site", Some(None), None),
        ("LAST", Some(None), Some("1")),
    ]);
    assert_eq!(converted(&file, &old), new);
    let done = convert(&file, &old).unwrap();
    assert_eq!((done.filled_in(), done.to_string().as_str()), (&[0, 3, 4][..], "3 of 6 changes filled in"));
    assert_eq!(done.sheet().changes().next().unwrap().seen, Seen::Value("Inari"));
    // those that were filled in agree, the others as they did
    let look = look(&file, done.sheet()).unwrap();
    let conflicts: Vec<_> = look.conflicts().map(|change| change.place).collect();
    assert_eq!(conflicts, [1, 2]);
    assert_eq!(commit(&file, done.sheet()).err(), Refusal::of(11, 1));
    assert_eq!((done.clone().into_sheet().to_vec(), done.into_bytes()), (new.clone(), new));
}

#[test]
fn a_sheet_of_today_comes_back_byte_for_byte() {
    let file = tagged(3);
    let mut sheet = Sheet::new();
    let none = convert(&file, &sheet.to_vec()).unwrap();
    assert_eq!((none.bytes(), none.filled_in().len(), none.sheet().len()), (&[0][..], 0, 0));
    assert_eq!(none.to_string(), "no change was to be filled in");
    for number in 0..64 {
        let name = format!("T{}", 63 - number);
        match number % 3 {
            0 => sheet.change(&name).seen(None).set(&"x".repeat(4 * number)),
            1 => sheet.change(&name).seen(Some(&"~".repeat(255 - number))).remove(),
            // a 2 as a length, and in a value as a letter
            _ => sheet.change(&name).seen(Some("22")).set(" 2"),
        }
        let bytes = sheet.to_vec();
        assert_eq!(converted(&file, &bytes), bytes);
        let done = convert(&file, &bytes).unwrap();
        assert_eq!((done.sheet(), done.filled_in().len()), (&sheet, 0));
    }
}

#[test]
fn each_refusal_of_the_file_with_its_place() {
    // the sheet breaks its rules as well, and is not asked
    for old in [NOBODY_LOOKED, &[1, 5, b'A', 7], &[]] {
        refused(b"", old, 1, 0);
        refused(&WHOLE[..33], old, 1, 0);
        refused(&with(4, 2), old, 2, 0);
        refused(&with(33, 9), old, 3, 33);
        refused(&with(37, b'-'), old, 3, 37);
        refused(&WHOLE[..51], old, 4, 48);
        refused(&with(17, 47), old, 4, 17);
        refused(&before_closing(), old, 5, 0);
        refused(&with(5, 2), old, 6, 0);
        refused(&WHOLE[..97], old, 7, 94);
        refused(&[&WHOLE[..], b"x"].concat(), old, 7, 98);
    }
    let refusal = convert(&WHOLE[..97], NOBODY_LOOKED).unwrap_err();
    assert_eq!(refusal.position(), Some(Position { lent: Lent::File, at: 94 }));
    assert!(refusal.to_string().starts_with("refused 7, user table at byte 94 of the file: "), "{refusal}");
}

#[test]
fn each_fault_of_the_sheet_with_its_place() {
    let rows: [(&[u8], u64); 16] = [
        (&[], 0),
        (&[65], 0),
        (&[255, 1, b'A', 2, 0], 0),
        (&[1], 1),
        (&[1, 0, 2, 0], 1),
        (&[1, 5, b'A', 7], 3),
        (&[1, 5, b'A', b'B'], 4),
        (&[1, 1, b'A'], 3),
        // kinds that never were: 3 and up of what was seen, 2 and up of what is new
        (&[1, 1, b'A', 3, 0], 3),
        (&[1, 1, b'A', 255, 0], 3),
        (&[1, 1, b'A', 2, 2], 4),
        (&[1, 1, b'A', 1, 2, b'x', 0x7F, 2], 6),
        // nothing follows kind 2 but the new entry
        (&[1, 1, b'A', 2, 1, 1, b'x', 1, 1, b'y'], 7),
        (&[1, 1, b'A', 2, 1, 1, 0x1F], 6),
        (&[2, 1, b'A', 2, 0, 1, b'A', 2, 0], 5),
        (&[1, 1, b'A', 2, 0, 0], 5),
    ];
    for (old, place) in rows {
        refused(&WHOLE, old, 10, place);
        // 10 is ahead of 9
        assert_eq!(calls::convert(&WHOLE, old, &mut []).refused, 10);
    }
    let refusal = convert(&WHOLE, &[1, 1, b'A', 3, 0]).unwrap_err();
    assert_eq!((refusal.reason(), refusal.position()), (Reason::Sheet, Some(Position { lent: Lent::OldSheet, at: 3 })));
    // what cannot be converted is not told to be converted
    let said = "refused 10, sheet at byte 3 of the old sheet: It is no sheet, not even an old one: the first fault is at this place. Make it anew.";
    assert_eq!(refusal.to_string(), said);
    assert_eq!(Sheet::new().fault_at(refusal), None);
}

#[test]
fn an_output_of_every_length() {
    let file = file_with(&[("SITE", "Inari")]);
    let new = converted(&file, NOBODY_LOOKED);
    assert_eq!(new.len(), NOBODY_LOOKED.len() + 6);
    for length in 0..new.len() + 3 {
        let mut out = vec![0x5A; length];
        let answer = calls::convert(&file, NOBODY_LOOKED, &mut out);
        let (enough, rest) = out.split_at(new.len().min(length));
        if length < new.len() {
            assert_eq!((answer.refused, answer.place, answer.length), (9, 0, 0));
            assert!(enough.iter().all(|byte| *byte == 0x5A));
        } else {
            assert_eq!((answer.refused, answer.place, answer.length), (0, 0, new.len() as u64));
            assert_eq!(enough, new);
        }
        assert!(rest.iter().all(|byte| *byte == 0x5A));
    }
}

/// So many tags, each with the longest name and the longest value.
fn longest(count: usize) -> Vec<(String, String)> {
    (0..count).map(|number| (format!("{number:~>255}"), format!("{number:!>255}"))).collect()
}

// "no sheet is longer": 64 changes, and names, values seen and new values of 255 bytes
#[test]
fn the_largest_sheet_has_exactly_the_room_that_is_enough() {
    let tags = longest(64);
    let borrowed: Vec<_> = tags.iter().map(|(name, value)| (name.as_str(), value.as_str())).collect();
    let file = file_with(&borrowed);
    let new = "n".repeat(255);
    let changes: Vec<_> = borrowed.iter().map(|(name, _)| (*name, None, Some(new.as_str()))).collect();
    let old = old_sheet(&changes);
    assert_eq!((old.len(), convert_room(old.len()), LARGEST_SHEET), (32_897, 49_281, 49_281));
    let mut out = vec![0x5A; LARGEST_SHEET];
    let short = calls::convert(&file, &old, &mut out[..LARGEST_SHEET - 1]);
    assert_eq!((short.refused, short.place, short.length), (9, 0, 0));
    assert!(out.iter().all(|byte| *byte == 0x5A));
    let answer = calls::convert(&file, &old, &mut out);
    assert_eq!((answer.refused, answer.length), (0, 49_281));
    let seen: Vec<_> = borrowed.iter().map(|(name, value)| (*name, Some(Some(*value)), Some(new.as_str()))).collect();
    assert!(out == old_sheet(&seen));
    // in the safe face, and committed
    let done = convert(&file, &old).unwrap();
    assert!(done.bytes() == out && done.filled_in().len() == 64);
    let file = commit(&file, done.sheet()).unwrap().to_vec();
    assert!(user_tags(&file).iter().all(|(_, value)| *value == new));
    // the largest sheet of today is as long, and needs no byte more
    assert!(convert(&file, &out).unwrap().bytes() == out);
}

// each change of which nobody looked grows by what it is filled in with, and by nothing else
#[test]
fn how_much_a_sheet_grows() {
    let tags = longest(64);
    let borrowed: Vec<_> = tags.iter().map(|(name, value)| (name.as_str(), value.as_str())).collect();
    let file = file_with(&borrowed);
    for count in [0, 1, 2, 63, 64] {
        let changes: Vec<_> = borrowed[..count].iter().map(|(name, _)| (*name, None, None)).collect();
        let old = old_sheet(&changes);
        assert_eq!(converted(&file, &old).len(), old.len() + 256 * count);
        assert!(old.len() + 256 * count <= convert_room(old.len()));
        // where there are no such tags it does not grow
        assert_eq!(converted(&WHOLE, &old).len(), old.len());
    }
}

// "Conflicts and 17 are not tested": a converted sheet is refused as the old one was
#[test]
fn what_is_left_to_the_commit() {
    let file = tagged(1000);
    let one_more = convert(&file, &old_sheet(&[("ONE MORE", None, Some(""))])).unwrap();
    assert_eq!(commit(&file, one_more.sheet()).unwrap_err().reason(), Reason::TableFull);
    let in_exchange = old_sheet(&[("ONE MORE", None, Some("")), ("T999", None, None)]);
    let in_exchange = convert(&file, &in_exchange).unwrap();
    assert_eq!(commit(&file, in_exchange.sheet()).unwrap().table()[..4], 1000_u32.to_le_bytes());
    let conflicts = convert(&file, &old_sheet(&[("T1", None, None), ("T2", Some(None), None)])).unwrap();
    assert_eq!(commit(&file, conflicts.sheet()).err(), Refusal::of(11, 1));
    // no room, at the commit
    let done = convert(&WHOLE, NOBODY_LOOKED).unwrap();
    assert_eq!(calls::commit(&WHOLE, done.bytes(), &mut [0; 10]).refused, 9);
    assert_eq!(calls::commit(&WHOLE, done.bytes(), &mut [0; 11]).refused, 0);
}

#[test]
fn a_change_that_came_in_between_is_told() {
    let prepared_against = file_with(&[("SITE", "Inari")]);
    let done = convert(&prepared_against, NOBODY_LOOKED).unwrap();
    let mut other = Sheet::new();
    other.change("SITE").seen(Some("Inari")).set("Oulu");
    let now = commit(&prepared_against, &other).unwrap().to_vec();
    assert_eq!(commit(&now, done.sheet()).err(), Refusal::of(11, 0));
    let line = r#"change 0, tag "SITE": seen "Inari", the file says "Oulu", to be "A": conflicts"#;
    assert_eq!(look(&now, done.sheet()).unwrap().changes()[0].to_string(), line);
}

/// A small generator, so that the run is the same each time.
struct Random(u64);

impl Random {
    fn below(&mut self, limit: usize) -> usize {
        self.0 = self.0.wrapping_mul(6_364_136_223_846_793_005).wrapping_add(1_442_695_040_888_963_407);
        (self.0 >> 33) as usize % limit
    }
}

const NAMES: [&str; 6] = ["A", "B", "a", "SITE", " ", "2"];
const VALUES: [&str; 4] = ["", "2", "x", "a longer value"];

fn some_tags(random: &mut Random) -> Vec<(&'static str, &'static str)> {
    let names: Vec<_> = NAMES.into_iter().filter(|_| random.below(2) == 0).collect();
    names.into_iter().map(|name| (name, VALUES[random.below(4)])).collect()
}

fn some_entry(random: &mut Random) -> Entry<'static> {
    (random.below(3) != 0).then(|| VALUES[random.below(4)])
}

/// Changes of which nobody looked, or somebody saw what is there, or now and then something else.
fn some_changes(random: &mut Random, tags: &[(&str, &'static str)]) -> Vec<OldChange<'static>> {
    let mut changes = Vec::new();
    let first = random.below(6);
    for step in 0..random.below(7) {
        let name = NAMES[(first + step) % 6];
        let there = tags.iter().find(|tag| tag.0 == name).map(|tag| tag.1);
        let seen = match random.below(8) {
            0..=3 => None,
            4..=6 => Some(there),
            _ => Some(some_entry(random)),
        };
        changes.push((name, seen, some_entry(random)));
    }
    changes
}

/// What a commit gave before kind 2 was withdrawn, as document 01 says it: the lowest change that disagrees, or the tags.
fn old_commit<'e>(tags: &[(&'e str, &'e str)], changes: &[OldChange<'e>]) -> Result<Vec<(&'e str, &'e str)>, u64> {
    let there = |name: &str| tags.iter().find(|tag| tag.0 == name).map(|tag| tag.1);
    let disagrees = |change: &OldChange<'_>| change.1.map_or(false, |seen| seen != there(change.0));
    if let Some(place) = changes.iter().position(disagrees) {
        return Err(place as u64);
    }
    let said = |name: &str| changes.iter().find(|change| change.0 == name);
    let kept = tags.iter().filter_map(|&(name, value)| {
        let value = said(name).map_or(Some(value), |change| change.2);
        value.map(|value| (name, value))
    });
    let added = changes.iter().filter(|change| there(change.0).is_none());
    let added = added.filter_map(|&(name, _, new)| new.map(|value| (name, value)));
    Ok(kept.chain(added).collect())
}

#[test]
fn a_converted_sheet_gives_what_the_old_one_gave() {
    let mut random = Random(0x111);
    let (mut committed, mut conflicts, mut filled_in) = (0, 0, 0);
    for _ in 0..4000 {
        let tags = some_tags(&mut random);
        let file = file_with(&tags);
        let changes = some_changes(&mut random, &tags);
        let old = old_sheet(&changes);
        let filled: Vec<OldChange> = changes
            .iter()
            .map(|&(name, seen, new)| {
                let there = tags.iter().find(|tag| tag.0 == name).map(|tag| tag.1);
                (name, Some(seen.unwrap_or(there)), new)
            })
            .collect();
        let new = converted(&file, &old);
        assert_eq!(new, old_sheet(&filled), "{changes:?} with {tags:?}");
        let done = convert(&file, &old).unwrap();
        let unseen: Vec<_> = (0..changes.len()).filter(|place| changes[*place].1.is_none()).collect();
        assert_eq!((done.bytes(), done.filled_in()), (&new[..], &unseen[..]));
        filled_in += unseen.len();
        match (commit(&file, done.sheet()), old_commit(&tags, &changes)) {
            (Ok(done), Ok(expected)) => {
                committed += 1;
                assert_eq!(user_tags(&done.to_vec()), expected);
            }
            (Err(refusal), Err(place)) => {
                conflicts += 1;
                assert_eq!(Some(refusal), Refusal::of(11, place));
            }
            (given, expected) => panic!("{given:?} for {expected:?}: {changes:?} with {tags:?}"),
        }
        // once more, it is a sheet of today
        assert_eq!(converted(&file, &new), new);
    }
    assert!(committed > 1000 && conflicts > 500 && filled_in > 4000, "{committed} {conflicts} {filled_in}");
}

/// The same sheet with an absent tag for each that nobody looked at: as long, with the same other faults at the same places.
fn as_absent(old: &[u8]) -> Vec<u8> {
    let mut sheet = old.to_vec();
    let mut at = 1;
    let string = |at: usize| at + 1 + old.get(at).map_or(0, |length| usize::from(*length));
    for _ in 0..old.first().copied().unwrap_or(0) {
        at = string(at);
        if sheet.get(at) == Some(&2) {
            sheet[at] = 0;
        }
        for _ in 0..2 {
            at = if old.get(at) == Some(&1) { string(at + 1) } else { at + 1 };
        }
    }
    sheet
}

#[test]
fn damaged_sheets_are_refused_where_a_commit_would_refuse_them() {
    let file = file_with(&[("SITE", "Inari"), ("A", "")]);
    let old = old_sheet(&[
        ("SITE", None, Some("Kuusamo")),
        ("A", Some(Some("")), None),
        ("B", None, None),
        ("2", Some(None), Some("22")),
    ]);
    assert_eq!(look(&file, &Sheet::from_bytes(&as_absent(&old)).unwrap()).unwrap().conflict_count(), 1);
    let cuts = (0..old.len()).map(|length| old[..length].to_vec());
    let longer = [vec![], vec![0], vec![2, 2]].map(|more| [old.clone(), more].concat());
    let changes = (0..old.len()).flat_map(|place| {
        (0..=255).map(move |byte| (place, byte)).map(|(place, byte)| {
            let mut changed = old.clone();
            changed[place] = byte;
            changed
        })
    });
    let changes: Vec<_> = cuts.chain(longer).chain(changes).collect();
    let (mut accepted, mut places) = (0, Vec::new());
    for changed in changes {
        let judged = calls::look(&file, &as_absent(&changed));
        let mut out = [0x5A; 400];
        let answer = calls::convert(&file, &changed, &mut out);
        assert_eq!((answer.refused, answer.place), (judged.refused, judged.place), "{changed:?}");
        if answer.refused == 0 {
            accepted += 1;
            let new = &out[..answer.length as usize];
            assert_eq!(calls::look(&file, new).changes, judged.changes, "{changed:?}");
            continue;
        }
        assert!(answer.length == 0 && out.iter().all(|byte| *byte == 0x5A));
        assert!(answer.refusal().unwrap().spot(&changed).is_some());
        places.push(answer.place);
    }
    places.sort_unstable();
    places.dedup();
    assert!(accepted > 500 && places.len() > 30, "{accepted} accepted, faults at {places:?}");
}
