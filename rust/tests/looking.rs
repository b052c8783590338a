//! To look: for each change whether it agrees or conflicts, what the file says now, and that a commit goes by the same word.

mod common;

use common::{tagged, WHOLE};
use suljanko::{calls, commit, look, Look, LookedChange, Reason, Recording, Refusal, Seen, Sheet};

/// The worked file with these user tags.
fn file_with(tags: &[(&str, &str)]) -> Vec<u8> {
    commit(&WHOLE, &Sheet::from_form(&[], tags)).unwrap().to_vec()
}

/// A sheet of one change: what was seen, and what is to be.
fn one(name: &str, seen: Option<&str>, new: Option<&str>) -> Sheet {
    let mut sheet = Sheet::new();
    let change = sheet.change(name).seen(seen);
    match new {
        Some(value) => change.set(value),
        None => change.remove(),
    }
    sheet
}

/// What a look tells of a change, in the order of its members.
type Told<'l> = (usize, &'l str, Seen<'l>, Option<&'l str>, Option<&'l str>, bool);

fn told<'l>(change: &'l LookedChange<'_>) -> Told<'l> {
    (change.place, change.name, change.seen, change.now.as_deref(), change.new, change.conflicts)
}

fn places(look: &Look<'_>) -> Vec<usize> {
    look.conflicts().map(|change| change.place).collect()
}

#[test]
fn each_change_with_what_was_seen_and_what_the_file_says() {
    let file = file_with(&[("NOTE", "wind"), ("SITE", "Kuusamo"), ("EMPTY", ""), ("OLD", "1999"), ("KEPT", "x")]);
    let mut sheet = Sheet::new();
    sheet.change("SITE").seen(Some("Inari")).set("Oulu");
    sheet.change("NOTE").seen(Some("wind")).remove();
    sheet.change("NEW").seen(None).set("");
    sheet.change("EMPTY").seen(None).set("now");
    sheet.change("GONE").seen(Some("")).remove();
    sheet.change("OLD").seen(Some("1999")).set("2026");
    sheet.change("NEITHER").seen(None).remove();
    let look = look(&file, &sheet).unwrap();
    // what it answers is its own and the sheet's
    drop(file);
    let expected: [Told; 7] = [
        (0, "SITE", Seen::Value("Inari"), Some("Kuusamo"), Some("Oulu"), true),
        (1, "NOTE", Seen::Value("wind"), Some("wind"), None, false),
        (2, "NEW", Seen::Absent, None, Some(""), false),
        (3, "EMPTY", Seen::Absent, Some(""), Some("now"), true),
        (4, "GONE", Seen::Value(""), None, None, true),
        (5, "OLD", Seen::Value("1999"), Some("1999"), Some("2026"), false),
        (6, "NEITHER", Seen::Absent, None, None, false),
    ];
    assert!(look.changes().iter().map(told).eq(expected), "{look}");
    assert_eq!((places(&look), look.conflict_count(), look.all_agree()), (vec![0, 3, 4], 3, false));
    assert_eq!(look.conflicts().next_back().map(|change| change.name), Some("GONE"));
    let lines = [
        r#"3 of 7 changes conflict"#,
        r#"change 0, tag "SITE": seen "Inari", the file says "Kuusamo", to be "Oulu": conflicts"#,
        r#"change 1, tag "NOTE": seen "wind", the file says "wind", to be removed: agrees"#,
        r#"change 2, tag "NEW": seen no such tag, the file has no such tag, to be "": agrees"#,
        r#"change 3, tag "EMPTY": seen no such tag, the file says "", to be "now": conflicts"#,
        r#"change 4, tag "GONE": seen "", the file has no such tag, to be removed: conflicts"#,
        r#"change 5, tag "OLD": seen "1999", the file says "1999", to be "2026": agrees"#,
        r#"change 6, tag "NEITHER": seen no such tag, the file has no such tag, to be removed: agrees"#,
    ];
    assert_eq!(look.to_string(), lines.join("\n"));
    assert_eq!(look.changes()[4].to_string(), lines[5]);
}

#[test]
fn how_it_is_shown() {
    let shown = |file: &[u8], sheet: &Sheet| look(file, sheet).unwrap().to_string();
    assert_eq!(shown(&WHOLE, &Sheet::new()), "no change conflicts");
    let agrees = "change 0, tag \"A\": seen no such tag, the file has no such tag, to be \"1\": agrees";
    assert_eq!(shown(&WHOLE, &one("A", None, Some("1"))), format!("no change conflicts\n{agrees}"));
    let file = file_with(&[("A \"B\"", r"C:\stars")]);
    let conflicts = r#"change 0, tag "A \"B\"": seen "~", the file says "C:\\stars", to be removed: conflicts"#;
    assert_eq!(shown(&file, &one("A \"B\"", Some("~"), None)), format!("1 of 1 changes conflicts\n{conflicts}"));
}

#[test]
fn absent_empty_and_other_values() {
    let long = "x".repeat(255);
    let values = [None, Some(""), Some(" "), Some("a"), Some("A"), Some("ab"), Some(long.as_str())];
    for now in values {
        let tags: Vec<_> = now.iter().map(|value| ("T", *value)).chain([("U", "")]).collect();
        let file = file_with(&tags);
        for seen in values {
            for new in values {
                let sheet = one("T", seen, new);
                let look = look(&file, &sheet).unwrap();
                let change = &look.changes()[0];
                assert_eq!((change.now.as_deref(), change.conflicts), (now, seen != now), "{change}");
                assert_eq!(look.all_agree(), seen == now);
                let refused = commit(&file, &sheet).err();
                assert_eq!(refused, if seen == now { None } else { Refusal::of(11, 0) });
            }
        }
    }
}

/// A sheet of 64 changes of T0 to T63, of which those in the set have seen something else than `tagged` says.
fn sheet_of(set: u64) -> Sheet {
    let mut sheet = Sheet::new();
    for number in 0..64 {
        let value = if set >> number & 1 == 1 { "other".to_string() } else { format!("V{number}") };
        sheet.change(&format!("T{number}")).seen(Some(&value)).set("new");
    }
    sheet
}

#[test]
fn a_bit_for_each_of_64_changes() {
    let file = tagged(64);
    let sets = (0..64).map(|number| 1 << number).chain([0, u64::MAX, 1 << 63 | 1, 0xA5A5_0000_5A5A_FFFF]);
    for set in sets {
        let sheet = sheet_of(set);
        let flat = calls::look(&file, &sheet.to_vec());
        assert_eq!((flat.refused, flat.place, flat.changes, flat.conflicts), (0, 0, 64, set));
        let look = look(&file, &sheet).unwrap();
        for (place, change) in look.changes().iter().enumerate() {
            assert_eq!((change.place, change.conflicts), (place, set >> place & 1 == 1));
            assert_eq!((flat.conflicts_at(place), change.now.clone()), (change.conflicts, Some(format!("V{place}"))));
        }
        assert_eq!((look.conflict_count(), look.all_agree()), (set.count_ones() as usize, set == 0));
        let refused = commit(&file, &sheet).err().map(|refusal| (refusal.number(), refusal.place()));
        assert_eq!(refused, (set != 0).then_some((11, Some(set.trailing_zeros().into()))));
        for behind in [64, 65, 127, 128, usize::MAX] {
            assert!(!flat.conflicts_at(behind));
        }
    }
}

#[test]
fn tags_of_a_large_table_in_any_order() {
    let file = tagged(1000);
    let mut sheet = Sheet::new();
    for number in (0..1000).rev().step_by(16) {
        let seen = format!("V{}", number - number % 3);
        sheet.change(&format!("T{number}")).seen(Some(&seen)).remove();
    }
    sheet.change("T1000").seen(None).remove();
    let look = look(&file, &sheet).unwrap();
    assert_eq!(look.changes().len(), 64);
    let recording = Recording::open(&file).unwrap();
    for change in look.changes() {
        assert_eq!(change.now.as_deref(), recording.user_tag(change.name), "{change}");
        let agrees = matches!((change.seen, &change.now), (Seen::Value(seen), Some(now)) if seen == now)
            || matches!((change.seen, &change.now), (Seen::Absent, None));
        assert_eq!(change.conflicts, !agrees, "{change}");
    }
    assert!(look.conflict_count() > 30 && look.conflict_count() < 60, "{look}");
    assert!(look.changes()[63].now.is_none() && !look.changes()[63].conflicts);
}

#[test]
fn a_commit_is_refused_11_where_a_look_shows_a_conflict_and_only_there() {
    let mut seed = 0x1009_u64;
    let mut below = |limit: usize| {
        seed = seed.wrapping_mul(6_364_136_223_846_793_005).wrapping_add(1_442_695_040_888_963_407);
        (seed >> 33) as usize % limit
    };
    let values = ["", "a", "b"];
    let (mut committed, mut refused) = (0, 0);
    for _ in 0..3000 {
        let names: Vec<String> = (0..below(6)).map(|number| format!("N{number}")).collect();
        let tags: Vec<_> = names.iter().map(|name| (name.as_str(), values[below(3)])).collect();
        let file = file_with(&tags);
        let mut sheet = Sheet::new();
        for number in 0..below(5) {
            let name = format!("N{}", 2 * number);
            let change = match below(8) {
                0 => sheet.change(&name).seen(None),
                1 => sheet.change(&name).seen(Some(values[below(3)])),
                // mostly what is there
                _ => sheet.change(&name).seen(tags.iter().find(|tag| tag.0 == name).map(|tag| tag.1)),
            };
            match below(3) {
                0 => change.remove(),
                _ => change.set(values[below(3)]),
            }
        }
        let look = look(&file, &sheet).unwrap();
        match commit(&file, &sheet) {
            Ok(_) => {
                committed += 1;
                assert!(look.all_agree(), "{look}");
            }
            Err(refusal) => {
                refused += 1;
                assert_eq!(refusal.reason(), Reason::Conflict);
                let first = look.conflicts().next().unwrap();
                assert_eq!(refusal.place(), Some(first.place as u64), "{look}");
                assert_eq!(sheet.name(first.place), Some(first.name));
            }
        }
    }
    assert!(committed > 500 && refused > 500, "{committed} committed, {refused} refused");
}

// "look runs 1 to 7, 10; commit runs 1 to 7, 10, 11, 17, 9"
#[test]
fn a_look_is_not_refused_11_or_17() {
    let file = tagged(1000);
    let mut sheet = one("ONE MORE", None, Some(""));
    assert!(look(&file, &sheet).unwrap().all_agree());
    assert_eq!(commit(&file, &sheet).unwrap_err().reason(), Reason::TableFull);
    sheet.change("T7").seen(Some("V8")).set("V9");
    assert_eq!(places(&look(&file, &sheet).unwrap()), [1]);
    assert_eq!(commit(&file, &sheet).err(), Refusal::of(11, 1));
}

#[test]
fn refusals_with_their_places() {
    let sheet = one("SITE", Some("Inari"), Some("Enonteki\u{f6}"));
    let refusal = look(&WHOLE, &sheet).unwrap_err();
    assert_eq!((refusal.number(), refusal.place()), (10, Some(23)));
    assert!(refusal.to_string().starts_with("refused 10, sheet at byte 23 of the sheet: "), "{refusal}");
    let fault = sheet.fault_at(refusal).unwrap();
    assert_eq!((fault.place, fault.name), (0, "SITE"));
    assert_eq!(commit(&WHOLE, &sheet).err(), Some(refusal));
    // 1 to 7 are ahead of it
    let refusal = look(&WHOLE[..97], &sheet).unwrap_err();
    assert_eq!((refusal.number(), refusal.place()), (7, Some(94)));
    assert!(refusal.to_string().starts_with("refused 7, user table at byte 94 of the file: "), "{refusal}");
    assert_eq!(look(b"", &sheet).unwrap_err().reason(), Reason::NotFstf);
    // a sheet that has no form
    let long = one("A", None, Some(&"x".repeat(256)));
    assert_eq!(look(&WHOLE, &long).err(), commit(&WHOLE, &long).err());
    assert_eq!(look(&WHOLE, &long).unwrap_err().place(), Some(0));
}

#[test]
fn what_a_look_shows_makes_the_next_sheet() {
    let file = file_with(&[("SITE", "Kuusamo"), ("NOTE", "")]);
    let stale = Sheet::from_form(&[("SITE", "Inari"), ("GONE", "x")], &[("SITE", "Oulu"), ("NOTE", "wind")]);
    let look = look(&file, &stale).unwrap();
    assert_eq!(look.conflict_count(), 3, "{look}");
    let mut anew = Sheet::new();
    for change in look.changes() {
        let seen = anew.change(change.name).seen(change.now.as_deref());
        match change.new {
            Some(value) => seen.set(value),
            None => seen.remove(),
        }
    }
    let file = commit(&file, &anew).unwrap().to_vec();
    let tags: Vec<_> = Recording::open(&file).unwrap().user_tags().map(|tag| (tag.name, tag.value)).collect();
    assert_eq!(tags, [("SITE", "Oulu"), ("NOTE", "wind")]);
}
