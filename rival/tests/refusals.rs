//! Every refusal number, at its limits where they are cheap to reach.

mod common;
use common::by_number::*;
use common::*;

fn bytes_of(file: &[u8], item: Item) -> Vec<u8> {
    let (place, length) = part(file, item).unwrap();
    file[place as usize..(place + length) as usize].to_vec()
}

#[test]
fn items_are_read() {
    let file = with_table(&rich(), &table(&[(b"SITE", b"Perth"), (b"NOTE", b"")]));
    let opened = open(&file).unwrap();
    assert_eq!((opened.frames, opened.sections), (3, 2));
    assert_eq!((opened.system_tags, opened.user_tags), (2, 2));
    assert_eq!(bytes_of(&file, Item::Section(0, 0)), b"pix");
    assert_eq!(bytes_of(&file, Item::Section(0, 1)), b"s");
    assert_eq!(bytes_of(&file, Item::Section(1, 0)), b"");
    assert_eq!(bytes_of(&file, Item::Section(1, 1)), b"st");
    assert_eq!(bytes_of(&file, Item::Section(2, 0)), b"elsx");
    assert_eq!(bytes_of(&file, Item::SectionName(1)), b"STATUS");
    assert_eq!(bytes_of(&file, Item::Configuration(0)), b"abc");
    assert_eq!(bytes_of(&file, Item::Configuration(1)), b"defgh");
    assert_eq!(bytes_of(&file, Item::SystemName(0)), b"RECORDER");
    assert_eq!(bytes_of(&file, Item::SystemValue(0)), b"X");
    assert_eq!(bytes_of(&file, Item::SystemName(1)), b"EMPTY");
    assert_eq!(bytes_of(&file, Item::SystemValue(1)), b"");
    assert_eq!(bytes_of(&file, Item::UserName(0)), b"SITE");
    assert_eq!(bytes_of(&file, Item::UserValue(0)), b"Perth");
    assert_eq!(bytes_of(&file, Item::UserName(1)), b"NOTE");
    let end = file.len() as u64;
    assert_eq!(part(&file, Item::UserValue(1)), Ok((end, 0)));
    let third = frame(&file, 2).unwrap();
    assert_eq!((third.time, third.exposure, third.length), (7, 3, 28));
}

#[test]
fn refused_1_and_2() {
    assert_eq!(open(&[]), Err(1));
    assert_eq!(open(&with(&WORKED, 3, b"G")), Err(1));
    assert_eq!(open(&with(&WORKED, 4, &[0])), Err(2));
    assert_eq!(open(&with(&WORKED[..34], 4, &[3])), Err(2));
}

#[test]
fn refused_3() {
    assert_eq!(open(&WORKED[..34]), Err(3));
    assert_eq!(open(&WORKED[..47]), Err(3));
    assert_eq!(open(&with(&WORKED, 33, &[0])), Err(3));
    assert_eq!(open(&with(&WORKED, 33, &[9])), Err(3));
    assert_eq!(open(&with(&WORKED, 34, &[0])), Err(3));
    assert_eq!(open(&with(&WORKED, 35, b"-")), Err(3));
    assert_eq!(open(&with(&WORKED, 40, &[49])), Err(3));
    assert_eq!(open(&with(&WORKED, 40, &[47])), Err(3));
    // The second offset: falling, 65,535 on, and one more.
    let file = rich();
    let second = 34 + 6 + 8 + 7;
    let first_offset = u64::from_le_bytes(file[40..48].try_into().unwrap());
    assert_eq!(first_offset, second as u64 + 8);
    let at = |offset: u64| open(&with(&file, second, &offset.to_le_bytes()));
    assert_eq!(at(first_offset - 1), Err(3));
    assert_eq!(at(first_offset + 65_536), Err(3));
    assert_eq!(at(u64::MAX), Err(3));
    assert_eq!(at(first_offset + 65_535), Err(4));
}

#[test]
fn refused_3_for_equal_names() {
    let mut recording = Recording::begin(&setup(&[(b"A", b""), (b"B", b"")]), &[0; 4]);
    recording.add(0, 0, &sections(&[b"", b""])).unwrap();
    let file = recording.close();
    assert!(open(&file).is_ok());
    assert_eq!(open(&with(&file, 45, b"A")), Err(3));
}

#[test]
fn refused_4() {
    assert_eq!(open(&WORKED[..48]), Err(4));
    assert_eq!(open(&WORKED[..51]), Err(4));
    assert_eq!(open(&with(&WORKED, 17, &[0x2F])), Err(4));
    assert_eq!(open(&with(&WORKED, 17, &[0xFF; 8])), Err(4));
    assert_eq!(open(&with(&WORKED, 48, &1001u32.to_le_bytes())), Err(4));
    let file = rich();
    let (name, _) = part(&file, Item::SystemName(1)).unwrap();
    assert_eq!(open(&with(&file, name as usize, &[31])), Err(4));
    assert_eq!(open(&with(&file, name as usize, &[127])), Err(4));
    assert_eq!(open(&with(&file, name as usize - 1, &[0])), Err(4));
    assert!(open(&with(&file, name as usize, &[126])).is_ok());
    assert!(open(&with(&file, name as usize, &[32])).is_ok());
}

#[test]
fn refused_5() {
    assert_eq!(open(&unclosed()), Err(5));
    assert_eq!(open(&with(&WORKED, 25, &[0])), Err(5));
    assert_eq!(open(&with(&WORKED, 25, &[99])), Err(5));
    assert_eq!(open(&with(&WORKED, 9, &[99])), Err(5));
    assert_eq!(open(&with(&WORKED, 9, &[98])), Err(6));
    assert_eq!(open(&with(&WORKED, 25, &[98])), Err(6));
    assert_eq!(open(&with(&WORKED, 25, &[0xFF; 8])), Err(5));
}

#[test]
fn refused_6() {
    for at in 74..94 {
        assert_eq!(open(&with(&WORKED, at, &[0x77])), Err(6), "{}", at);
    }
    for at in (52..56).chain(68..72) {
        assert_eq!(open(&with(&WORKED, at, &[0x77])), Err(6), "{}", at);
    }
    assert_eq!(open(&with(&WORKED, 5, &[0])), Err(6));
    assert_eq!(open(&with(&WORKED, 5, &1_000_001u32.to_le_bytes())), Err(6));
    assert_eq!(open(&with(&WORKED, 25, &[73])), Err(6));
    // Times that fall, and one too far from the first; the index agrees.
    let file = rich();
    let opened = open(&file).unwrap();
    let first = opened.start as usize + 4;
    assert_eq!(open(&with(&file, first, &(-4i64).to_le_bytes())), Err(6));
    let third = frame(&file, 2).unwrap().place as usize + 4;
    let entry = opened.index as usize + 4 + 32;
    let far = with(&file, third, &(u32::MAX as i64 - 5).to_le_bytes());
    assert!(open(&with(&far, entry, &[0xFF; 4])).is_ok());
    let farther = with(&file, third, &(u32::MAX as i64 - 4).to_le_bytes());
    assert_eq!(open(&with(&farther, entry, &[0; 4])), Err(6));
    let apart = with(&file, third, &i64::MAX.to_le_bytes());
    let apart = with(&apart, first, &i64::MIN.to_le_bytes());
    assert_eq!(open(&with(&apart, entry, &[0xFF; 4])), Err(6));
}

#[test]
fn refused_7() {
    let file = |user: &[u8]| open(&with_table(&WORKED, user)).map(|opened| opened.user_tags);
    assert_eq!(file(&[]), Err(7));
    assert_eq!(file(&[0; 5]), Err(7));
    assert_eq!(file(&table(&[(b"A", b"1"), (b"A", b"2")])), Err(7));
    assert_eq!(file(&table(&[(b"", b"1")])), Err(7));
    assert_eq!(file(&table(&[(b"A", b"\x1F")])), Err(7));
    assert_eq!(file(&table(&[(b"A", b"\x7F")])), Err(7));
    assert_eq!(file(&table(&[(b"a", b""), (b"A", b"")])), Ok(2));
    let names: Vec<Vec<u8>> = (0..1001).map(|n| format!("{}", n).into_bytes()).collect();
    let mut tags: Vec<(&[u8], &[u8])> = names.iter().map(|name| (&name[..], &b"v"[..])).collect();
    assert_eq!(file(&table(&tags)), Err(7));
    tags.pop();
    assert_eq!(file(&table(&tags)), Ok(1000));
    tags[999].0 = b"0";
    assert_eq!(file(&table(&tags)), Err(7));
}

#[test]
fn refused_8() {
    let file = rich();
    assert_eq!(frame(&file, 3), Err(8));
    assert_eq!(frame(&file, u64::MAX), Err(8));
    for item in [
        Item::Section(3, 0),
        Item::Section(0, 2),
        Item::Section(u64::MAX, u64::MAX),
        Item::SectionName(2),
        Item::Configuration(2),
        Item::SystemName(2),
        Item::SystemValue(2),
        Item::UserName(0),
        Item::UserValue(0),
    ] {
        assert_eq!(part(&file, item), Err(8));
    }
    assert_eq!(frame(&unclosed(), 9), Err(5));
    assert_eq!(part(&unclosed(), Item::SectionName(9)), Err(5));
}

#[test]
fn refused_9_leaves_everything() {
    let list = setup(&[(b"IMAGE", b"")]);
    let (mut notes, mut out) = ([0xAA; 64], [0xBB; 64]);
    let fresh = State::new();
    let answer = begin(fresh, &list, &[0; 4], &mut notes[..3], &mut out);
    assert_eq!(answer, Err(9));
    let answer = begin(fresh, &list, &[0; 4], &mut notes, &mut out[..51]);
    assert_eq!(answer, Err(9));
    assert_eq!((notes, out), ([0xAA; 64], [0xBB; 64]));
    let (state, _) = begin(fresh, &list, &[0; 4], &mut notes[..4], &mut out[..52]).unwrap();
    assert_eq!(
        (notes[..4].to_vec(), notes[4..].to_vec()),
        (vec![0; 4], vec![0xAA; 60])
    );

    let pixels = sections(&[&[1, 2]]);
    let before = (notes, out);
    let answer = add(state, 0, 0, &pixels, &mut notes[..19], &mut out);
    assert_eq!(answer, Err(9));
    let answer = add(state, 0, 0, &pixels, &mut notes, &mut out[..21]);
    assert_eq!(answer, Err(9));
    assert_eq!((notes, out), before);
    let (state, _) = add(state, 0, 0, &pixels, &mut notes[..20], &mut out[..22]).unwrap();

    let before = out;
    assert_eq!(close(state, &notes[..19], &mut out), Err(9));
    assert_eq!(close(state, &notes, &mut out[..19]), Err(9));
    assert_eq!(out, before);
    let (mut state, _) = close(state, &notes[..20], &mut out[..20]).unwrap();
    // The other pieces do not come from the notes.
    for length in [4, 4, 8, 8] {
        assert_eq!(close(state, &[], &mut out[..length - 1]), Err(9));
        state = close(state, &[], &mut out[..length]).unwrap().0;
    }
    assert_eq!(state.stage, Stage::Closed);

    let mut out = [0xBB; 64];
    assert_eq!(repair(&unclosed(), &mut out[..23]), Err(9));
    let sheet = [1, 1, b'A', 0, 1, 0];
    let refused = commit(&WORKED, &sheet, &mut out[..6]).unwrap_err();
    assert_eq!((refused.number, refused.place), (9, 0));
    assert_eq!(out, [0xBB; 64]);
    assert_eq!(commit(&WORKED, &sheet, &mut out[..7]), Ok(7));
}

#[test]
fn refused_10() {
    let refused = |sheet: &[u8]| commit(&WORKED, sheet, &mut [0; 2000]).map_err(|e| e.number);
    assert_eq!(refused(&[]), Err(10));
    assert_eq!(refused(&[0]), Ok(4));
    assert_eq!(refused(&[0, 0]), Err(10));
    assert_eq!(refused(&[1, 0, 0, 0]), Err(10));
    assert_eq!(refused(&[1, 1, 31, 0, 0]), Err(10));
    assert_eq!(refused(&[1, 1, b'A', 2, 0]), Err(10));
    assert_eq!(refused(&[1, 1, b'A', 3, 0]), Err(10));
    assert_eq!(refused(&[1, 1, b'A', 0, 2, 0]), Err(10));
    assert_eq!(refused(&[1, 1, b'A', 0]), Err(10));
    assert_eq!(refused(&[1, 1, b'A', 1, 1, 127, 0]), Err(10));
    assert_eq!(refused(&[1, 1, b'A', 0, 1, 1, 127]), Err(10));
    assert_eq!(refused(&[2, 1, b'A', 0, 0, 1, b'A', 0, 0]), Err(10));
    assert_eq!(refused(&[2, 1, b'A', 0, 0, 1, b'B', 0, 0]), Ok(4));
    let many = |count: u8| {
        let changes = (0..count).flat_map(|n| [1, 33 + n, 0, 1, 0]);
        std::iter::once(count).chain(changes).collect::<Vec<u8>>()
    };
    assert_eq!(refused(&many(64)), Ok(4 + 64 * 3));
    assert_eq!(refused(&many(65)), Err(10));
    // Everything about the file comes first.
    assert_eq!(commit(&WORKED[..97], &[], &mut []).unwrap_err().number, 7);

    let start = |list: &[u8], system: &[u8]| {
        begin(State::new(), list, system, &mut [0; 4], &mut [0; 4000]).map(|(state, _)| state)
    };
    assert_eq!(start(&[], &[]), Err(10));
    let list = setup(&[(b"IMAGE", b"ab")]);
    assert_eq!(start(&list[..list.len() - 1], &[]), Err(10));
    assert_eq!(start(&[&list[..], b"x"].concat(), &[]), Err(10));
    assert_eq!(start(&[9], &[]), Err(10));
    // A complete list is asked about its count and names.
    assert_eq!(start(&[0], &[]), Err(3));
    assert_eq!(start(&setup(&[(b"", b"")]), &[]), Err(3));
    assert_eq!(start(&setup(&[(b"A", b""), (b"A", b"")]), &[]), Err(3));
    let names: Vec<[u8; 1]> = (0..9).map(|n| [b'A' + n]).collect();
    let nine: Vec<(&[u8], &[u8])> = names.iter().map(|name| (&name[..], &b""[..])).collect();
    assert_eq!(start(&setup(&nine), &[]), Err(3));
    assert_eq!(start(&setup(&nine[..8]), &[]), Err(4));
    assert_eq!(start(&setup(&nine[..8]), &[0; 5]), Err(4));
    assert_eq!(start(&setup(&nine[..8]), &[0; 4]).unwrap().sections, 8);
    // What follows a bad name still has to be complete.
    assert_eq!(start(&[1, 1, b'-', 1, 0], &[]), Err(10));
}

#[test]
fn refused_11_names_the_lowest_place() {
    let file = with_table(&WORKED, &table(&[(b"A", b"1"), (b"B", b"")]));
    let refused = |sheet: &[u8]| {
        let mut out = [0xAA; 64];
        let answer = commit(&file, sheet, &mut out);
        if answer.is_err() {
            assert_eq!(out, [0xAA; 64]);
        }
        answer.map_err(|e| (e.number, e.place))
    };
    assert_eq!(refused(&[1, 1, b'A', 0, 0]), Err((11, 0)));
    assert_eq!(refused(&[1, 1, b'A', 1, 1, b'2', 0]), Err((11, 0)));
    assert_eq!(refused(&[1, 1, b'A', 1, 0, 0]), Err((11, 0)));
    assert_eq!(refused(&[1, 1, b'B', 1, 0, 0]), Ok(8));
    assert_eq!(refused(&[1, 1, b'C', 1, 0, 0]), Err((11, 0)));
    let sheet = [
        3, 1, b'A', 1, 1, b'1', 1, 0, 1, b'C', 1, 0, 0, 1, b'B', 0, 0,
    ];
    assert_eq!(refused(&sheet), Err((11, 1)));
    // A malformed sheet is told ahead of its conflicts.
    assert_eq!(refused(&[1, 1, b'A', 0, 0, 0]), Err((10, 5)));
}

#[test]
fn refused_17_counts_after_the_changes() {
    let names: Vec<Vec<u8>> = (0..1000).map(|n| format!("{}", n).into_bytes()).collect();
    let tags: Vec<(&[u8], &[u8])> = names.iter().map(|name| (&name[..], &b"v"[..])).collect();
    let file = with_table(&WORKED, &table(&tags));
    let length = file.len() as u64 - 94;
    let mut out = vec![0; 8000];
    let refused = commit(&file, &[1, 1, b'A', 0, 1, 0], &mut []).unwrap_err();
    assert_eq!((refused.number, refused.place), (17, 0));
    let sheet = [2, 1, b'A', 0, 1, 0, 1, b'7', 1, 1, b'v', 0];
    assert_eq!(commit(&file, &sheet, &mut out), Ok(length - 4 + 3));
    let sheet = [1, 1, b'7', 1, 1, b'v', 1, 0];
    assert_eq!(commit(&file, &sheet, &mut out), Ok(length - 1));
}

#[test]
fn a_commit_keeps_order() {
    let tags = table(&[(b"A", b"1"), (b"B", b"2"), (b"C", b"3"), (b"D", b"4")]);
    let file = with_table(&WORKED, &tags);
    let mut out = [0xAA; 64];
    assert_eq!(commit(&file, &[0], &mut out), Ok(tags.len() as u64));
    assert_eq!(out[..tags.len()], tags[..]);
    #[rustfmt::skip]
    let sheet = [
        6,
        1, b'Z', 0, 1, 1, b'z',
        1, b'D', 1, 1, b'4', 1, 2, b'd', b'd',
        1, b'Q', 0, 0,
        1, b'B', 1, 1, b'2', 0,
        1, b'Y', 0, 1, 0,
        1, b'A', 1, 1, b'1', 1, 0,
    ];
    let expected = table(&[
        (b"A", b""),
        (b"C", b"3"),
        (b"D", b"dd"),
        (b"Z", b"z"),
        (b"Y", b""),
    ]);
    let length = commit(&file, &sheet, &mut out).unwrap() as usize;
    assert_eq!(out[..length], expected[..]);
    assert_eq!(out[length..], vec![0xAA; 64 - length][..]);
}

fn running() -> State {
    State {
        stage: Stage::Running,
        sections: 1,
        frames: 1,
        first: 10,
        last: 20,
        end: 1000,
    }
}

#[test]
fn refused_12() {
    let shape = sections(&[b""]);
    let try_add = |state: State| {
        let (mut notes, mut out) = ([0; 64], [0; 64]);
        add(state, 20, 0, &shape, &mut notes, &mut out).map(|_| ())
    };
    let try_close = |state: State| close(state, &[0; 64], &mut [0; 64]).map(|_| ());
    let try_begin = |state: State| {
        let list = setup(&[(b"A", b"")]);
        begin(state, &list, &[0; 4], &mut [0; 4], &mut [0; 64]).map(|answer| answer.0)
    };
    let good = running();
    assert_eq!(try_add(good), Ok(()));
    assert_eq!(try_close(good), Ok(()));
    assert_eq!(try_begin(good), Err(12));

    let bad = [
        State {
            sections: 0,
            ..good
        },
        State {
            sections: 9,
            ..good
        },
        State {
            frames: 1_000_001,
            ..good
        },
        State {
            frames: u64::MAX,
            ..good
        },
        State { last: 9, ..good },
        State {
            last: 10 + 4_294_967_296,
            ..good
        },
        State {
            first: i64::MIN,
            last: i64::MAX,
            ..good
        },
        State {
            frames: 0,
            first: 1,
            last: 0,
            ..good
        },
        State {
            end: (1 << 40) - 512_004 - 19,
            ..good
        },
        State {
            end: u64::MAX,
            ..good
        },
    ];
    for state in bad {
        assert_eq!(try_add(state), Err(12), "{:?}", state);
        assert_eq!(try_close(state), Err(12), "{:?}", state);
        let closing = State {
            stage: Stage::Closing(3),
            ..state
        };
        assert_eq!(try_close(closing), Err(12), "{:?}", closing);
        let fresh = State {
            stage: Stage::Fresh,
            ..state
        };
        let begun = try_begin(fresh).unwrap();
        assert_eq!((begun.frames, begun.first, begun.last), (0, 0, 0));
        assert_eq!(begun, try_begin(State::new()).unwrap());
    }
    for (stage, closes) in [
        (Stage::Fresh, Err(12)),
        (Stage::Closing(0), Ok(())),
        (Stage::Closing(4), Ok(())),
        (Stage::Closing(5), Err(12)),
        (Stage::Closing(u64::MAX), Err(12)),
        (Stage::Closed, Err(12)),
    ] {
        let state = State { stage, ..good };
        assert_eq!(try_add(state), Err(12));
        assert_eq!(try_close(state), closes);
        if stage != Stage::Fresh {
            assert_eq!(try_begin(state), Err(12));
        }
    }
    assert_eq!(
        try_close(State {
            end: (1 << 40) - 512_004 - 20,
            ..good
        }),
        Ok(())
    );
}

#[test]
fn refused_13() {
    let shape = sections(&[b""]);
    let at = |state: State, time: i64| {
        let (mut notes, mut out) = ([0; 64], [0; 64]);
        add(state, time, 0, &shape, &mut notes, &mut out)
            .map(|(state, _)| (state.first, state.last))
    };
    let good = running();
    assert_eq!(at(good, 19), Err(13));
    assert_eq!(at(good, 20), Ok((10, 20)));
    assert_eq!(at(good, 10 + 4_294_967_295), Ok((10, 10 + 4_294_967_295)));
    assert_eq!(at(good, 10 + 4_294_967_296), Err(13));
    assert_eq!(at(good, i64::MIN), Err(13));
    let low = State {
        first: i64::MIN,
        last: i64::MIN,
        ..good
    };
    assert_eq!(at(low, i64::MAX), Err(13));
    // The first frame has none ahead of it.
    let none = State { frames: 0, ..good };
    assert_eq!(at(none, i64::MIN), Ok((i64::MIN, i64::MIN)));

    // Repair: two whole frames, the second one before the first.
    let mut file = unclosed();
    let second = file[52..74].to_vec();
    file.extend_from_slice(&second);
    file[74 + 4] = 0xE7;
    let mut out = [0xAA; 64];
    assert_eq!(repair(&file, &mut out), Err(13));
    assert_eq!(repair(&file, &mut []), Err(13));
    assert_eq!(out, [0xAA; 64]);
    // Cut by a byte, that frame is not walked.
    assert_eq!(repair(&file[..95], &mut out).unwrap().count, 1);
}

#[test]
fn refused_14() {
    let with_sections = |sections: u64, bytes: &[u8]| {
        let (mut notes, mut out) = ([0; 64], [0; 64]);
        let state = State {
            sections,
            ..running()
        };
        add(state, 20, 0, bytes, &mut notes, &mut out).map(|(_, piece)| piece.length)
    };
    assert_eq!(with_sections(1, &[]), Err(14));
    assert_eq!(with_sections(1, &[0; 3]), Err(14));
    assert_eq!(with_sections(1, &[0; 4]), Ok(20));
    assert_eq!(with_sections(1, &[0; 5]), Err(14));
    assert_eq!(with_sections(2, &[0; 4]), Err(14));
    assert_eq!(with_sections(2, &[0; 8]), Ok(24));
    assert_eq!(with_sections(1, &[0; 8]), Err(14));
    assert_eq!(with_sections(1, &[1, 0, 0, 0]), Err(14));
    assert_eq!(with_sections(1, &[0xFF; 4]), Err(14));
    // 14 comes ahead of 15 and 13.
    let state = State {
        frames: 1_000_000,
        ..running()
    };
    assert_eq!(add(state, 0, 0, &[], &mut [], &mut []), Err(14));
}

#[test]
fn refused_15() {
    let shape = sections(&[b""]);
    let mut notes = vec![0; 4 + 16 * 1_000_000];
    let mut out = [0; 20];
    let state = State {
        frames: 1_000_000,
        ..running()
    };
    assert_eq!(add(state, 0, 0, &shape, &mut notes, &mut out), Err(15));
    let state = State {
        frames: 999_999,
        ..running()
    };
    let added = add(state, 20, 0, &shape, &mut notes, &mut out).unwrap().0;
    assert_eq!(added.frames, 1_000_000);
    assert_eq!(notes[..4], 1_000_000u32.to_le_bytes());

    let last = (1 << 40) - 512_004 - 36 - 20;
    let state = State {
        end: last,
        ..running()
    };
    let added = add(state, 20, 0, &shape, &mut notes, &mut out).unwrap().0;
    assert!(close(added, &notes, &mut [0; 64]).is_ok());
    let state = State {
        end: last + 1,
        ..running()
    };
    assert_eq!(add(state, 0, 0, &shape, &mut [], &mut []), Err(15));
}

#[test]
fn refused_16() {
    let mut out = [0xAA; 64];
    assert_eq!(repair(&WORKED, &mut out), Err(16));
    assert_eq!(repair(&WORKED, &mut []), Err(16));
    assert_eq!(out, [0xAA; 64]);
}

#[test]
fn tags_are_browsed() {
    let bytes = table(&[(b"SITE", b"Perth"), (b"NOTE", b"")]);
    let first = Tag {
        name: 5,
        name_length: 4,
        value: 10,
        value_length: 5,
    };
    let second = Tag {
        name: 16,
        name_length: 4,
        value: 21,
        value_length: 0,
    };
    assert_eq!(tag_at(&bytes, 0), Ok(Some(first)));
    assert_eq!(tag_at(&bytes, 1), Ok(Some(second)));
    assert_eq!(tag_at(&bytes, 2), Ok(None));
    assert_eq!(tag_at(&bytes, u64::MAX), Ok(None));
    assert_eq!(tag_named(&bytes, b"SITE"), Ok(Some(first)));
    assert_eq!(tag_named(&bytes, b"NOTE"), Ok(Some(second)));
    assert_eq!(tag_named(&bytes, b""), Ok(None));
    assert_eq!(tag_named(&bytes, &[b'S'; 700]), Ok(None));
    assert_eq!(tag_named(&[0; 4], b""), Ok(None));
    assert_eq!(tag_at(&bytes[..20], 0), Err(7));
    assert_eq!(tag_at(&[0; 5], 0), Err(7));
    assert_eq!(tag_named(&[0; 3], b""), Err(7));
}
