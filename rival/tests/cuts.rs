//! Recordings cut or damaged at every byte, and seeded inputs.

mod common;
use common::by_number::*;
use common::*;

/// A recording with frames whose pixels look like marks, and the end of each
/// frame, the first one being the end of the system table.
fn recording() -> (Recording, Vec<usize>) {
    let mut recording = Recording::begin(
        &setup(&[(b"IMAGE", b"abc"), (b"STATUS", b"")]),
        &table(&[(b"RECORDER", b"X"), (b"EMPTY", b"")]),
    );
    let mut ends = vec![recording.file.len()];
    let ghost = &WORKED[52..74];
    for (time, image, status) in [
        (-3, &b"pixels"[..], &b"s"[..]),
        (-3, ghost, &b""[..]),
        (40, &b""[..], ghost),
        (41, &[0xFF, 0x22, 0x01, 0xEE][..], &b"st"[..]),
    ] {
        recording.add(time, 9, &sections(&[image, status])).unwrap();
        ends.push(recording.file.len());
    }
    (recording, ends)
}

#[test]
fn every_cut_of_an_unclosed_recording() {
    let (recording, ends) = recording();
    let file = &recording.file;
    for cut in 0..=file.len() {
        let part = &file[..cut];
        let mut out = [0xAA; 200];
        let answer = repair(part, &mut out);
        let expected = match cut {
            0..=33 => Err(1),
            34..=62 => Err(3),
            _ if cut < ends[0] => Err(4),
            _ => Ok(ends.iter().filter(|&&end| end <= cut).count() - 1),
        };
        assert_eq!(
            answer.map(|answer| answer.count as usize),
            expected,
            "{}",
            cut
        );
        match answer {
            Ok(answer) => {
                assert_eq!(answer.kept as usize, ends[answer.count as usize]);
                let whole = repaired(part, answer, &out);
                let opened = open(&whole).unwrap();
                assert_eq!((opened.frames, opened.user_tags), (answer.count, 0));
                assert_eq!(
                    whole[opened.start as usize..answer.kept as usize],
                    file[ends[0]..answer.kept as usize]
                );
                assert!(out[answer.tail as usize..].iter().all(|&byte| byte == 0xAA));
                assert_eq!(repair(&whole, &mut out), Err(16));
                assert_eq!(open(part), Err(5));
            }
            Err(number) => {
                assert_eq!(out, [0xAA; 200]);
                assert_eq!(open(part), Err(number));
            }
        }
    }
}

#[test]
fn every_cut_of_a_closed_recording() {
    let (recording, ends) = recording();
    let file = recording.close();
    assert_eq!(open(&file).unwrap().frames, 4);
    for cut in ends[0]..file.len() {
        let part = &file[..cut];
        let mut out = [0; 200];
        assert!(matches!(open(part), Err(5) | Err(7)), "{}", cut);
        let answer = repair(part, &mut out).unwrap();
        let frames = ends.iter().filter(|&&end| end <= cut).count() - 1;
        assert_eq!(answer.count as usize, frames);
        let whole = repaired(part, answer, &out);
        assert_eq!(open(&whole).unwrap().frames, answer.count);
        if frames == 4 {
            assert_eq!(whole, file);
        }
    }
}

#[test]
fn every_close_piece_cut_short_is_not_open() {
    let (mut recording, _) = recording();
    let whole = {
        let (other, _) = self::recording();
        other.close()
    };
    let mut out = [0; 200];
    while recording.state.stage != Stage::Closed {
        let (state, piece) = close(recording.state, &recording.notes, &mut out).unwrap();
        for reached in 0..piece.length {
            let mut file = recording.file.clone();
            let short = Piece {
                length: reached,
                ..piece
            };
            put(&mut file, short, &out);
            // Zeros at the end of a number may have "reached" the file unseen.
            if file != whole {
                assert!(open(&file).is_err());
                let mut tail = [0; 200];
                let answer = repair(&file, &mut tail).unwrap();
                assert_eq!(repaired(&file, answer, &tail), whole);
            }
        }
        put(&mut recording.file, piece, &out);
        recording.state = state;
    }
    assert_eq!(recording.file, whole);
}

/// Opening once more, straight from the paper's sentences and with no regard
/// for speed: places as wide numbers, names compared pair by pair, and the
/// index built and then compared.
mod plain {
    fn number(bytes: &[u8], at: u128, width: u128) -> Option<u128> {
        let mut value = 0;
        for step in 0..width {
            let byte = *bytes.get(usize::try_from(at + step).ok()?)?;
            value |= u128::from(byte) << (8 * step);
        }
        Some(value)
    }

    fn string(bytes: &[u8], at: u128) -> Option<(&[u8], u128)> {
        let length = number(bytes, at, 1)?;
        let from = usize::try_from(at + 1).ok()?;
        let slice = bytes.get(from..from + length as usize)?;
        Some((slice, at + 1 + length))
    }

    fn table(bytes: &[u8], at: u128) -> Option<(usize, u128)> {
        let count = number(bytes, at, 4)?;
        if count > 1000 {
            return None;
        }
        let mut at = at + 4;
        let mut names = Vec::new();
        for _ in 0..count {
            let (name, next) = string(bytes, at)?;
            let (value, next) = string(bytes, next)?;
            let text = |s: &[u8]| s.iter().all(|&b| (32..=126).contains(&b));
            if name.is_empty() || !text(name) || !text(value) || names.contains(&name) {
                return None;
            }
            names.push(name);
            at = next;
        }
        Some((names.len(), at))
    }

    fn front(file: &[u8]) -> Result<(usize, u128), u64> {
        if file.len() < 34 || &file[..4] != b"FSTF" {
            return Err(1);
        }
        if file[4] != 1 {
            return Err(2);
        }
        let sections = file[33] as usize;
        if !(1..=8).contains(&sections) {
            return Err(3);
        }
        let (mut at, mut names, mut offsets) = (34, Vec::new(), Vec::new());
        for _ in 0..sections {
            let (name, next) = string(file, at).ok_or(3u64)?;
            let good = !name.is_empty() && name.iter().all(u8::is_ascii_alphanumeric);
            if !good || names.contains(&name) {
                return Err(3);
            }
            names.push(name);
            offsets.push(number(file, next, 8).ok_or(3u64)?);
            at = next + 8;
        }
        if offsets[0] != at {
            return Err(3);
        }
        for two in offsets.windows(2) {
            if two[1] < two[0] || two[1] > two[0] + 65_535 {
                return Err(3);
            }
        }
        let system = number(file, 17, 8).unwrap();
        let last = offsets[sections - 1];
        if system < last || system > last + 65_535 {
            return Err(4);
        }
        let (_, start) = table(file, system).ok_or(4u64)?;
        Ok((sections, start))
    }

    /// The end and the time of the whole frame at a place.
    fn whole_frame(file: &[u8], at: u128, sections: usize) -> Option<(u128, i128)> {
        if number(file, at, 4)? != 0xEE01_22FF {
            return None;
        }
        let time = i128::from(number(file, at + 4, 8)? as u64 as i64);
        number(file, at + 12, 4)?;
        let mut end = at + 16;
        for _ in 0..sections {
            let size = number(file, end, 4)?;
            if size > 16_777_216 {
                return None;
            }
            end += 4 + size;
        }
        if end > file.len() as u128 {
            return None;
        }
        Some((end, time))
    }

    struct Walked {
        end: u128,
        in_time: bool,
        count: u128,
        index: Vec<u8>,
    }

    fn walk(file: &[u8], start: u128, sections: usize, at_most: u128) -> Walked {
        let (mut at, mut frames) = (start, Vec::new());
        while (frames.len() as u128) < at_most {
            match whole_frame(file, at, sections) {
                Some((end, time)) => {
                    frames.push((at, end, time));
                    at = end;
                }
                None => break,
            }
        }
        let first = frames.first().map_or(0, |frame| frame.2);
        let in_time = frames.windows(2).all(|two| two[1].2 >= two[0].2)
            && frames.iter().all(|frame| frame.2 - first <= 4_294_967_295);
        let mut index = (frames.len() as u32).to_le_bytes().to_vec();
        for (place, end, time) in &frames {
            index.extend(((time - first) as u32).to_le_bytes());
            index.extend((*place as u64).to_le_bytes());
            index.extend(((end - place) as u32).to_le_bytes());
        }
        Walked {
            end: at,
            in_time,
            count: frames.len() as u128,
            index,
        }
    }

    pub fn open(file: &[u8]) -> Result<u64, u64> {
        let (sections, start) = front(file)?;
        let length = file.len() as u128;
        let count = number(file, 5, 4).unwrap();
        let index = number(file, 9, 8).unwrap();
        let user = number(file, 25, 8).unwrap();
        let limit = (1 << 40) - 512_004;
        if index == 0 || user == 0 || index > length || user > length || user > limit {
            return Err(5);
        }
        if count > 1_000_000 {
            return Err(6);
        }
        let walked = walk(file, start, sections, count);
        let between = file.get(index as usize..user as usize);
        if walked.count < count
            || walked.end != index
            || !walked.in_time
            || between != Some(&walked.index[..])
        {
            return Err(6);
        }
        match table(file, user) {
            Some((_, end)) if end == length => Ok(count as u64),
            _ => Err(7),
        }
    }

    pub fn repair(file: &[u8]) -> Result<(u64, Vec<u8>), u64> {
        let (sections, start) = front(file)?;
        if open(file).is_ok() {
            return Err(16);
        }
        let walked = walk(file, start, sections, 1_000_000);
        if !walked.in_time {
            return Err(13);
        }
        let mut tail = walked.index;
        tail.extend([0; 4]);
        Ok((walked.end as u64, tail))
    }
}

#[test]
fn damaged_files_answer_as_the_plain_reading() {
    let (recording, _) = recording();
    let unclosed = recording.file.clone();
    let closed = recording.close();
    let mut tagged = closed[..closed.len() - 4].to_vec();
    tagged.extend(table(&[
        (b"SITE", b"Perth"),
        (b"NOTE", b""),
        (b"NOTF", b"x"),
    ]));
    let mut seeded = Seeded(0x1234_5678_9ABC_DEF1);
    let mut seen = [0u32; 17];
    let mut check = |file: &[u8]| {
        let answer = open(file).map(|opened| opened.frames);
        assert_eq!(answer, plain::open(file), "{:?}", file);
        seen[answer.err().unwrap_or(0) as usize] += 1;
        // A sheet without bytes is told where nothing is wrong with the file.
        let looked = look(file, &[]).map_err(|refusal| refusal.number);
        assert_eq!(looked, Err(answer.err().unwrap_or(10)), "{:?}", file);
        let mut out = [0xAA; 400];
        let answer = repair(file, &mut out);
        let tail = match answer {
            Ok(answer) => {
                assert_eq!(answer.index, answer.kept);
                assert_eq!(answer.user + 4, answer.kept + answer.tail);
                let whole = repaired(file, answer, &out);
                assert_eq!(open(&whole).map(|opened| opened.frames), Ok(answer.count));
                Ok((answer.kept, out[..answer.tail as usize].to_vec()))
            }
            Err(number) => {
                assert_eq!(out, [0xAA; 400]);
                seen[number as usize] += 1;
                Err(number)
            }
        };
        assert_eq!(tail, plain::repair(file), "{:?}", file);
    };
    for base in [&unclosed, &closed, &tagged] {
        // Every byte, a few ways.
        for at in 0..base.len() {
            for change in [1, 0xFF, 0x80, 0x20] {
                let mut file = base.clone();
                file[at] = file[at].wrapping_add(change);
                check(&file);
            }
        }
        for _ in 0..60_000 {
            let mut file = base.clone();
            for _ in 0..1 + seeded.below(3) {
                let at = seeded.below(file.len() as u64) as usize;
                match seeded.below(6) {
                    0 => file[at] = seeded.next() as u8,
                    1 => file[at] = 0,
                    2 => file[at] = file[at].wrapping_add(1),
                    3 => file.truncate(file.len().min(at + 60)),
                    4 => {
                        file.remove(at);
                    }
                    _ => file.insert(at, seeded.next() as u8),
                }
            }
            check(&file);
        }
    }
    for number in [0, 1, 2, 3, 4, 5, 6, 7, 13, 16] {
        assert!(seen[number] > 0, "{}", number);
    }
}

#[test]
fn every_cut_of_a_sheet() {
    let whole = |seen: &[u8]| {
        sheet(&[
            (b"A", &[1, 2, b'b', b'c'], &[0]),
            (b"SITE", &[0], &[1, 0]),
            (b"NOTE", seen, &[1, 1, b'x']),
        ])
    };
    let (new, old) = (whole(&[0]), whole(&[2]));
    for cut in 0..new.len() {
        let mut out = [0xAA; 64];
        let refused = commit(&WORKED, &new[..cut], &mut out).unwrap_err();
        assert_eq!(refused.number, 10, "{}", cut);
        assert_eq!(look(&WORKED, &new[..cut]), Err(refused));
        // Cut there, the old sheet has the same fault.
        let converted = convert(&WORKED, &old[..cut], &mut out);
        assert_eq!(converted, Err(refused));
        let committed = commit_of_old_sheet(&WORKED, &old[..cut], &mut out);
        assert_eq!(committed, Err(refused));
        assert_eq!(out, [0xAA; 64]);
    }
    assert_eq!(look(&WORKED, &new).unwrap().conflicts, 0b001);
    let mut out = [0xAA; 64];
    let length = convert(&WORKED, &old, &mut out).unwrap() as usize;
    assert_eq!(out[..length], new[..]);
}

/// Look and commit once more, over lists of tags. Where nobody looked, the commit
/// of before does what they say, and look and commit are refused.
#[test]
fn seeded_sheets_answer_as_lists_do() {
    let mut seeded = Seeded(0xC0FF_EE11_2233_4455);
    let mut seen = [0u32; 5];
    for _ in 0..20_000 {
        let name = |seeded: &mut Seeded| format!("N{}", seeded.below(12)).into_bytes();
        let value = |seeded: &mut Seeded| vec![b'v'; seeded.below(3) as usize];
        let mut tags: Vec<(Vec<u8>, Vec<u8>)> = Vec::new();
        for _ in 0..seeded.below(10) {
            let tag = (name(&mut seeded), value(&mut seeded));
            if !tags.iter().any(|other| other.0 == tag.0) {
                tags.push(tag);
            }
        }
        let mut sheet = vec![0];
        let mut names: Vec<Vec<u8>> = Vec::new();
        let mut after = tags.clone();
        let mut added = Vec::new();
        let mut conflicts = 0;
        let mut twice = None;
        let mut nobody = None;
        let all_looked = seeded.below(2) == 0;
        for place in 0..seeded.below(7) {
            let name = name(&mut seeded);
            sheet[0] += 1;
            if names.contains(&name) && twice.is_none() {
                twice = Some(sheet.len() as u64);
            }
            sheet.extend(short(&name));
            names.push(name.clone());
            let old = tags
                .iter()
                .find(|tag| tag.0 == name)
                .map(|tag| tag.1.clone());
            // Mostly what is there, now and then anything.
            let claimed = match seeded.below(6) {
                0 => None,
                1 => Some(value(&mut seeded)),
                _ => old.clone(),
            };
            if !all_looked && seeded.below(4) == 0 {
                nobody = nobody.or(Some(sheet.len() as u64));
                sheet.push(2);
            } else {
                match &claimed {
                    None => sheet.push(0),
                    Some(value) => {
                        sheet.push(1);
                        sheet.extend(short(value));
                    }
                }
                if claimed != old {
                    conflicts |= 1 << place;
                }
            }
            if seeded.below(3) == 0 {
                sheet.push(0);
                after.retain(|tag| tag.0 != name);
            } else {
                let value = value(&mut seeded);
                sheet.push(1);
                sheet.extend(short(&value));
                match after.iter_mut().find(|tag| tag.0 == name) {
                    Some(tag) => tag.1 = value,
                    None => added.push((name, value)),
                }
            }
        }
        after.extend(added);
        let form = |tags: &[(Vec<u8>, Vec<u8>)]| {
            let tags: Vec<(&[u8], &[u8])> =
                tags.iter().map(|tag| (&tag.0[..], &tag.1[..])).collect();
            table(&tags)
        };
        let mut file = WORKED[..94].to_vec();
        file.extend(form(&tags));
        let mut out = [0xAA; 400];
        let answer = commit_of_old_sheet(&file, &sheet, &mut out);
        let mut other = [0xAA; 400];
        let committed = commit(&file, &sheet, &mut other);
        let looked = look(&file, &sheet);
        if let Some(place) = twice.into_iter().chain(nobody).min() {
            assert_eq!(looked, Err(Refusal { number: 10, place }));
            assert_eq!(committed, Err(Refusal { number: 10, place }));
            assert_eq!(other, [0xAA; 400]);
            seen[4] += u32::from(nobody.is_some());
        } else {
            let changes = u64::from(sheet[0]);
            assert_eq!(looked, Ok(Looked { changes, conflicts }));
            assert_eq!((committed, other), (answer, out));
        }
        if let Some(place) = twice {
            assert_eq!(answer, Err(Refusal { number: 10, place }));
            seen[0] += 1;
        } else if conflicts != 0 {
            assert_eq!(answer, Err(conflict_at(lowest(conflicts))));
            seen[1] += 1;
            seen[2] += u32::from(conflicts.count_ones() > 1);
        } else {
            let expected = form(&after);
            assert_eq!(answer, Ok(expected.len() as u64));
            assert_eq!(out[..expected.len()], expected[..]);
            for (number, tag) in after.iter().enumerate() {
                let found = tag_at(&expected, number as u64).unwrap().unwrap();
                assert_eq!(tag_named(&expected, &tag.0), Ok(Some(found)));
                let at = found.value as usize;
                assert_eq!(expected[at..at + found.value_length as usize], tag.1[..]);
            }
            seen[3] += 1;
        }
        let written = answer.unwrap_or(0) as usize;
        assert!(out[written..].iter().all(|&byte| byte == 0xAA));
    }
    assert!(seen.iter().all(|&count| count > 500), "{:?}", seen);
}
