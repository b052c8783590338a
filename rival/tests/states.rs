//! Made-up recorder states: every call answers as the paper's lines read, and
//! a refusal changes nothing.

mod common;
use common::by_number::*;
use common::*;

const LIMIT: i128 = 1 << 40;

fn pick<T: Copy>(seeded: &mut Seeded, from: &[T]) -> T {
    from[seeded.below(from.len() as u64) as usize]
}

fn made_up(seeded: &mut Seeded) -> State {
    let piece = pick(seeded, &[0, 1, 2, 3, 4, 5, u64::MAX]);
    let running = Stage::Running;
    let closing = Stage::Closing(piece);
    let stage = pick(
        seeded,
        &[
            running,
            running,
            running,
            closing,
            closing,
            Stage::Fresh,
            Stage::Closed,
        ],
    );
    let frames = pick(
        seeded,
        &[0, 0, 1, 2, 3, 5, 999_999, 1_000_000, 1_000_001, u64::MAX],
    );
    let first = pick(
        seeded,
        &[0, 0, -7, 1000, i64::MIN, i64::MAX, i64::MAX - 4_294_967_295],
    );
    let later = pick(seeded, &[0, 0, 1, 50, 4_294_967_295, 4_294_967_296, -1]);
    let last = match seeded.below(12) {
        0 => i64::MAX,
        1 => i64::MIN,
        _ => first.wrapping_add(later),
    };
    let close_by = LIMIT - 512_004 - 4 - 16 * (frames as i128).min(1_000_000);
    let end = match seeded.below(4) {
        0 => (close_by - 60 + seeded.below(64) as i128) as u64,
        1 => pick(seeded, &[0, 1, u64::MAX, 1 << 40]),
        _ => 52 + seeded.below(1000),
    };
    let sections = pick(seeded, &[1, 1, 1, 2, 2, 3, 8, 0, 9, u64::MAX]);
    State {
        stage,
        sections,
        frames,
        first,
        last,
        end,
    }
}

fn time_rule(first: i64, last: i64) -> bool {
    let since = i128::from(last) - i128::from(first);
    (0..=4_294_967_295).contains(&since)
}

fn within_limits(state: &State) -> bool {
    (1..=8).contains(&state.sections)
        && state.frames <= 1_000_000
        && time_rule(state.first, state.last)
        && i128::from(state.end) + 4 + 16 * i128::from(state.frames) + 512_004 <= LIMIT
}

/// Whether the bytes are exactly so many sizes and bytes.
fn shaped(mut bytes: &[u8], sections: u64) -> bool {
    for _ in 0..sections {
        if bytes.len() < 4 {
            return false;
        }
        let size = u32::from_le_bytes(bytes[..4].try_into().unwrap());
        if size > 16_777_216 || bytes.len() - 4 < size as usize {
            return false;
        }
        bytes = &bytes[4 + size as usize..];
    }
    bytes.is_empty()
}

#[test]
fn adding_to_made_up_states() {
    let mut seeded = Seeded(0x0DDB_1A5E_5BAD_5EED);
    let mut seen = [0u32; 16];
    // Long enough for a millionth entry; cut to size by slicing.
    let mut long = vec![0xAA; 16_000_004 + 8];
    for _ in 0..200_000 {
        let state = made_up(&mut seeded);
        let mut bytes = Vec::new();
        for _ in 0..state.sections.min(8) {
            bytes.extend(sections(&[&[9; 20][..seeded.below(6) as usize]]));
        }
        match seeded.below(10) {
            0 => bytes.push(0),
            1 => {
                bytes.pop();
            }
            2 if !bytes.is_empty() => bytes[0] = bytes[0].wrapping_add(1),
            3 if bytes.len() > 3 => bytes[3] = 1,
            _ => {}
        }
        let time = match seeded.below(5) {
            0 => pick(&mut seeded, &[i64::MIN, i64::MAX, 0]),
            1 => state.first.wrapping_add(4_294_967_295),
            2 => state.first.wrapping_add(4_294_967_296),
            3 => state.last.wrapping_sub(1),
            _ => state.last,
        };
        let n = state.frames.min(1_000_000) as usize + 1;
        let piece = 16 + bytes.len();
        let notes_length = (4 + 16 * n + 4 - pick(&mut seeded, &[0, 4, 4, 5])).min(long.len());
        let mut out = vec![0xBB; piece + 4 - pick(&mut seeded, &[0, 4, 4, 5])];
        let notes = &mut long[..notes_length];

        let expected = if state.stage != Stage::Running || !within_limits(&state) {
            Err(12)
        } else if !shaped(&bytes, state.sections) {
            Err(14)
        } else if state.frames == 1_000_000
            || i128::from(state.end) + piece as i128 + 4 + 16 * n as i128 + 512_004 > LIMIT
        {
            Err(15)
        } else if state.frames > 0 && (time < state.last || !time_rule(state.first, time)) {
            Err(13)
        } else if notes.len() < 4 + 16 * n || out.len() < piece {
            Err(9)
        } else {
            let after = State {
                frames: n as u64,
                first: if n == 1 { time } else { state.first },
                last: time,
                end: state.end + piece as u64,
                ..state
            };
            let piece = Piece {
                place: state.end,
                length: piece as u64,
            };
            Ok((after, piece))
        };
        let answer = add(state, time, 77, &bytes, notes, &mut out);
        assert_eq!(answer, expected, "{:?} {} {:?}", state, time, bytes);
        match answer {
            Ok((after, _)) => {
                seen[0] += 1;
                let mut frame = vec![0xFF, 0x22, 0x01, 0xEE];
                frame.extend(time.to_le_bytes());
                frame.extend(77u32.to_le_bytes());
                frame.extend(&bytes);
                assert_eq!(out[..piece], frame[..]);
                assert!(out[piece..].iter().all(|&byte| byte == 0xBB));
                let since = i128::from(time) - i128::from(after.first);
                let mut entry = (since as u32).to_le_bytes().to_vec();
                entry.extend(state.end.to_le_bytes());
                entry.extend((piece as u32).to_le_bytes());
                assert_eq!(notes[..4], (n as u32).to_le_bytes());
                assert_eq!(notes[16 * n - 12..16 * n + 4], entry[..]);
                // Back to what an untouched output looks like.
                notes[..4].fill(0xAA);
                notes[16 * n - 12..16 * n + 4].fill(0xAA);
            }
            Err(number) => {
                seen[number as usize] += 1;
                assert!(out.iter().all(|&byte| byte == 0xBB));
                assert!(notes[..4].iter().all(|&byte| byte == 0xAA));
            }
        }
    }
    assert!(long.iter().all(|&byte| byte == 0xAA));
    for number in [0, 9, 12, 13, 14, 15] {
        assert!(seen[number] > 100, "{:?}", seen);
    }
}

#[test]
fn closing_made_up_states() {
    let mut seeded = Seeded(0xFEED_5EED_0000_0001);
    let mut seen = [0u32; 13];
    let long: Vec<u8> = (0..16_000_004u32).map(|at| at as u8).collect();
    let mut kept = vec![0xBB; 16_000_010];
    for _ in 0..40_000 {
        let mut state = made_up(&mut seeded);
        // The longest indexes only now and then: they take time.
        if state.frames >= 999_999 && seeded.below(2000) != 0 {
            state.frames = 4;
        }
        let number = match state.stage {
            Stage::Running => Some(0),
            Stage::Closing(number) if number <= 4 => Some(number),
            _ => None,
        };
        let index_length = (4 + 16 * state.frames.min(1_000_000)) as usize;
        let notes = &long[..index_length - seeded.below(2) as usize];
        let index = state.end;
        let user = state.end.wrapping_add(index_length as u64);
        let (place, bytes): (u64, Vec<u8>) = match number {
            Some(0) => (index, long[..index_length].to_vec()),
            Some(1) => (user, vec![0; 4]),
            Some(2) => (5, (state.frames as u32).to_le_bytes().to_vec()),
            Some(3) => (25, user.to_le_bytes().to_vec()),
            _ => (9, index.to_le_bytes().to_vec()),
        };
        let room = bytes.len() + 2 - pick(&mut seeded, &[0, 2, 2, 3]);
        let short = (number == Some(0) && notes.len() < index_length) || room < bytes.len();
        let expected = match number {
            Some(_) if !within_limits(&state) => Err(12),
            Some(_) if short => Err(9),
            Some(number) => {
                let stage = match number {
                    4 => Stage::Closed,
                    _ => Stage::Closing(number + 1),
                };
                let length = bytes.len() as u64;
                Ok((State { stage, ..state }, Piece { place, length }))
            }
            None => Err(12),
        };
        let out = &mut kept[..room];
        let answer = close(state, notes, out);
        assert_eq!(answer, expected, "{:?}", state);
        match answer {
            Ok(_) => {
                seen[0] += 1;
                assert_eq!(out[..bytes.len()], bytes[..]);
                out[..bytes.len()].fill(0xBB);
            }
            Err(number) => seen[number as usize] += 1,
        }
        assert!(out.iter().all(|&byte| byte == 0xBB));
    }
    for number in [0, 9, 12] {
        assert!(seen[number] > 100, "{:?}", seen);
    }
}
