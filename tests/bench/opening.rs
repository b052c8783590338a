//! Opening and repair.

use crate::build::*;
use crate::calls;
use crate::inputs::*;
use crate::measure::*;
use crate::random::Random;
use crate::verdict::*;

pub fn opening(effort: &Effort, file: &[u8]) -> Times {
    assert_eq!(calls::open(file).refused, 0);
    measure(effort, &mut || calls::open(file).user, &mut || rival::open(file).map_or(0, |opened| opened.user))
}

pub fn repairing(effort: &Effort, cut: &[u8], frames: usize) -> Times {
    let mut out = vec![0; 16 * frames + 8];
    let mut other = out.clone();
    assert_eq!(calls::repair(cut, &mut out).count, frames as u64 - 1);
    let times = measure(effort, &mut || calls::repair(cut, &mut out).tail, &mut || {
        rival::repair(cut, &mut other).map_or(0, |repaired| repaired.tail)
    });
    assert!(out == other, "the two tails differ");
    times
}

/// Opening a file, and repair of it where it was not closed and its last frame is torn.
fn opened_and_repaired(report: &mut Report, name: &str, limit: Limit, file: (Vec<u8>, usize), frames: usize) {
    let (file, index) = file;
    report.row(&format!("opening {}", name), &["open"], limit, &mut || opening(&FULL, &file));
    let cut = torn(file, index);
    let times = &mut || repairing(&FULL, &cut, frames);
    report.row(&format!("repair of {}, last frame torn", name), &["repair"], ROW, times);
}

/// Touches what opening has to touch and nothing else: the index and, where it says that a frame stands, the frame's mark, time and size.
fn bare_loop(file: &[u8], index: usize, frames: usize) -> u64 {
    let four = |bytes: &[u8], at: usize| u64::from(u32::from_le_bytes(bytes[at..at + 4].try_into().unwrap()));
    let eight = |bytes: &[u8], at: usize| u64::from_le_bytes(bytes[at..at + 8].try_into().unwrap());
    let mut sum = 0;
    for entry in file[index + 4..][..16 * frames].chunks_exact(16) {
        let place = eight(entry, 4);
        let head = &file[place as usize..][..20];
        sum += four(entry, 0) + place + four(entry, 12);
        sum += four(head, 0) + eight(head, 4) + four(head, 16);
    }
    sum
}

/// The library's opening beside the bare loop. Each side answers whether it found what it should.
fn beside_bare_loop(file: &[u8], index: usize, frames: usize, section: usize) -> Times {
    let user = (file.len() - 4) as u64;
    let start = index - frames * (20 + section);
    let mark = u64::from(u32::from_le_bytes(MARK));
    let sum = (0..frames).map(|i| 2 * i + start + i * (20 + section) + 20 + section + section).sum::<usize>() as u64;
    let sum = sum + mark * frames as u64;
    assert_eq!((calls::open(file).user, bare_loop(file, index, frames)), (user, sum));
    measure(&FULL, &mut || u64::from(calls::open(file).user == user), &mut || {
        u64::from(bare_loop(file, index, frames) == sum)
    })
}

const BARE_ROW: &str = "opening 1 GiB, 10,000 frames, against a bare loop over its cache lines";

/// The rows of large files. It hands back the first file's opening beside the bare loop.
pub fn rows_of_frames(report: &mut Report) -> Times {
    // 1 GiB less what index and front take of it, by 10,000.
    let file = file_of(10_000, |_| 107_338);
    let beside = report.measured(BARE_ROW, BARE_LOOP, &mut || beside_bare_loop(&file.0, file.1, 10_000, 107_338));
    opened_and_repaired(report, "1 GiB, 10,000 frames", FIRST_ROW, file, 10_000);
    let file = file_of(10_000, |i| 107_138 + 37 * i % 401);
    opened_and_repaired(report, "1 GiB, 10,000 frames of 401 lengths", ROW, file, 10_000);
    let file = file_of(1_000_000, |_| 2);
    opened_and_repaired(report, "1,000,000 frames of 22 bytes", ROW, file, 1_000_000);
    beside
}

/// Of these 1,000 names one has a mark that the others have set: the library walks the table a second time, as every second table of such names.
fn drawn_name(i: usize) -> String {
    let mut random = Random::new(114, 0, 0);
    let mut name = String::new();
    for _ in 0..=i {
        name = (0..8).map(|_| (b'A' + random.below(26) as u8) as char).collect();
    }
    name
}

pub fn rows_of_tags(report: &mut Report) {
    let mut row = |names: &str, name: &dyn Fn(usize) -> String| {
        let file = file_with(named_tags(1000, name));
        let times = &mut || opening(&FULL, &file);
        report.row(&format!("opening with 1,000 tags, names {}", names), &["open"], ROW, times);
    };
    row("of 8 bytes", &short_name);
    row("OBS0000 to OBS0999", &|i| format!("OBS{:04}", i));
    row("of two letters", &two_letters);
    row("of 255 bytes alike but for the end", &long_name);
    row("of 8 letters drawn at random", &drawn_name);
}

/// What is refused is read once more for the place of its first fault: the file's last byte may not stand in a value, or the last name is the first one's.
pub fn rows_of_faults(report: &mut Report) {
    let mut row = |fault: &str, place: usize, file: &[u8]| {
        let other = |refusal: rival::Refusal| refusal.place;
        assert_eq!((calls::open(file).refused, calls::open(file).place), (7, place as u64));
        let times = &mut || {
            measure(&FULL, &mut || calls::open(file).place, &mut || rival::open(file).map_or_else(other, |_| 0))
        };
        report.row(&format!("opening refused at the last of 1,000 tags, {}", fault), &["open"], ROW, times);
    };
    let mut tags = named_tags(1000, short_name);
    let mut file = file_with(tags.clone());
    let last = file.len() - 1;
    file[last] = 7;
    row("for a byte of its value", last, &file);
    tags[999].name = tags[0].name.clone();
    let file = file_with(tags);
    row("for a name used twice", file.len() - 17, &file);
}

/// A table of its own: its other side is no rival.
pub fn row_of_bare_loop(report: &mut Report, beside: &Times) {
    println!();
    println!("| what | library | bare loop | ratio |");
    println!("|---|---|---|---|");
    report.print(BARE_ROW, &["open"], BARE_LOOP, beside);
}
