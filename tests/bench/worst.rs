//! The worst upload: tables whose names are chosen against the marks by which the library tells names apart, each in three orders, beside a usual table
//! of as many names of the same lengths. Who sends a file chooses its bytes, and who opens it waits.

use crate::build::*;
use crate::calls;
use crate::inputs::*;
use crate::marks::*;
use crate::measure::*;
use crate::random::Random;
use crate::saving::agreed_look;
use crate::verdict::*;
use std::time::Duration;

type Names = Vec<Vec<u8>>;
type Call = Box<dyn FnMut() -> u64>;

/// How many names a table has. The names behind them are for sheets.
const TAGS: usize = 1000;
const NAMES: usize = TAGS + 64;

/// Where the marks are defined, and what of it the names below are chosen against.
const DEFINED: &str = "crates/marks/specs/Marks.antt";
const ATTACKED: [&str; 9] = [
    "mix m w = (m * 11400715 + w) % 2 ^ 40",
    "mix_words (suc k) m s = mix_words k (mix m (number_of (take 4 s))) (drop 4 s)",
    "mix_bytes m (b ∷ bs) = mix_bytes (mix m b) bs",
    "mark_for s = mix (mix (cond (ltb (length s) 4) (mix_bytes 0 s) (mix (mix_words (length s / 4) 0 s) (number_of (drop (length s - 4) s))))",
    "    (length s % 256)) 0",
    "place m = m / 2 ^ 31",
    "first m = m / 2 ^ 25 % 64",
    "second m = m / 2 ^ 19 % 64",
    "third m = m / 2 ^ 13 % 64",
];

fn is_text(bytes: &[u8]) -> bool {
    bytes.iter().all(|byte| matches!(byte, 32..=126))
}

/// So many groups of eight bytes that all leave one mix, so that names that are alike but for one of them share one mark. The mix is linear: any four
/// bytes go ahead, what has to follow them is counted out, and taken where it is text.
fn twins(count: usize) -> Vec<[u8; 8]> {
    let wanted = mix(number(b"FSTF", 0, 4), number(b"mark", 0, 4));
    let mut found = Vec::new();
    let mut choice = 0u64;
    while found.len() < count {
        let ahead = [0, 1, 2, 3].map(|digit| 32 + (choice / 95u64.pow(digit) % 95) as u8);
        choice += 1;
        let behind = (wanted + MARKS - number(&ahead, 0, 4) * FACTOR % MARKS) % MARKS;
        let mut eight = [0; 8];
        eight[..4].copy_from_slice(&ahead);
        eight[4..].copy_from_slice(&behind.to_le_bytes()[..4]);
        if behind < 1 << 32 && is_text(&eight[4..]) {
            found.push(eight);
        }
    }
    found
}

/// A name that is alike all others of its length but for eight bytes.
fn with_eight(length: usize, at: usize, eight: &[u8]) -> Vec<u8> {
    let mut name = vec![b'T'; length];
    name[at..at + 8].copy_from_slice(eight);
    name
}

/// Numbers in place of the twins.
fn usual(length: usize, at: usize) -> Names {
    (0..NAMES).map(|i| with_eight(length, at, format!("{:08}", i).as_bytes())).collect()
}

fn sharing_a_mark(twins: &[[u8; 8]], length: usize, at: usize) -> Names {
    let names: Names = twins.iter().map(|eight| with_eight(length, at, eight)).collect();
    assert!(names.iter().all(|name| mark(name) == mark(&names[0])), "the marks differ");
    names
}

/// Names of 255 bytes whose marks stand in one word: a few set all of its bits, and the others are taken for known.
fn in_one_word(random: &mut Random, at: usize) -> Names {
    let mut names = vec![with_eight(255, at, &text(random, 8))];
    while names.len() < TAGS {
        let name = with_eight(255, at, &text(random, 8));
        if place(mark(&name)) == place(mark(&names[0])) && !names.contains(&name) {
            names.push(name);
        }
    }
    names
}

/// All of 3 bytes are tried.
fn short_in_one_word() -> Names {
    let texts = (0..95usize.pow(3)).map(|i| [i / 95 / 95, i / 95 % 95, i % 95].map(|digit| 32 + digit as u8).to_vec());
    let names: Names = texts.filter(|name| place(mark(name)) == 0).take(TAGS).collect();
    assert_eq!(names.len(), TAGS, "too few names of 3 bytes");
    names
}

/// Usual names, and at last some whose bits those have set already.
fn usual_but_for(last: usize, random: &mut Random, at: usize) -> Names {
    let mut names = usual(255, at);
    names.truncate(TAGS - last);
    let mut marked = [0; 512];
    for name in &names {
        marked[place(mark(name))] |= bits(mark(name));
    }
    while names.len() < TAGS {
        let name = with_eight(255, at, &text(random, 8));
        let bits = bits(mark(&name));
        if marked[place(mark(&name))] & bits == bits && !names.contains(&name) {
            names.push(name);
        }
    }
    names
}

/// Names in three orders: ascending by length and then as numbers with their low byte first, descending, and shuffled. From `last` on they stay as they are.
fn orders(names: &Names, last: usize, random: &mut Random) -> [Names; 3] {
    let (mut ascending, last) = (names[..last].to_vec(), &names[last..]);
    ascending.sort_by(|a, b| a.len().cmp(&b.len()).then_with(|| a.iter().rev().cmp(b.iter().rev())));
    let descending: Names = ascending.iter().rev().cloned().collect();
    let mut shuffled = ascending.clone();
    for place in (1..shuffled.len()).rev() {
        shuffled.swap(place, random.size(place));
    }
    [ascending, descending, shuffled].map(|ordered| [&ordered[..], last].concat())
}

fn tags_of(names: &Names) -> Vec<Tag> {
    names[..TAGS].iter().map(|name| tag(name.clone())).collect()
}

fn opening(names: &Names) -> Call {
    let file = file_with(tags_of(names));
    let opened = calls::open(&file);
    assert_eq!(rival::open(&file).map(|other| (other.user, other.user_tags)), Ok((opened.user, opened.user_tags)));
    Box::new(move || calls::open(&file).user_tags)
}

/// The last name is the first one's: the file is refused, and read once more for the place.
fn refused(names: &Names) -> Call {
    let mut tags = tags_of(names);
    tags[TAGS - 1].name = tags[0].name.clone();
    let file = file_with(tags);
    let opened = calls::open(&file);
    assert_eq!(rival::open(&file).map_err(|other| (other.number, other.place)), Err((opened.refused, opened.place)));
    Box::new(move || u64::from(calls::open(&file).refused == 7))
}

fn looking(names: &Names, sheet: Vec<u8>) -> Call {
    let file = file_with(tags_of(names));
    agreed_look(&file, &sheet);
    Box::new(move || calls::look(&file, &sheet).changes)
}

fn committing(names: &Names, sheet: Vec<u8>) -> Call {
    let file = file_with(tags_of(names));
    let mut out = vec![0; file.len()];
    let mut other = out.clone();
    let committed = calls::commit(&file, &sheet, &mut out);
    assert_eq!(rival::commit(&file, &sheet, &mut other), Ok(committed.length));
    assert!(out == other, "the two tables differ");
    Box::new(move || calls::commit(&file, &sheet, &mut out).length)
}

fn looking_at_tags(names: &Names) -> Call {
    looking(names, sheet_of_tags(names))
}

fn looking_at_absent(names: &Names) -> Call {
    looking(names, sheet_of_absent(names))
}

fn committing_tags(names: &Names) -> Call {
    committing(names, sheet_of_tags(names))
}

fn committing_absent(names: &Names) -> Call {
    committing(names, sheet_of_absent(names))
}

fn converting_tags(names: &Names) -> Call {
    let file = file_with(tags_of(names));
    let sheet = old_sheet_of_tags(names);
    let mut out = vec![0; 2 * sheet.len() + 64 * 256];
    let mut other = out.clone();
    let converted = calls::convert(&file, &sheet, &mut out);
    assert_eq!(rival::convert(&file, &sheet, &mut other), Ok(converted.length));
    assert!(out == other, "the two sheets differ");
    Box::new(move || calls::convert(&file, &sheet, &mut out).length)
}

/// Each fifteenth tag is removed, and nobody looked.
fn old_sheet_of_tags(names: &Names) -> Vec<u8> {
    let mut sheet = vec![64];
    for tag in tags_of(names).iter().step_by(15).take(64) {
        sheet.push(tag.name.len() as u8);
        sheet.extend_from_slice(&tag.name);
        sheet.extend_from_slice(&[2, 0]);
    }
    sheet
}

/// Each fifteenth tag is changed.
fn sheet_of_tags(names: &Names) -> Vec<u8> {
    sheet_of(tags_of(names).iter().step_by(15).take(64))
}

/// Names that no tag has, and that get none.
fn sheet_of_absent(names: &Names) -> Vec<u8> {
    let mut sheet = vec![64];
    for name in &names[TAGS..NAMES] {
        sheet.push(name.len() as u8);
        sheet.extend_from_slice(name);
        sheet.extend_from_slice(&[0, 0]);
    }
    sheet
}

fn beginning(names: &Names) -> Call {
    let system = table(&tags_of(names)).bytes;
    let setup = setup(&worked().sections).bytes;
    let mut out = vec![0; 81 + setup.len() + system.len()];
    let mut begin = move || calls::begin(calls::new(), &setup, &system, &mut [0; 4], &mut out);
    assert_eq!(begin().refused, 0);
    Box::new(move || begin().length)
}

fn by_name(names: &Names) -> Call {
    let table = table(&tags_of(names)).bytes;
    let name = names[TAGS - 1].clone();
    let found = calls::tag_named(&table, &name);
    assert_eq!(rival::tag_named(&table, &name).map(|tag| tag.map(|tag| tag.value)), Ok(Some(found.value)));
    Box::new(move || calls::tag_named(&table, &name).found)
}

/// A line of the table: the call on the names in each order, in turns with the call on usual names. The slowest order counts.
fn line(report: &mut Report, what: &str, call: fn(&Names) -> Call, orders: &[Names; 3], usual: &Names) {
    beside(report, what, call, orders, call(usual));
}

/// The same beside a usual file that opens.
fn refused_line(report: &mut Report, what: &str, orders: &[Names; 3], usual: &Names) {
    let mut opens = opening(usual);
    beside(report, what, refused, orders, Box::new(move || u64::from(opens() == TAGS as u64)));
}

fn beside(report: &mut Report, what: &str, call: fn(&Names) -> Call, orders: &[Names; 3], mut plain: Call) {
    let mut cells = Vec::new();
    let (mut slowest, mut least) = (Duration::ZERO, Duration::MAX);
    for names in orders {
        let times = measure(&QUICK, &mut *call(names), &mut *plain);
        cells.push(shown(times.ours));
        slowest = slowest.max(times.ours);
        least = least.min(times.theirs);
    }
    let ratio = slowest.as_secs_f64() / least.as_secs_f64();
    println!("| {} | {} | {} | {:.2} |", what, cells.join(" | "), shown(least), ratio);
    let limit = match what {
        what if ["a look", "a commit", "a conversion"].iter().any(|call| what.starts_with(call)) => WORST_SHEET,
        what if what.starts_with("refused") => WORST_REFUSED,
        _ => WORST,
    };
    report.hold(what, limit, ratio);
}

/// What is done with sheets whose names are chosen as well.
const SHEETS: [(&str, fn(&Names) -> Call); 5] = [
    ("a look: 64 changes", looking_at_tags),
    ("a look: 64 absent", looking_at_absent),
    ("a commit: 64 changes", committing_tags),
    ("a commit: 64 absent", committing_absent),
    ("a conversion: 64 changes", converting_tags),
];

fn lines(report: &mut Report) {
    let random = &mut Random::new(1, 2, 3);
    let twins = twins(NAMES);
    let three: Names = (0..TAGS).map(|i| format!("{:T>3}", i).into_bytes()).collect();
    for (alike, at) in [("alike but for the first bytes", 0), ("alike but for the end", 240)] {
        let plain = usual(255, at);
        let sharing = orders(&sharing_a_mark(&twins, 255, at), TAGS, random);
        let word = orders(&in_one_word(random, at), TAGS, random);
        let mut line = |what: &str, call, names: &[Names; 3]| {
            line(report, &format!("{}, {}", what, alike), call, names, &plain);
        };
        line("opening: 1,000 names of 255 bytes share one mark", opening, &sharing);
        line("opening: 1,000 names of 255 bytes have marks in one word", opening, &word);
        for last in [8, 32, 128] {
            let names = orders(&usual_but_for(last, random, at), TAGS - last, random);
            let what = format!("opening: {} usual names of 255 bytes, and {} whose marks are set", TAGS - last, last);
            line(&what, opening, &names);
        }
        for (what, call) in SHEETS {
            line(&format!("{} and 1,000 names of 255 bytes share one mark", what), call, &sharing);
        }
        line("a begin call: 1,000 names of 255 bytes share one mark", beginning, &sharing);
        line("a tag by its name: 1,000 names of 255 bytes share one mark", by_name, &sharing);
    }
    let twelve = orders(&sharing_a_mark(&twins, 12, 0), TAGS, random);
    line(report, "opening: 1,000 names of 12 bytes share one mark", opening, &twelve, &usual(12, 0));
    for (what, call) in SHEETS {
        line(report, &format!("{} and 1,000 names of 12 bytes share one mark", what), call, &twelve, &usual(12, 0));
    }
    let words = orders(&short_in_one_word(), TAGS, random);
    line(report, "opening: 1,000 names of 3 bytes have marks in one word", opening, &words, &three);
    for at in [0, 240] {
        let sharing = orders(&sharing_a_mark(&twins, 255, at), TAGS, random);
        let what = format!("refused: 1,000 names of 255 bytes share one mark from {} on, one of them twice", at);
        refused_line(report, &what, &sharing, &usual(255, at));
    }
    refused_line(report, "refused: 1,000 names of 12 bytes share one mark, one of them twice", &twelve, &usual(12, 0));
    refused_line(report, "refused: 1,000 names of 3 bytes have marks in one word, one of them twice", &words, &three);
    let plain = orders(&usual(12, 0), TAGS, random);
    refused_line(report, "refused: 1,000 usual names of 12 bytes, one of them twice", &plain, &usual(12, 0));
}

pub fn rows(report: &mut Report) {
    println!();
    println!("| the worst upload | ascending | descending | shuffled | usual | ratio of the slowest |");
    println!("|---|---|---|---|---|---|");
    let defined = std::fs::read_to_string(DEFINED).unwrap_or_default();
    for line in ATTACKED.iter().filter(|line| !defined.lines().any(|other| other == **line)) {
        report.fail(format!("the worst upload is chosen against a line that {} does not have: {}", DEFINED, line));
    }
    lines(report);
}
