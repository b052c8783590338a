//! How cost grows from small inputs to large ones: what one unit of each input costs, and the greatest factor by which a unit of a larger input costs more
//! than one of a smaller. Where cost grows with the input that is 1, or less where a fixed cost is shared out; where it grew with the input's square
//! it would be ten and more. Caches make it more than 1, for the rival as well.

use crate::build::*;
use crate::inputs::*;
use crate::measure::*;
use crate::opening::{opening, repairing};
use crate::raw::FSTF_USER_VALUE;
use crate::reading::{by_name, listing, parts_of};
use crate::recording::{beginning, recording};
use crate::saving::{committing, looking, spread};
use crate::verdict::*;
use rival::Item;
use std::time::Duration;

const FRAMES: [usize; 4] = [1_000, 10_000, 100_000, 1_000_000];
const TAGS: [usize; 3] = [10, 100, 1_000];
const CHANGES: [usize; 3] = [1, 8, 64];

/// 1,000,000 for 1000000.
fn grouped(number: usize) -> String {
    let digits = number.to_string();
    let groups: Vec<_> = digits.as_bytes().rchunks(3).rev().map(|group| String::from_utf8_lossy(group)).collect();
    groups.join(",")
}

fn steepest(costs: &[f64]) -> f64 {
    let mut steepest = 0.0f64;
    for (larger, cost) in costs.iter().enumerate() {
        for smaller in &costs[..larger] {
            steepest = steepest.max(cost / smaller);
        }
    }
    steepest
}

/// A line of the table: for each size how many units it has, and its times.
fn line(report: &mut Report, what: &str, unit: &str, sizes: &[usize], mut times: impl FnMut(usize) -> (usize, Times)) {
    let name = format!("growth of {}", what);
    let mut ours = vec![f64::INFINITY; sizes.len()];
    let mut theirs = ours.clone();
    let mut tries = 0;
    while tries == 0 || report.again(&name, growth(steepest(&theirs)), steepest(&ours), tries) {
        for (i, size) in sizes.iter().enumerate() {
            let (units, times) = times(*size);
            let each = |time: Duration| time.as_secs_f64() * 1e9 / units as f64;
            ours[i] = each(times.ours).min(ours[i]);
            theirs[i] = each(times.theirs).min(theirs[i]);
        }
        tries += 1;
    }
    let shown = |cost: f64| if cost < 1.0 { format!("{:.3}", cost) } else { format!("{:.1}", cost) };
    let mut cells: Vec<_> =
        sizes.iter().zip(&ours).map(|(size, cost)| format!("{}: {} ns", grouped(*size), shown(*cost))).collect();
    cells.resize(4, String::new());
    let (ours, theirs) = (steepest(&ours), steepest(&theirs));
    println!("| {} | {} | {} | {:.2} | {:.2} |", what, unit, cells.join(" | "), ours, theirs);
    report.hold(&name, growth(theirs), ours);
}

fn of_frames(report: &mut Report) {
    line(report, "opening by frames of 22 bytes", "frame", &FRAMES, |frames| {
        (frames, opening(&QUICK, &file_of(frames, |_| 2).0))
    });
    line(report, "repair by frames of 22 bytes, last frame torn", "frame", &FRAMES, |frames| {
        let (file, index) = file_of(frames, |_| 2);
        (frames, repairing(&QUICK, &torn(file, index), frames))
    });
    line(report, "recording by frames of 36 bytes", "frame", &FRAMES, |frames| {
        (frames, recording(&QUICK, frames as u64, 16))
    });
    // 4 MiB of sections each time
    line(report, "recording by bytes of a section", "KiB", &[1 << 10, 1 << 14, 1 << 18, 1 << 22], |section| {
        (1 << 12, recording(&QUICK, (1 << 22) / section as u64, section))
    });
}

fn of_tags(report: &mut Report) {
    let named = |count| named_tags(count, short_name);
    line(report, "opening by tags with names of 8 bytes", "tag", &TAGS, |count| {
        (count, opening(&QUICK, &file_with(named(count))))
    });
    line(report, "opening by the length of 1,000 names", "byte of the table", &[8, 32, 128, 255], |length| {
        let tags = named_tags(1000, |i| format!("{:T>1$}", i, length));
        (table(&tags).bytes.len(), opening(&QUICK, &file_with(tags)))
    });
    line(report, "a look of 1 change by tags", "tag", &TAGS, |count| {
        let tags = named(count);
        (count, looking(&QUICK, &file_with(tags.clone()), &sheet_of(&tags[count - 1..])))
    });
    line(report, "a look at 64 tags by changes", "change", &CHANGES, |changes| {
        let tags = named(64);
        (changes, looking(&QUICK, &file_with(tags.clone()), &half_wrong_sheet_of(&tags[tags.len() - changes..])))
    });
    // Here a unit is all of the look: a walk of the table for each change would make 64 of them cost ten times as much as one, and more.
    line(report, "a whole look at 1,000 tags by changes", "look", &CHANGES, |changes| {
        let tags = named(1000);
        (1, looking(&QUICK, &file_with(tags.clone()), &half_wrong_sheet_of(spread(&tags, changes))))
    });
    line(report, "a commit of 1 change by tags", "tag", &TAGS, |count| {
        let tags = named(count);
        (count, committing(&QUICK, &file_with(tags.clone()), &sheet_of(&tags[count - 1..])))
    });
    line(report, "a commit to 64 tags by changes", "change", &CHANGES, |changes| {
        let tags = named(64);
        (changes, committing(&QUICK, &file_with(tags.clone()), &sheet_of(&tags[tags.len() - changes..])))
    });
    line(report, "a begin call by system tags", "tag", &TAGS, |count| (count, beginning(&QUICK, &named(count))));
    line(report, "listing a table by tags", "tag", &TAGS, |count| {
        (count, listing(&QUICK, &table(&named(count)).bytes))
    });
    line(report, "the last tag by its name, by tags", "tag", &TAGS, |count| {
        let tags = named(count);
        (count, by_name(&QUICK, &table(&tags).bytes, &tags[count - 1].name))
    });
    line(report, "the last user tag of an opened file, by tags", "tag", &TAGS, |count| {
        let last = count as u64 - 1;
        (count, parts_of(&QUICK, &file_with(named(count)), &[(FSTF_USER_VALUE, last, 0, Item::UserValue(last))]))
    });
}

pub fn rows(report: &mut Report) {
    println!();
    println!("| how cost grows | the cost of a | at | at | at | at | steepest | the rival's |");
    println!("|---|---|---|---|---|---|---|---|");
    of_frames(report);
    of_tags(report);
}
