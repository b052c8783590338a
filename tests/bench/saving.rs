//! Saving tags: look and commit, and convert.

use crate::build::Tag;
use crate::calls;
use crate::inputs::*;
use crate::measure::*;
use crate::verdict::*;

/// Both sides accept, and show the same.
pub fn agreed_look(file: &[u8], sheet: &[u8]) {
    let looked = calls::look(file, sheet);
    let other = rival::Looked { changes: looked.changes, conflicts: looked.conflicts };
    assert_eq!((looked.refused, rival::look(file, sheet)), (0, Ok(other)));
}

pub fn looking(effort: &Effort, file: &[u8], sheet: &[u8]) -> Times {
    agreed_look(file, sheet);
    measure(effort, &mut || calls::look(file, sheet).conflicts, &mut || {
        rival::look(file, sheet).map_or(0, |looked| looked.conflicts)
    })
}

pub fn committing(effort: &Effort, file: &[u8], sheet: &[u8]) -> Times {
    let mut out = vec![0; file.len() + sheet.len()];
    let mut other = out.clone();
    assert_eq!(calls::commit(file, sheet, &mut out).refused, 0);
    let times = measure(effort, &mut || calls::commit(file, sheet, &mut out).length, &mut || {
        rival::commit(file, sheet, &mut other).unwrap_or(0)
    });
    assert!(out == other, "the two tables differ");
    times
}

pub fn converting(effort: &Effort, file: &[u8], sheet: &[u8]) -> Times {
    // What nobody looked at takes a length and 255 bytes more at most.
    let mut out = vec![0; sheet.len() + 64 * 256];
    let mut other = out.clone();
    assert_eq!(calls::convert(file, sheet, &mut out).refused, 0);
    let times = measure(effort, &mut || calls::convert(file, sheet, &mut out).length, &mut || {
        rival::convert(file, sheet, &mut other).unwrap_or(0)
    });
    assert!(out == other, "the two sheets differ");
    times
}

/// The last tag, and others at equal steps ahead of it: the library looks no further than the last tag that a sheet names.
pub fn spread(tags: &[Tag], changes: usize) -> Vec<&Tag> {
    let mut named: Vec<_> = tags.iter().rev().step_by(tags.len() / changes).take(changes).collect();
    named.reverse();
    named
}

pub fn rows(report: &mut Report) {
    let tags = named_tags(1000, short_name);
    let file = file_with(tags.clone());
    for (changes, named) in [(1, "1 change"), (64, "64 changes")] {
        let sheet = half_wrong_sheet_of(spread(&tags, changes));
        let times = &mut || looking(&FULL, &file, &sheet);
        report.row(&format!("a look of {} at 1,000 tags", named), &["look"], ROW, times);
    }
    for (changes, named) in [(1, "1 change"), (8, "8 changes"), (64, "64 changes")] {
        let sheet = sheet_of(spread(&tags, changes));
        let times = &mut || committing(&FULL, &file, &sheet);
        report.row(&format!("a commit of {} to 1,000 tags", named), &["commit"], ROW, times);
    }
    for (changes, named) in [(1, "1 change"), (64, "64 changes")] {
        let sheet = old_sheet_of(spread(&tags, changes));
        let times = &mut || converting(&FULL, &file, &sheet);
        report.row(&format!("a conversion of {} at 1,000 tags", named), &["convert"], ROW, times);
    }
}
