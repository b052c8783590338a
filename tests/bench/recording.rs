//! Recordings: begin, frames and the five closing pieces; begin and close also by themselves.

use crate::build::*;
use crate::calls;
use crate::inputs::*;
use crate::measure::*;
use crate::verdict::*;

pub fn recording(effort: &Effort, frames: u64, section: usize) -> Times {
    let sections = sizes(&[vec![0x5A; section]]).bytes;
    let setup = setup(&worked().sections).bytes;
    let mut notes = vec![0; 4 + 16 * frames as usize];
    let mut out = vec![0; notes.len().max(section + 20).max(81)];
    let mut their_notes = notes.clone();
    let mut their_out = out.clone();
    let mut ours = || {
        let mut state = calls::begin(calls::new(), &setup, &[0; 4], &mut notes, &mut out).recorder;
        for i in 0..frames {
            state = calls::add(state, i as i64, 40, &sections, &mut notes, &mut out).recorder;
        }
        for _ in 0..5 {
            state = calls::close(state, &notes, &mut out).recorder;
        }
        state.stage + state.end
    };
    let mut theirs = || {
        let fresh = rival::State::new();
        let mut state = rival::begin(fresh, &setup, &[0; 4], &mut their_notes, &mut their_out).unwrap().0;
        for i in 0..frames {
            state = rival::add(state, i as i64, 40, &sections, &mut their_notes, &mut their_out).unwrap().0;
        }
        for _ in 0..5 {
            state = rival::close(state, &their_notes, &mut their_out).unwrap().0;
        }
        3 + state.end
    };
    let times = measure(effort, &mut ours, &mut theirs);
    assert!(notes == their_notes && out == their_out, "the two recordings differ");
    times
}

/// A begin call by itself.
pub fn beginning(effort: &Effort, system: &[Tag]) -> Times {
    let system = table(system).bytes;
    let setup = setup(&worked().sections).bytes;
    let (mut notes, mut their_notes) = (vec![0; 4], vec![0; 4]);
    let mut out = vec![0; 81 + setup.len() + system.len()];
    let mut their_out = out.clone();
    assert_eq!(calls::begin(calls::new(), &setup, &system, &mut notes, &mut out).refused, 0);
    let times =
        measure(effort, &mut || calls::begin(calls::new(), &setup, &system, &mut notes, &mut out).length, &mut || {
            let fresh = rival::State::new();
            rival::begin(fresh, &setup, &system, &mut their_notes, &mut their_out).map_or(0, |taken| taken.1.length)
        });
    assert!(notes == their_notes && out == their_out, "the two beginnings differ");
    times
}

/// The five closing pieces of a recording of a million frames, all of which are added once, ahead of it.
fn closing(effort: &Effort) -> Times {
    let setup = setup(&worked().sections).bytes;
    let sections = sizes(&[vec![0x5A; 16]]).bytes;
    let mut notes = vec![0; 16_000_004];
    let mut out = notes.clone();
    let mut state = calls::begin(calls::new(), &setup, &[0; 4], &mut notes, &mut out).recorder;
    let mut other = rival::begin(rival::State::new(), &setup, &[0; 4], &mut notes, &mut out).unwrap().0;
    for i in 0..1_000_000 {
        state = calls::add(state, i, 40, &sections, &mut notes, &mut out).recorder;
        other = rival::add(other, i, 40, &sections, &mut notes, &mut out).unwrap().0;
    }
    let mut their_out = out.clone();
    let mut ours = || {
        let mut state = state;
        for _ in 0..5 {
            state = calls::close(state, &notes, &mut out).recorder;
        }
        state.stage + state.end
    };
    let mut theirs = || {
        let mut other = other;
        for _ in 0..5 {
            other = rival::close(other, &notes, &mut their_out).unwrap().0;
        }
        3 + other.end
    };
    let times = measure(effort, &mut ours, &mut theirs);
    assert!(out == their_out, "the two closings differ");
    times
}

pub fn rows(report: &mut Report) {
    let all = &["new", "begin", "add", "close"];
    report.row("recording 1,000,000 frames of 36 bytes", all, ROW, &mut || recording(&FULL, 1_000_000, 16));
    report.row("recording 1,000 frames of 1 MiB", all, ROW, &mut || recording(&FULL, 1_000, 1 << 20));
    let system = named_tags(1000, short_name);
    report.row("a begin call with 1,000 system tags", &["new", "begin"], ROW, &mut || beginning(&FULL, &system));
    report.row("the five close calls of 1,000,000 frames", &["close"], ROW, &mut || closing(&FULL));
}
