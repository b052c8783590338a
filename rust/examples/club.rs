//! An evening at the club: record, list, lose the end of a recording and repair it, tag it as two members with the same form open, and find one bad
//! character.
//!
//! club [DIRECTORY]: the files stay in the directory; without one they are made under the system's temporary directory, and removed at the end.
//! Every step is checked, and the program ends with 1 where one is not as it should be.

use std::error::Error;
use std::fs;
use std::io::Cursor;
use std::path::{Path, PathBuf};
use std::process::ExitCode;

use suljanko::{files, repair, FileRecorder, Look, Reason, Recording, Seen, Sheet};

type Step = Result<(), Box<dyn Error>>;

const SECTIONS: &[(&str, &[u8])] = &[("IMAGE", b"16x16, 16 bits"), ("STATUS", b"text")];
const SYSTEM: &[(&str, &str)] = &[("CAMERA", "QHY 174 GPS"), ("TELESCOPE", "C14")];
const FRAMES: i64 = 5;

fn main() -> ExitCode {
    let given = std::env::args_os().nth(1).map(PathBuf::from);
    let made = std::env::temp_dir().join(format!("suljanko-club-{}", std::process::id()));
    let evening = run(given.as_deref().unwrap_or(&made));
    if given.is_none() {
        let _ = fs::remove_dir_all(&made);
    }
    match evening {
        Ok(()) => {
            println!("All is as it should be.");
            ExitCode::SUCCESS
        }
        Err(error) => {
            println!("NOT as it should be: {error}");
            ExitCode::FAILURE
        }
    }
}

fn run(directory: &Path) -> Step {
    fs::create_dir_all(directory)?;
    let night = directory.join("night.fstf");
    record(&night)?;
    list(&night)?;
    lose_and_repair(&night, &directory.join("cut.fstf"))?;
    tag_as_two_members(&night)?;
    list(&night)?;
    find_one_character(&night, &directory.join("damaged.fstf"))
}

fn check(holds: bool, what: &str) -> Step {
    if holds {
        return Ok(());
    }
    Err(what.into())
}

/// A star that drifts over a dark sky.
fn image(number: i64) -> Vec<u8> {
    let star = (5 + number, 7);
    let pixel = |x, y| if (x, y) == star { 40_000_u16 } else { 90 };
    (0..16).flat_map(|y| (0..16).flat_map(move |x| pixel(x, y).to_le_bytes())).collect()
}

/// The same frames into a file, or into memory: every 40 ms from a time in 2026 on.
fn add_frame<S: std::io::Write + std::io::Seek>(recorder: &mut FileRecorder<S>, number: i64) -> Step {
    let status = format!("frame {number}, satellites 9");
    recorder.add(528_000_000_000 + 40 * number, 40, &[&image(number), status.as_bytes()])?;
    Ok(())
}

fn record(night: &Path) -> Step {
    println!("1. Recording {FRAMES} frames with the sections IMAGE and STATUS.");
    let mut recorder = files::record(night, SECTIONS, SYSTEM)?;
    for number in 0..FRAMES {
        add_frame(&mut recorder, number)?;
    }
    let late = recorder.add(0, 40, &[&image(0), b"a clock that was set back"]);
    let refusal = late.err().and_then(|error| error.refusal());
    check(refusal.map(|refusal| refusal.reason()) == Some(Reason::Clock), "a clock that was set back is refused 13")?;
    println!("   The clock was set back for one frame: it was refused 13, and the recording goes on.");
    recorder.close_on_disk()?;
    println!("   Closed: {} bytes.", fs::metadata(night)?.len());
    Ok(())
}

fn list(night: &Path) -> Step {
    println!("   ┌ night.fstf");
    let file = fs::read(night)?;
    let recording = Recording::open(&file)?;
    check(recording.frame_count() as i64 == FRAMES, "all frames are there")?;
    check(recording.sections().map(|s| (s.name, s.configuration)).eq(SECTIONS.iter().copied()), "the sections")?;
    check(recording.system_tags().map(|t| (t.name, t.value)).eq(SYSTEM.iter().copied()), "the system tags")?;
    for tag in recording.system_tags() {
        println!("   │ system tag {} = {}", tag.name, tag.value);
    }
    for tag in recording.user_tags() {
        println!("   │ user tag {} = {}", tag.name, tag.value);
    }
    for (number, frame) in recording.frames().enumerate() {
        let status = std::str::from_utf8(frame.section_named("STATUS").unwrap_or_default())?;
        println!("   │ frame {number} at {}, exposure {}: {status}", frame.date(), frame.exposure());
        check(frame.section(0)? == image(number as i64), "a frame's image is the one that was recorded")?;
    }
    println!("   └ {} frames", recording.frame_count());
    Ok(())
}

fn lose_and_repair(night: &Path, cut: &Path) -> Step {
    println!("2. The battery died: of the same recording, the file ends inside its last frame.");
    let file = fs::read(night)?;
    let last = Recording::open(&file)?.frames().next_back().ok_or("no frame")?;
    fs::write(cut, &file[..last.place() + 100])?;
    let bytes = fs::read(cut)?;
    let refusal = Recording::open(&bytes).err().ok_or("a recording that was not closed is refused")?;
    check(refusal.reason() == Reason::NotClosed, "a recording that was not closed is refused 5")?;
    println!("   Opening it: {refusal}");
    let done = files::repair(cut)?;
    check(done.frames as i64 == FRAMES - 1, "all frames but the last are kept")?;
    check(done.tags_not_kept == 0 && fs::read(&done.old)? == bytes, "the old file is there, and no tag was in it")?;
    let repaired = fs::read(cut)?;
    check(repaired == closed_after(FRAMES - 1)?, "it is what closing after the last whole frame would have given")?;
    println!("   Repaired: {} frames, byte for byte the file that closing after them would have given.", done.frames);
    let whole = repair(&repaired).err().map(|refusal| refusal.reason());
    check(whole == Some(Reason::Whole), "a repaired file needs no repair")?;
    Ok(())
}

/// What the recorder writes when it is closed after so many frames.
fn closed_after(frames: i64) -> Result<Vec<u8>, Box<dyn Error>> {
    let mut recorder = FileRecorder::begin(Cursor::new(Vec::new()), SECTIONS, SYSTEM)?;
    for number in 0..frames {
        add_frame(&mut recorder, number)?;
    }
    recorder.close()?;
    Ok(recorder.into_storage().into_inner())
}

/// A form: who looks sees the tags as they are now, and writes what OBSERVER and SITE should be.
fn form(night: &Path, observer: &str, site: &str) -> Result<Sheet, Box<dyn Error>> {
    let file = files::open(night)?;
    let seen: Vec<_> = file.recording().user_tags().map(|tag| (tag.name, tag.value)).collect();
    let sheet = Sheet::from_form(&seen, &[("OBSERVER", observer), ("SITE", site)]);
    match sheet.faults().first() {
        Some(fault) => Err(fault.to_string().into()),
        None => Ok(sheet),
    }
}

fn tag_as_two_members(night: &Path) -> Step {
    println!("3. Aino and Veli have the same form open: there is no tag OBSERVER yet, and no tag SITE.");
    let aino = form(night, "Aino", "Kuusamo")?;
    let veli = form(night, "Veli", "Inari")?;
    check(files::look(night, &aino)?.all_agree(), "nobody was ahead of Aino")?;
    files::commit(night, &aino)?;
    println!("   Aino looks, no change of hers conflicts, and she commits.");
    let look = files::look(night, &veli)?;
    println!("   Veli looks, and his form shows him:");
    println!("   │ {}", look.to_string().replace('\n', "\n   │ "));
    let shown: Vec<_> = look.conflicts().map(|change| (change.name, change.seen, change.now.as_deref())).collect();
    let expected = [("OBSERVER", Seen::Absent, Some("Aino")), ("SITE", Seen::Absent, Some("Kuusamo"))];
    check(shown == expected, "each conflict by its name, with what Veli saw and what the file says now")?;
    commit_over_a_conflict(night, &veli, &look)?;
    let again = form(night, "Aino and Veli", "Kuusamo")?;
    check(files::look(night, &again)?.all_agree(), "what Veli has seen now is what the file says")?;
    files::commit(night, &again)?;
    println!("   With Aino's tags before him he adds himself, looks anew, and commits.");
    let file = fs::read(night)?;
    let tags: Vec<_> = Recording::open(&file)?.user_tags().map(|tag| (tag.name, tag.value)).collect();
    check(tags == [("OBSERVER", "Aino and Veli"), ("SITE", "Kuusamo")], "both members' tags are there")
}

/// One who does not heed what a look shows, or whom another member overtakes behind it, is told by the commit.
fn commit_over_a_conflict(night: &Path, sheet: &Sheet, look: &Look) -> Step {
    let before = fs::read(night)?;
    let error = files::commit(night, sheet).err().ok_or("a commit over another member's change is refused")?;
    let refusal = error.refusal().ok_or("the library refuses it")?;
    let first = look.conflicts().next().map(|change| change.place as u64);
    check(refusal.reason() == Reason::Conflict && refusal.place() == first, "11, at the first change that conflicts")?;
    check(fs::read(night)? == before, "a refused commit leaves the file as it was")?;
    println!("   Were he to commit all the same: {error}");
    Ok(())
}

fn find_one_character(night: &Path, damaged: &Path) -> Step {
    println!("4. One character of a tag was damaged on the card.");
    let mut file = fs::read(night)?;
    // the table is the last of the file, and SITE the last of its tags
    let place = file.len() - 3;
    file[place] = 0x07;
    fs::write(damaged, &file)?;
    let error = files::open(damaged).err().ok_or("a damaged tag is refused")?;
    println!("   Opening it: {error}");
    let refusal = error.refusal().ok_or("the library refuses it")?;
    check(refusal.reason() == Reason::UserTable && refusal.place() == Some(place as u64), "7, at the character")?;
    let spot = refusal.spot(&file).ok_or("something stands there")?.to_string();
    println!("   There: {spot}");
    check(spot == r#"user tag 1, "SITE": character 4 of its value, byte 0x07"#, "the refusal leads to the character")?;
    println!("   Aino types the same character: her form tells her before she commits, and so does a look.");
    let mut sheet = Sheet::new();
    sheet.change("SITE").seen(Some("Kuusamo")).set("Kuus\u{7}mo");
    let refusal = files::look(night, &sheet).err().and_then(|error| error.refusal()).ok_or("no sheet")?;
    let fault = sheet.fault_at(refusal).ok_or("the refusal leads to a change")?;
    println!("   {refusal}");
    println!("   {fault}");
    check(sheet.faults() == [fault], "the fault that the form tells is where the refusal points")
}
