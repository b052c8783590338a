//! The example that converts a queue of old sheets: a line for each, what it leaves on the disk, and how it ends. rust/run runs the program itself.

mod common;
#[allow(dead_code)]
#[path = "../examples/queue.rs"]
mod queue;

use std::fs;
use std::path::{Path, PathBuf};

use common::{Place, WHOLE};
use suljanko::{commit, files, Recording, Sheet};

/// Old sheets: nobody looked, and SITE is to be Oulu, or removed.
const OULU: &[u8] = b"\x01\x04SITE\x02\x01\x04Oulu";
const REMOVED: &[u8] = b"\x02\x04SITE\x02\x00\x03NEW\x00\x00";

/// What is answered to these names, and whether all were converted.
fn answered(recording: &Path, names: &[u8]) -> (Vec<String>, bool) {
    let mut answers = Vec::new();
    let all = queue::run(recording, names, &mut answers).unwrap();
    let answers = String::from_utf8(answers).unwrap();
    assert!(answers.is_empty() || answers.ends_with('\n'));
    (answers.lines().map(str::to_string).collect(), all)
}

/// The same for paths, each a line.
fn answers_to(recording: &Path, names: &[&PathBuf]) -> (Vec<String>, bool) {
    let lines: Vec<_> = names.iter().map(|name| format!("{}\n", name.display())).collect();
    answered(recording, lines.concat().as_bytes())
}

/// The worked file with SITE = Inari.
fn inari() -> Vec<u8> {
    commit(&WHOLE, &Sheet::from_form(&[], &[("SITE", "Inari")])).unwrap().to_vec()
}

#[test]
fn a_queue_is_converted_and_committed() {
    let place = Place::new("queue");
    let recording = place.file("night.fstf", &inari());
    let (oulu, removed) = (place.file("1", OULU), place.file("2", REMOVED));
    let (answers, all) = answers_to(&recording, &[&oulu, &removed]);
    let expected = [
        format!("{}: converted, 1 of 1 changes filled in", oulu.display()),
        format!("{}: converted, 1 of 2 changes filled in", removed.display()),
    ];
    assert_eq!((answers, all), (expected.to_vec(), true));
    assert_eq!(place.names(), ["1", "1.converted", "2", "2.converted", "night.fstf"]);
    assert_eq!((fs::read(&oulu).unwrap(), fs::read(&removed).unwrap()), (OULU.to_vec(), REMOVED.to_vec()));
    assert_eq!(fs::read(&recording).unwrap(), inari());
    // the new ones are sheets of today, and the second is told that the first came in between
    let sheet = |name: &str| Sheet::from_bytes(&fs::read(place.0.join(name)).unwrap()).unwrap();
    files::commit(&recording, &sheet("1.converted")).unwrap();
    let error = files::commit(&recording, &sheet("2.converted")).unwrap_err();
    assert_eq!(error.refusal().map(|refusal| (refusal.number(), refusal.place())), Some((11, Some(0))));
    assert_eq!(Recording::open(&fs::read(&recording).unwrap()).unwrap().user_tag("SITE"), Some("Oulu"));
}

#[test]
fn each_is_answered_by_one_line_whatever_is_wrong() {
    let place = Place::new("queue-wrong");
    let recording = place.file("night.fstf", &inari());
    let good = place.file("good", OULU);
    let kind = place.file("kind", b"\x02\x01A\x02\x00\x04SITE\x03\x00");
    let cut = place.file("cut", &OULU[..10]);
    let taken = place.file("taken", OULU);
    place.file("taken.converted", b"somebody's");
    let busy = place.file("busy", OULU);
    place.file(".busy.converted.new", b"half a sh");
    let missing = place.0.join("missing");
    let last = place.file("last one", REMOVED);
    let names = [&good, &kind, &cut, &taken, &busy, &missing, &place.0, &last];
    let (answers, all) = answers_to(&recording, &names);
    assert!(!all);
    assert_eq!(answers.len(), names.len());
    for (name, answer) in names.iter().zip(&answers) {
        assert!(answer.starts_with(&format!("{}: ", name.display())), "{answer}");
    }
    let said: Vec<_> =
        names.iter().zip(&answers).map(|(name, answer)| &answer[name.display().to_string().len() + 2..]).collect();
    let refused = "not converted, refused 10, sheet at byte 10 of the old sheet: \
        It is no sheet, not even an old one: the first fault is at this place. Make it anew.";
    assert_eq!(said[0], "converted, 1 of 1 changes filled in");
    let there = r#"There: change 1, "SITE": the kind of what was seen, byte 0x03."#;
    assert_eq!(said[1], format!("{refused} {there}"));
    let there = r#"There: change 0, "SITE": character 1 of its new value, where the bytes have ended."#;
    assert_eq!(said[2], format!("{refused} {there}"));
    let taken = format!("not converted, storage: {}.converted: the name is taken. ", taken.display());
    assert!(said[3].starts_with(&taken), "{}", said[3]);
    assert!(said[4].starts_with("not converted, busy: ") && said[4].contains(".busy.converted.new is there"));
    let missing = format!("not converted, storage: {}: ", missing.display());
    assert!(said[5].starts_with(&missing), "{}", said[5]);
    assert!(said[6].starts_with(&format!("not converted, storage: {}: ", place.0.display())), "{}", said[6]);
    assert_eq!(said[7], "converted, 1 of 2 changes filled in");
    assert_eq!(fs::read(place.0.join("taken.converted")).unwrap(), b"somebody's");
    let left =
        [".busy.converted.new", "busy", "cut", "good", "good.converted", "kind", "last one", "last one.converted"];
    assert_eq!(place.names(), [&left[..], &["night.fstf", "taken", "taken.converted"]].concat());
}

#[test]
fn a_recording_that_is_refused_or_not_there_is_told_for_each_sheet() {
    let place = Place::new("queue-recording");
    let (oulu, removed) = (place.file("1", OULU), place.file("2", REMOVED));
    let damaged = place.file("damaged.fstf", &WHOLE[..97]);
    let (answers, all) = answers_to(&damaged, &[&oulu, &removed]);
    assert_eq!((answers.len(), all), (2, false));
    for (name, answer) in [&oulu, &removed].iter().zip(&answers) {
        let said = format!("{}: not converted, refused 7, user table at byte 94 of the file: ", name.display());
        assert!(answer.starts_with(&said), "{answer}");
        assert!(answer.ends_with(" There: the number of user tags, which is cut off."), "{answer}");
    }
    let missing = place.0.join("missing.fstf");
    let (answers, all) = answers_to(&missing, &[&oulu, &removed]);
    assert_eq!((answers.len(), all), (2, false));
    for answer in answers {
        assert!(answer.contains(&format!(": not converted, storage: {}: ", missing.display())), "{answer}");
    }
    assert_eq!(place.names(), ["1", "2", "damaged.fstf"]);
}

#[test]
fn lines_that_are_empty_spaces_and_a_last_line_without_an_end() {
    let place = Place::new("queue-lines");
    let recording = place.file("night.fstf", &WHOLE);
    assert_eq!(answered(&recording, b""), (vec![], true));
    assert_eq!(answered(&recording, b"\n\n\n"), (vec![], true));
    let (one, two) = (place.file(" 1", OULU), place.file("2 ", OULU));
    let (answers, all) = answered(&recording, format!("\n{}\n\n{}", one.display(), two.display()).as_bytes());
    let expected = [&one, &two].map(|name| format!("{}: converted, 1 of 1 changes filled in", name.display()));
    assert_eq!((answers, all), (expected.to_vec(), true));
    assert_eq!(place.names(), [" 1", " 1.converted", "2 ", "2 .converted", "night.fstf"]);
    // the same name once more: its new sheet is there
    let (answers, all) = answers_to(&recording, &[&one]);
    assert!(answers[0].contains("the name is taken") && !all, "{answers:?}");
}

#[test]
fn a_name_that_is_no_text_is_converted_too() {
    use std::ffi::OsStr;
    use std::os::unix::ffi::OsStrExt;
    let place = Place::new("queue-bytes");
    let recording = place.file("night.fstf", &WHOLE);
    let name = place.0.join(OsStr::from_bytes(b"\xE4.sheet"));
    fs::write(&name, OULU).unwrap();
    let (answers, all) = answered(&recording, name.as_os_str().as_bytes());
    assert!(all && answers.len() == 1 && answers[0].ends_with(": converted, 1 of 1 changes filled in"), "{answers:?}");
    assert!(fs::metadata(place.0.join(OsStr::from_bytes(b"\xE4.sheet.converted"))).is_ok());
}
