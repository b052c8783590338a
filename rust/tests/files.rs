//! Looking, committing, repairing and converting on disk.

mod common;

use std::fs;
use std::path::Path;
use std::time::Duration;

use common::{before_closing, Place, WHOLE};
use suljanko::{calls, files, Error, Reason, Recording, Refusal, Sheet, LARGEST_SHEET};

fn site(seen: Option<&str>, new: &str) -> Sheet {
    let mut sheet = Sheet::new();
    sheet.change("SITE").seen(seen).set(new);
    sheet
}

fn user_tag(path: &Path, name: &str) -> Option<String> {
    let file = fs::read(path).unwrap();
    let recording = Recording::open(&file).unwrap();
    recording.user_tag(name).map(str::to_string)
}

#[test]
fn two_members_commit() {
    let place = Place::new("members");
    let path = place.file("night.fstf", &WHOLE);
    files::commit(&path, &site(None, "Kuusamo")).unwrap();
    assert_eq!(user_tag(&path, "SITE").as_deref(), Some("Kuusamo"));
    let before = fs::read(&path).unwrap();
    let error = files::commit(&path, &site(None, "Inari")).unwrap_err();
    assert_eq!(error.refusal(), Refusal::of(11, 0));
    assert_eq!(fs::read(&path).unwrap(), before);
    files::commit(&path, &site(Some("Kuusamo"), "Inari")).unwrap();
    assert_eq!(user_tag(&path, "SITE").as_deref(), Some("Inari"));
    assert_eq!(fs::read(&path).unwrap()[..94], WHOLE[..94]);
    assert_eq!(place.names(), ["night.fstf"]);
}

#[test]
fn a_shorter_table_ends_the_file() {
    let place = Place::new("shorter");
    let path = place.file("night.fstf", &WHOLE);
    files::commit(&path, &site(None, "a long name of a place")).unwrap();
    let mut sheet = Sheet::new();
    sheet.change("SITE").seen(Some("a long name of a place")).remove();
    files::commit(&path, &sheet).unwrap();
    assert_eq!(fs::read(&path).unwrap(), WHOLE);
}

#[test]
fn somebody_is_committing() {
    let place = Place::new("busy");
    let path = place.file("night.fstf", &WHOLE);
    let lock = place.file(".night.fstf.new", b"half a fi");
    let error = files::commit(&path, &site(None, "A")).unwrap_err();
    assert!(matches!(&error, Error::Busy { lock } if lock.ends_with(".night.fstf.new")), "{error}");
    assert!(matches!(files::repair(&path).unwrap_err(), Error::Busy { .. }));
    assert_eq!((fs::read(&path).unwrap(), fs::read(&lock).unwrap()), (WHOLE.to_vec(), b"half a fi".to_vec()));
    fs::remove_file(lock).unwrap();
    files::commit(&path, &site(None, "A")).unwrap();
}

#[test]
fn a_look_ahead_of_a_commit() {
    let place = Place::new("look");
    let path = place.file("night.fstf", &WHOLE);
    let (aino, veli) = (site(None, "Kuusamo"), site(None, "Inari"));
    // both look and see no conflict, and both commit
    for sheet in [&aino, &veli] {
        assert!(files::look(&path, sheet).unwrap().all_agree());
    }
    files::commit(&path, &aino).unwrap();
    assert_eq!(files::commit(&path, &veli).unwrap_err().refusal(), Refusal::of(11, 0));
    // the one who is told looks again
    let look = files::look(&path, &veli).unwrap();
    let line = r#"change 0, tag "SITE": seen no such tag, the file says "Kuusamo", to be "Inari": conflicts"#;
    assert_eq!(look.to_string(), format!("1 of 1 changes conflicts\n{line}"));
    let now = look.changes()[0].now.clone();
    files::commit(&path, &site(now.as_deref(), "Inari")).unwrap();
    assert_eq!(user_tag(&path, "SITE").as_deref(), Some("Inari"));
    assert_eq!(place.names(), ["night.fstf"]);
}

#[test]
fn a_look_leaves_the_disk_as_it_is() {
    use std::os::unix::fs::MetadataExt;
    let place = Place::new("untouched");
    let path = place.file("night.fstf", &WHOLE);
    let met = || {
        let met = fs::metadata(&path).unwrap();
        (met.ino(), met.mtime(), met.mtime_nsec(), met.ctime(), met.ctime_nsec(), met.mode())
    };
    let mut read_only = fs::metadata(&path).unwrap().permissions();
    read_only.set_readonly(true);
    fs::set_permissions(&path, read_only).unwrap();
    let before = met();
    for sheet in [Sheet::new(), site(None, "A"), site(Some("B"), "A")] {
        let look = files::look(&path, &sheet).unwrap();
        assert_eq!(look.changes().len(), sheet.len());
    }
    assert_eq!(files::look(&path, &site(None, "\t")).unwrap_err().refusal().map(|refusal| refusal.number()), Some(10));
    assert_eq!((met(), fs::read(&path).unwrap()), (before, WHOLE.to_vec()));
    assert_eq!(place.names(), ["night.fstf"]);
}

#[test]
fn a_look_does_not_wait_for_one_who_commits() {
    let place = Place::new("reading");
    let path = place.file("night.fstf", &WHOLE);
    let lock = place.file(".night.fstf.new", b"half a fi");
    assert!(files::look(&path, &site(None, "A")).unwrap().all_agree());
    assert_eq!(fs::read(lock).unwrap(), b"half a fi");
    assert_eq!(place.names(), [".night.fstf.new", "night.fstf"]);
}

// Members who look, add one to what the file says and commit, all at the same moment: no step is lost.
#[test]
fn many_members_look_and_commit() {
    const MEMBERS: usize = 4;
    const STEPS: usize = 25;
    let place = Place::new("steps");
    let path = place.file("night.fstf", &WHOLE);
    files::commit(&path, &site(None, "0")).unwrap();
    let members: Vec<_> = (0..MEMBERS)
        .map(|_| {
            let path = path.clone();
            std::thread::spawn(move || {
                let (mut done, mut overtaken) = (0, 0);
                while done < STEPS {
                    let asked = site(None, "");
                    let now = files::look(&path, &asked).unwrap().changes()[0].now.clone().unwrap();
                    let next = now.parse::<usize>().unwrap() + 1;
                    match files::commit(&path, &site(Some(&now), &next.to_string())) {
                        Ok(()) => done += 1,
                        Err(Error::Busy { .. }) => std::thread::yield_now(),
                        Err(error) => {
                            assert_eq!(error.refusal(), Refusal::of(11, 0));
                            overtaken += 1;
                        }
                    }
                }
                overtaken
            })
        })
        .collect();
    let overtaken: usize = members.into_iter().map(|member| member.join().unwrap()).sum();
    let steps = (MEMBERS * STEPS).to_string();
    assert_eq!(user_tag(&path, "SITE"), Some(steps), "overtaken {overtaken} times");
    assert_eq!(place.names(), ["night.fstf"]);
}

#[test]
fn many_members_at_the_same_moment() {
    let place = Place::new("many");
    let path = place.file("night.fstf", &WHOLE);
    let members: Vec<_> = (0..8)
        .map(|member| {
            let path = path.clone();
            std::thread::spawn(move || {
                let mut sheet = Sheet::new();
                sheet.change(&format!("MEMBER{member}")).seen(None).set("was here");
                // until nobody else is committing
                while let Err(error) = files::commit(&path, &sheet) {
                    assert!(matches!(error, Error::Busy { .. }), "{error}");
                    std::thread::yield_now();
                }
            })
        })
        .collect();
    for member in members {
        member.join().unwrap();
    }
    for member in 0..8 {
        assert_eq!(user_tag(&path, &format!("MEMBER{member}")).as_deref(), Some("was here"));
    }
    assert_eq!(place.names(), ["night.fstf"]);
}

#[test]
fn one_of_many_who_saw_the_same_wins() {
    let place = Place::new("same");
    let path = place.file("night.fstf", &WHOLE);
    let members: Vec<_> = (0..8)
        .map(|member| {
            let path = path.clone();
            std::thread::spawn(move || loop {
                match files::commit(&path, &site(None, &format!("member {member}"))) {
                    Ok(()) => return Some(member),
                    Err(Error::Busy { .. }) => std::thread::yield_now(),
                    Err(error) => {
                        assert_eq!(error.refusal(), Refusal::of(11, 0));
                        return None;
                    }
                }
            })
        })
        .collect();
    let won: Vec<_> = members.into_iter().filter_map(|member| member.join().unwrap()).collect();
    assert_eq!(won.len(), 1);
    assert_eq!(user_tag(&path, "SITE"), Some(format!("member {}", won[0])));
}

// What a reader meets at a moment is what a crash at that moment leaves.
#[test]
fn at_every_moment_the_old_file_or_the_new_one_is_there() {
    let place = Place::new("moments");
    let path = place.file("night.fstf", &WHOLE);
    let values = ["short", "a value of quite another length"];
    files::commit(&path, &site(None, values[0])).unwrap();
    let tagged = path.clone();
    let committing = std::thread::spawn(move || {
        for number in 0..100 {
            files::commit(&tagged, &site(Some(values[number % 2]), values[(number + 1) % 2])).unwrap();
        }
    });
    while !committing.is_finished() {
        let met = user_tag(&path, "SITE").unwrap();
        assert!(values.contains(&met.as_str()), "{met}");
        let sheet = site(Some(values[0]), "");
        let look = files::look(&path, &sheet).unwrap();
        let now = look.changes()[0].now.as_deref();
        assert!(values.map(Some).contains(&now) && look.all_agree() == (now == Some(values[0])), "{look}");
    }
    committing.join().unwrap();
}

#[test]
fn a_cut_file_is_repaired() {
    let place = Place::new("repair");
    let path = place.file("night.fstf", &before_closing());
    let done = files::repair(&path).unwrap();
    assert_eq!((done.frames, done.tags_not_kept), (1, 0));
    assert_eq!(fs::read(&path).unwrap(), WHOLE);
    assert_eq!(fs::read(&done.old).unwrap(), before_closing());
    assert_eq!(files::repair(&path).unwrap_err().refusal().unwrap().reason(), Reason::Whole);
    assert_eq!(files::repair_if_needed(&path).unwrap(), None);
    let path = place.file("cut.fstf", &before_closing()[..73]);
    let done = files::repair_if_needed(&path).unwrap().unwrap();
    assert_eq!((done.frames, fs::read(&done.old).unwrap()), (0, before_closing()[..73].to_vec()));
    let path = place.file("none.fstf", b"not a recording");
    assert_eq!(files::repair_if_needed(&path).unwrap_err().refusal().unwrap().reason(), Reason::NotFstf);
    assert_eq!(fs::read(&path).unwrap(), b"not a recording");
    let names = ["cut.fstf", "cut.fstf.old", "night.fstf", "night.fstf.old", "none.fstf"];
    assert_eq!(place.names(), names);
}

#[test]
fn a_recording_on_disk() {
    let place = Place::new("record");
    let path = place.0.join("night.fstf");
    let mut recorder = files::record(&path, &[("IMAGE", b"")], &[]).unwrap();
    recorder.add(1000, 40, &[&[0x34, 0x12]]).unwrap();
    recorder.sync().unwrap();
    // not closed yet, it is what repair makes a file of
    assert_eq!(fs::read(&path).unwrap(), before_closing());
    recorder.close_on_disk().unwrap();
    assert_eq!(recorder.close_on_disk().unwrap_err().refusal().unwrap().reason(), Reason::Stage);
    assert_eq!(fs::read(&path).unwrap(), WHOLE);
    // a recording that is refused leaves no file
    let refused = files::record(place.0.join("none.fstf"), &[], &[]).unwrap_err();
    assert_eq!(refused.refusal().unwrap().reason(), Reason::Sections);
    assert_eq!(place.names(), ["night.fstf"]);
    // a file that is there is left alone
    assert!(matches!(files::record(&path, &[("IMAGE", b"")], &[]).unwrap_err(), Error::Storage(_)));
    assert_eq!(fs::read(&path).unwrap(), WHOLE);
}

#[test]
fn an_error_shows_where_the_fault_is() {
    let place = Place::new("positions");
    let mut file = WHOLE.to_vec();
    file[37] = b'-';
    let path = place.file("damaged.fstf", &file);
    let errors = [
        files::open(&path).unwrap_err(),
        files::look(&path, &Sheet::new()).unwrap_err(),
        files::commit(&path, &Sheet::new()).unwrap_err(),
        files::repair(&path).unwrap_err(),
        files::repair_if_needed(&path).unwrap_err(),
    ];
    for error in errors {
        assert!(error.to_string().starts_with("refused 3, sections at byte 37 of the file: "), "{error}");
        let spot = error.refusal().unwrap().spot(&file).unwrap();
        assert_eq!(spot.to_string(), r#"section 0, "IM-GE": character 2 of its name, byte 0x2D"#);
    }
    let path = place.file("night.fstf", &WHOLE);
    let sheet = site(None, "A\n");
    for error in [files::look(&path, &sheet).unwrap_err(), files::commit(&path, &sheet).unwrap_err()] {
        assert!(error.to_string().starts_with("refused 10, sheet at byte 10 of the sheet: "), "{error}");
    }
    let error = files::record(place.0.join("none.fstf"), &[("A B", b"")], &[]).unwrap_err();
    assert!(error.to_string().starts_with("refused 3, sections at byte 3 of the set-up list: "), "{error}");
}

#[test]
fn files_that_are_not_there() {
    let place = Place::new("nothing");
    assert!(matches!(files::look(place.0.join("no.fstf"), &Sheet::new()).unwrap_err(), Error::Storage(_)));
    assert!(matches!(files::commit(place.0.join("no.fstf"), &Sheet::new()).unwrap_err(), Error::Storage(_)));
    assert!(matches!(files::repair(place.0.join("no.fstf")).unwrap_err(), Error::Storage(_)));
    assert!(matches!(files::repair(&place.0).unwrap_err(), Error::Storage(_)));
    assert!(place.names().is_empty());
}

/// An old sheet: nobody looked, and SITE is to be Kuusamo.
const OLD: &[u8] = b"\x01\x04SITE\x02\x01\x07Kuusamo";

#[test]
fn an_old_sheet_is_converted_and_committed() {
    let place = Place::new("convert");
    let path = place.file("night.fstf", &WHOLE);
    let old = place.file("old", OLD);
    let new = place.0.join("new");
    let converted = files::convert(&path, &old, &new).unwrap();
    assert_eq!((converted.sheet(), converted.filled_in()), (&site(None, "Kuusamo"), &[0][..]));
    assert_eq!(converted.bytes(), site(None, "Kuusamo").to_vec());
    assert_eq!(fs::read(&new).unwrap(), converted.bytes());
    assert_eq!((fs::read(&path).unwrap(), fs::read(&old).unwrap()), (WHOLE.to_vec(), OLD.to_vec()));
    assert_eq!(place.names(), ["new", "night.fstf", "old"]);
    let sheet = Sheet::from_bytes(&fs::read(&new).unwrap()).unwrap();
    files::commit(&path, &sheet).unwrap();
    assert_eq!(user_tag(&path, "SITE").as_deref(), Some("Kuusamo"));
    // against the file as it is now
    files::convert(&path, &old, place.0.join("newer")).unwrap();
    assert_eq!(fs::read(place.0.join("newer")).unwrap(), site(Some("Kuusamo"), "Kuusamo").to_vec());
}

#[test]
fn no_sheet_is_overwritten() {
    let place = Place::new("taken");
    let path = place.file("night.fstf", &WHOLE);
    let old = place.file("old", OLD);
    let there = place.file("there", b"somebody's");
    let link = place.0.join("link");
    std::os::unix::fs::symlink(place.0.join("nowhere"), &link).unwrap();
    for taken in [&there, &link, &old, &path, &place.0] {
        let error = files::convert(&path, &old, taken).unwrap_err();
        let said = format!("storage: {}: the name is taken. ", taken.display());
        assert!(error.to_string().starts_with(&said), "{error}");
        assert!(matches!(&error, Error::Storage(error) if error.kind() == std::io::ErrorKind::AlreadyExists));
    }
    assert_eq!((fs::read(&there).unwrap(), fs::read(&old).unwrap()), (b"somebody's".to_vec(), OLD.to_vec()));
    assert_eq!(fs::read(&path).unwrap(), WHOLE);
    assert_eq!(place.names(), ["link", "night.fstf", "old", "there"]);
}

#[test]
fn what_is_refused_leaves_no_new_sheet() {
    let place = Place::new("unconverted");
    let path = place.file("night.fstf", &WHOLE);
    let cut = place.file("cut.fstf", &WHOLE[..97]);
    let old = place.file("old", OLD);
    let broken = place.file("broken", &OLD[..OLD.len() - 1]);
    let new = place.0.join("new");
    let error = files::convert(&cut, &old, &new).unwrap_err();
    assert!(error.to_string().starts_with("refused 7, user table at byte 94 of the file: "), "{error}");
    // the recording is asked first
    assert_eq!(files::convert(&cut, &broken, &new).unwrap_err().refusal(), error.refusal());
    let error = files::convert(&path, &broken, &new).unwrap_err();
    assert!(error.to_string().starts_with("refused 10, sheet at byte 15 of the old sheet: "), "{error}");
    let spot = error.refusal().unwrap().spot(&OLD[..15]).unwrap().to_string();
    assert_eq!(spot, r#"change 0, "SITE": character 6 of its new value, where the bytes have ended"#);
    assert_eq!(place.names(), ["broken", "cut.fstf", "night.fstf", "old"]);
}

#[test]
fn a_storage_error_says_which_file_it_is_about() {
    let place = Place::new("which");
    let path = place.file("night.fstf", &WHOLE);
    let old = place.file("old", OLD);
    let (new, none) = (place.0.join("new"), place.0.join("none"));
    let far = none.join("new");
    let calls = [
        (&none, files::convert(&none, &old, &new)),
        (&none, files::convert(&path, &none, &new)),
        (&far, files::convert(&path, &old, &far)),
        (&place.0, files::convert(&place.0, &old, &new)),
        (&place.0, files::convert(&path, &place.0, &new)),
    ];
    for (about, answer) in calls {
        let error = answer.unwrap_err();
        assert!(matches!(error, Error::Storage(_)), "{error}");
        assert!(error.to_string().starts_with(&format!("storage: {}: ", about.display())), "{error}");
    }
    assert_eq!(place.names(), ["night.fstf", "old"]);
}

#[test]
fn a_new_sheet_has_the_old_ones_permissions_and_stands_where_links_lead() {
    use std::os::unix::fs::PermissionsExt;
    let place = Place::new("private");
    let path = place.file("night.fstf", &WHOLE);
    let old = place.file("old", OLD);
    fs::create_dir(place.0.join("queue")).unwrap();
    std::os::unix::fs::symlink(place.0.join("queue"), place.0.join("link")).unwrap();
    for (number, mode) in [0o600, 0o640, 0o444].into_iter().enumerate() {
        fs::set_permissions(&old, fs::Permissions::from_mode(mode)).unwrap();
        let new = place.0.join("link").join(number.to_string());
        let converted = files::convert(&path, &old, &new).unwrap();
        let stored = place.0.join("queue").join(number.to_string());
        assert_eq!(fs::read(&stored).unwrap(), converted.bytes());
        assert_eq!(fs::metadata(&stored).unwrap().permissions().mode() & 0o777, mode);
    }
}

#[test]
fn somebody_is_converting() {
    let place = Place::new("converting");
    let path = place.file("night.fstf", &WHOLE);
    let old = place.file("old", OLD);
    let new = place.0.join("new");
    let lock = place.file(".new.new", b"half a sh");
    let error = files::convert(&path, &old, &new).unwrap_err();
    assert!(matches!(&error, Error::Busy { lock } if lock.ends_with(".new.new")), "{error}");
    assert!(error.to_string().contains("If nobody is committing, repairing or converting, delete it"), "{error}");
    assert_eq!(fs::read(&lock).unwrap(), b"half a sh");
    assert_eq!(place.names(), [".new.new", "night.fstf", "old"]);
    // what a crash left is cleared by the name that the new sheet was to have
    assert!(matches!(files::clear_stale(&new, Duration::from_secs(3600)).unwrap_err(), Error::Busy { .. }));
    assert!(files::clear_stale(&new, Duration::ZERO).unwrap());
    assert!(!files::clear_stale(&new, Duration::ZERO).unwrap());
    assert!(matches!(files::clear_stale(place.0.join("no").join("new"), Duration::ZERO), Err(Error::Storage(_))));
    files::convert(&path, &old, &new).unwrap();
    assert_eq!(place.names(), ["new", "night.fstf", "old"]);
}

// One who reads while it is converted, as a crash would, meets no new sheet or the whole one; and of many who convert to one name, one has it.
#[test]
fn many_convert_to_one_name() {
    let place = Place::new("one-name");
    let path = place.file("night.fstf", &WHOLE);
    let new = place.0.join("new");
    let members: Vec<_> = (0..8)
        .map(|member| {
            let (path, new) = (path.clone(), new.clone());
            let old = place.file(&format!("old{member}"), &[&OLD[..8], &[1, b'0' + member]].concat());
            std::thread::spawn(move || loop {
                match files::convert(&path, &old, &new) {
                    Ok(converted) => return Some(converted.into_bytes()),
                    Err(Error::Busy { .. }) => std::thread::yield_now(),
                    Err(error) => {
                        assert!(error.to_string().contains("the name is taken"), "{error}");
                        return None;
                    }
                }
            })
        })
        .collect();
    while members.iter().any(|member| !member.is_finished()) {
        if let Ok(met) = fs::read(&new) {
            assert_eq!((met.len(), Sheet::from_bytes(&met).unwrap().len()), (10, 1));
        }
    }
    let won: Vec<_> = members.into_iter().filter_map(|member| member.join().unwrap()).collect();
    assert_eq!(won.len(), 1);
    assert_eq!(fs::read(&new).unwrap(), won[0]);
    assert_eq!(place.names().len(), 10);
}

#[test]
fn a_file_that_is_too_long_for_a_sheet_is_refused_where_its_first_fault_is() {
    let place = Place::new("too-long");
    let path = place.file("night.fstf", &WHOLE);
    // 64 changes with the longest strings, as long as a sheet can be, and much behind them
    let mut sheet = Sheet::new();
    let long = "x".repeat(255);
    for number in 0..64 {
        sheet.change(&format!("{number:~>255}")).seen(Some(&long)).set(&long);
    }
    let largest = sheet.to_vec();
    assert_eq!(largest.len(), LARGEST_SHEET);
    let whole = files::convert(&path, place.file("whole", &largest), place.0.join("new")).unwrap();
    assert!(whole.bytes() == largest);
    let behind = [largest, vec![0; 100_000]].concat();
    let mut damaged = behind.clone();
    damaged[LARGEST_SHEET - 1] = 9;
    for (name, bytes, at) in [("behind", behind, LARGEST_SHEET), ("damaged", damaged, LARGEST_SHEET - 1)] {
        assert_eq!(
            calls::convert(&WHOLE, &bytes, &mut []).refusal().and_then(|refusal| refusal.place()),
            Some(at as u64)
        );
        let error = files::convert(&path, place.file(name, &bytes), place.0.join("new")).unwrap_err();
        assert_eq!(error.refusal(), calls::convert(&WHOLE, &bytes, &mut []).refusal());
    }
    // a recording in the place of a sheet
    let error = files::convert(&path, &path, place.0.join("newer")).unwrap_err();
    assert!(error.to_string().starts_with("refused 10, sheet at byte 0 of the old sheet: "), "{error}");
}

#[cfg(unix)]
#[test]
fn links_stay_and_so_do_permissions() {
    use std::os::unix::fs::PermissionsExt;
    let place = Place::new("links");
    let path = place.file("night.fstf", &WHOLE);
    fs::set_permissions(&path, fs::Permissions::from_mode(0o640)).unwrap();
    let link = place.0.join("link.fstf");
    std::os::unix::fs::symlink(&path, &link).unwrap();
    files::commit(&link, &site(None, "A")).unwrap();
    assert!(fs::symlink_metadata(&link).unwrap().file_type().is_symlink());
    assert_eq!(user_tag(&path, "SITE").as_deref(), Some("A"));
    assert_eq!(fs::metadata(&path).unwrap().permissions().mode() & 0o777, 0o640);
}

/// The worked file with these user tags, and one bit of its header's frame count flipped: refused 6.
fn flipped(tags: &[(&str, &str)]) -> Vec<u8> {
    let mut file = suljanko::commit(&WHOLE, &Sheet::from_form(&[], tags)).unwrap().to_vec();
    assert_eq!(Recording::open(&file).unwrap().user_tags().len(), tags.len());
    file[5] ^= 2;
    assert_eq!(Recording::open(&file).unwrap_err().number(), 6);
    file
}

#[test]
fn a_repair_tells_the_tags_that_it_does_not_keep_and_leaves_the_old_file() {
    let place = Place::new("flipped");
    let file = flipped(&[("SITE", "Kuusamo"), ("OBSERVER", "Aino")]);
    let path = place.file("night.fstf", &file);
    let done = files::repair(&path).unwrap();
    assert_eq!((done.frames, done.tags_not_kept), (1, 2));
    assert_eq!(done.old, place.0.canonicalize().unwrap().join("night.fstf.old"));
    assert_eq!(fs::read(&done.old).unwrap(), file);
    assert_eq!(fs::read(&path).unwrap(), WHOLE);
    // the tags can be had from there, and committed again
    let old = fs::read(&done.old).unwrap();
    let tags: Vec<_> = suljanko::repair(&old).unwrap().tags_not_kept().map(|tag| (tag.name, tag.value)).collect();
    assert_eq!(tags, [("SITE", "Kuusamo"), ("OBSERVER", "Aino")]);
    files::commit(&path, &Sheet::from_form(&[], &tags)).unwrap();
    assert_eq!(user_tag(&path, "OBSERVER").as_deref(), Some("Aino"));
}

#[test]
fn no_old_file_is_overwritten() {
    let place = Place::new("olds");
    place.file("night.fstf.old", b"a first one");
    place.file("night.fstf.old2", b"a second one");
    let cut = before_closing();
    let path = place.file("night.fstf", &cut);
    let done = files::repair(&path).unwrap();
    assert!(done.old.ends_with("night.fstf.old3"), "{:?}", done.old);
    assert_eq!(fs::read(&done.old).unwrap(), cut);
    assert_eq!(fs::read(place.0.join("night.fstf.old")).unwrap(), b"a first one");
    assert_eq!(fs::read(place.0.join("night.fstf.old2")).unwrap(), b"a second one");
    // neither a refused repair nor a commit leaves one
    assert_eq!(files::repair(&path).unwrap_err().refusal().map(|refusal| refusal.number()), Some(16));
    files::commit(&path, &site(None, "A")).unwrap();
    let names = ["night.fstf", "night.fstf.old", "night.fstf.old2", "night.fstf.old3"];
    assert_eq!(place.names(), names);
}

#[test]
fn a_file_is_opened_by_its_path() {
    let place = Place::new("open");
    let path = place.file("night.fstf", &WHOLE);
    let file = files::open(&path).unwrap();
    // the bytes are its own
    fs::remove_file(&path).unwrap();
    assert_eq!(file.recording().frame(0).unwrap().section_named("IMAGE"), Some(&[0x34, 0x12][..]));
    assert_eq!(file.into_file(), WHOLE);
    assert!(matches!(files::open(&path).unwrap_err(), Error::Storage(_)));
    assert!(matches!(files::open(&place.0).unwrap_err(), Error::Storage(_)));
    let cut = place.file("cut.fstf", &before_closing());
    assert_eq!(files::open(cut).unwrap_err().refusal().map(|refusal| refusal.number()), Some(5));
}

#[test]
fn what_a_crash_left_is_cleared_when_it_is_old() {
    let place = Place::new("stale");
    let path = place.file("night.fstf", &WHOLE);
    let hour = Duration::from_secs(3600);
    assert!(!files::clear_stale(&path, hour).unwrap());
    place.file(".night.fstf.new", b"half a fi");
    assert!(matches!(files::commit(&path, &site(None, "A")).unwrap_err(), Error::Busy { .. }));
    let error = files::clear_stale(&path, hour).unwrap_err();
    assert!(matches!(&error, Error::Busy { lock } if lock.ends_with(".night.fstf.new")), "{error}");
    assert_eq!(place.names(), [".night.fstf.new", "night.fstf"]);
    assert!(files::clear_stale(&path, Duration::ZERO).unwrap());
    files::commit(&path, &site(None, "A")).unwrap();
    assert_eq!(place.names(), ["night.fstf"]);
}

// Members commit while another clears their new files without waiting: each commit is told, or is there.
#[test]
fn one_whose_new_file_was_cleared_is_told() {
    let place = Place::new("cleared");
    let path = place.file("night.fstf", &WHOLE);
    let committing = {
        let path = path.clone();
        std::thread::spawn(move || {
            let (mut seen, mut told) = (None, 0);
            for number in 0..400 {
                let new = format!("{number}");
                match files::commit(&path, &site(seen.as_deref(), &new)) {
                    Ok(()) => seen = Some(new),
                    Err(Error::Busy { .. }) => told += 1,
                    // between the look whose file it is and the rename
                    Err(Error::Storage(error)) => assert_eq!(error.kind(), std::io::ErrorKind::NotFound),
                    Err(error) => panic!("{error}"),
                }
            }
            (seen, told)
        })
    };
    while !committing.is_finished() {
        let _ = files::clear_stale(&path, Duration::ZERO);
    }
    let (seen, told) = committing.join().unwrap();
    assert_eq!(user_tag(&path, "SITE"), seen, "told {told} times");
    assert_eq!(place.names(), ["night.fstf"]);
}

// A slow member's new file is cleared, and another member has begun one: the slow one is told, and touches neither.
#[test]
fn one_who_is_too_slow_leaves_the_next_members_file() {
    let place = Place::new("slow");
    let path = place.0.join("night.fstf");
    let mut recorder = files::record(&path, &[("IMAGE", b"")], &[]).unwrap();
    for number in 0..20 {
        recorder.add(number, 0, &[&[7; 1_000_000]]).unwrap();
    }
    recorder.close_on_disk().unwrap();
    let before = fs::read(&path).unwrap();
    let slow = {
        let path = path.clone();
        std::thread::spawn(move || files::commit(&path, &site(None, "too late")))
    };
    // as soon as it is there
    while !files::clear_stale(&path, Duration::ZERO).unwrap() {
        assert!(!slow.is_finished(), "20 MB were committed before anybody could look");
    }
    place.file(".night.fstf.new", b"the next member's");
    assert!(matches!(slow.join().unwrap(), Err(Error::Busy { .. })));
    assert_eq!(fs::read(place.0.join(".night.fstf.new")).unwrap(), b"the next member's");
    assert!(fs::read(&path).unwrap() == before);
}

#[test]
fn a_file_of_many_blocks_is_kept_byte_for_byte() {
    let place = Place::new("blocks");
    let path = place.0.join("night.fstf");
    let mut recorder = files::record(&path, &[("IMAGE", b"")], &[]).unwrap();
    for number in 0..40_i64 {
        let pixels: Vec<u8> = (0..200_000).map(|k| (k * 31 + number * 7) as u8).collect();
        recorder.add(number, 0, &[&pixels]).unwrap();
    }
    let cut = fs::read(&path).unwrap();
    recorder.close_on_disk().unwrap();
    let whole = fs::read(&path).unwrap();
    files::commit(&path, &site(None, "Kuusamo")).unwrap();
    let tagged = fs::read(&path).unwrap();
    assert!(tagged == suljanko::commit(&whole, &site(None, "Kuusamo")).unwrap().to_vec());
    let path = place.file("cut.fstf", &cut);
    assert_eq!(files::repair(&path).unwrap().frames, 40);
    assert!(fs::read(&path).unwrap() == whole);
}
