//! Sections by their names, frames by their times, and recordings that own their bytes.

mod common;

use common::{recorded, WHOLE};
use suljanko::{OwnedRecording, Recording};

fn with_times(times: &[i64]) -> Vec<u8> {
    let frames: Vec<(i64, u32, Vec<&[u8]>)> = times.iter().map(|time| (*time, 0, vec![&b"x"[..], b"y"])).collect();
    recorded(&[("IMAGE", b""), ("STATUS", b"")], &[], &frames)
}

#[test]
fn sections_by_their_names() {
    let file = recorded(&[("IMAGE", b"64x48"), ("image", b""), ("S2", b"t")], &[], &[(0, 0, vec![b"p", b"q", b"r"])]);
    let recording = Recording::open(&file).unwrap();
    let frame = recording.frame(0).unwrap();
    assert_eq!((frame.section_named("IMAGE"), frame.section_named("image")), (Some(&b"p"[..]), Some(&b"q"[..])));
    assert_eq!((frame.section_named("S2"), recording.section_number("S2")), (Some(&b"r"[..]), Some(2)));
    assert_eq!(recording.section_named("IMAGE").map(|section| section.configuration), Some(&b"64x48"[..]));
    for name in ["", "Image", "IMAGE2", "S", "ä"] {
        assert_eq!((frame.section_named(name), recording.section_number(name)), (None, None));
        assert_eq!(recording.section_named(name), None);
    }
}

// Against a search from the front, for each time around each frame's.
fn all_times_of(times: &[i64]) {
    let file = with_times(times);
    let recording = Recording::open(&file).unwrap();
    let around = times.iter().flat_map(|time| [time.saturating_sub(1), *time, time.saturating_add(1)]);
    for time in around.chain([i64::MIN, -1, 0, 1, i64::MAX]) {
        let at = times.iter().rposition(|taken| *taken <= time);
        assert_eq!(recording.frame_at(time).map(|frame| frame.number()), at, "{time} in {times:?}");
        let from: Vec<_> = (0..times.len()).filter(|number| times[*number] >= time).collect();
        let found: Vec<_> = recording.frames_from(time).map(|frame| frame.number()).collect();
        assert_eq!(found, from, "{time} in {times:?}");
    }
}

#[test]
fn frames_by_their_times() {
    all_times_of(&[]);
    all_times_of(&[1000]);
    all_times_of(&[7, 7]);
    all_times_of(&[-5, -5, 0, 3, 3, 3, 90]);
    all_times_of(&[i64::MIN, i64::MIN, i64::MIN + 4_294_967_295]);
    all_times_of(&[i64::MAX - 4_294_967_295, i64::MAX, i64::MAX]);
    for count in 2..40 {
        all_times_of(&(0..count).map(|number| number * number / 3).collect::<Vec<_>>());
    }
}

#[test]
fn an_owned_recording_goes_where_its_bytes_go() {
    let owned = {
        let file = WHOLE.to_vec();
        OwnedRecording::open(file).unwrap()
    };
    let threads: Vec<_> = (0..2)
        .map(|_| {
            let owned = owned.clone();
            std::thread::spawn(move || owned.recording().frame(0).unwrap().time())
        })
        .collect();
    for thread in threads {
        assert_eq!(thread.join().unwrap(), 1000);
    }
    assert_eq!(owned.recording().opened(), Recording::open(&WHOLE).unwrap().opened());
    assert_eq!(owned.into_file(), WHOLE);
    assert_eq!(OwnedRecording::open(WHOLE[..97].to_vec()).unwrap_err().number(), 7);
}
