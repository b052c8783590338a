//! Damaged files through everything: nothing panics, what opens reads to its end, what is repaired opens.

mod common;

use common::{recorded, tagged};
use suljanko::{commit, convert, look, repair, Reason, Recording, Sheet};

/// An old sheet: nobody looked, and T1 is to be `new`.
const OLD: &[u8] = b"\x01\x02T1\x02\x01\x03new";

/// A small generator (xorshift), so that the run is the same each time.
struct Random(u64);

impl Random {
    fn below(&mut self, limit: usize) -> usize {
        self.0 ^= self.0 << 13;
        self.0 ^= self.0 >> 7;
        self.0 ^= self.0 << 17;
        (self.0 % limit as u64) as usize
    }
}

fn samples() -> Vec<Vec<u8>> {
    let frames: Vec<(i64, u32, Vec<&[u8]>)> = vec![
        (0, 1, vec![b"pixels", b""]),
        (0, 2, vec![b"", b"\xFF\x22\x01\xEE"]),
        (900, 3, vec![b"more pixels", b"x"]),
    ];
    let evening = recorded(&[("A", b"a"), ("B", b"")], &[("CAMERA", "one"), ("EMPTY", "")], &frames);
    vec![recorded(&[("IMAGE", b"")], &[], &[]), tagged(5), evening]
}

/// Some bytes set, and the end cut off or added to.
fn damage(file: &[u8], random: &mut Random) -> Vec<u8> {
    let mut file = file.to_vec();
    for _ in 0..random.below(3) {
        let place = random.below(file.len());
        file[place] = [0, 1, 0xFF, random.below(256) as u8][random.below(4)];
    }
    match random.below(3) {
        0 => file.truncate(random.below(file.len() + 1)),
        1 => file.extend_from_slice(&[0; 5][..random.below(6)]),
        _ => {}
    }
    file
}

fn read_all(recording: Recording<'_>) {
    assert_eq!(recording.frames().count(), recording.frame_count());
    for frame in recording.frames() {
        assert_eq!(frame.sections().count(), recording.section_count());
    }
    assert_eq!(recording.sections().count(), recording.section_count());
    assert_eq!(recording.system_tags().count() as u64, recording.opened().system_tags);
    assert_eq!(recording.user_tags().count() as u64, recording.opened().user_tags);
}

#[test]
fn any_bytes_are_answered() {
    let samples = samples();
    let mut random = Random(0x5eed_0001);
    let (mut opened, mut repaired) = (0, 0);
    for number in 0..30_000 {
        let file = damage(&samples[number % 3], &mut random);
        match Recording::open(&file) {
            Ok(recording) => {
                opened += 1;
                read_all(recording);
                assert_eq!(repair(&file).unwrap_err().reason(), Reason::Whole);
                let mut sheet = Sheet::new();
                sheet.change("T1").seen(recording.user_tag("T1")).set("new");
                assert_eq!(convert(&file, OLD).unwrap().bytes(), sheet.to_vec());
                assert!(look(&file, &sheet).unwrap().all_agree());
                let tagged = commit(&file, &sheet).unwrap().to_vec();
                assert_eq!(Recording::open(&tagged).unwrap().user_tag("T1"), Some("new"));
            }
            Err(refusal) => {
                assert!((1..=7).contains(&refusal.number()));
                assert_eq!(look(&file, &Sheet::new()).unwrap_err(), refusal);
                assert_eq!(commit(&file, &Sheet::new()).unwrap_err(), refusal);
                assert_eq!(convert(&file, OLD).unwrap_err(), refusal);
                if let Ok(repair) = repair(&file) {
                    repaired += 1;
                    let file = repair.to_vec();
                    let recording = Recording::open(&file).unwrap();
                    assert_eq!(recording.frame_count(), repair.frame_count());
                    read_all(recording);
                }
            }
        }
    }
    assert!(opened > 1000 && repaired > 1000, "{opened} opened, {repaired} repaired");
}
