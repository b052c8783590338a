//! The user tags that a repair does not keep: where they are looked for, and what counts.

mod common;

use common::{before_closing, recorded, tagged, WHOLE};
use suljanko::{commit, repair, Recording, Sheet};

/// A recording of three frames with two user tags.
fn evening() -> Vec<u8> {
    let frames: Vec<(i64, u32, Vec<&[u8]>)> = vec![(0, 1, vec![b"one"]), (5, 1, vec![b"two"]), (9, 1, vec![b"three"])];
    let file = recorded(&[("IMAGE", b"")], &[], &frames);
    let mut sheet = Sheet::new();
    sheet.change("SITE").seen(None).set("Inari");
    sheet.change("NOTE").seen(None).set("");
    commit(&file, &sheet).unwrap().to_vec()
}

/// How many tags a repair does not keep.
fn lost(file: &[u8]) -> usize {
    let repair = repair(file).unwrap();
    assert_eq!(Recording::open(&repair.to_vec()).unwrap().user_tags().len(), 0);
    repair.tags_not_kept().len()
}

#[test]
fn any_flipped_bit_of_the_three_fields() {
    let file = evening();
    for place in (5..17).chain(25..33) {
        for bit in 0..8 {
            let mut flipped = file.clone();
            flipped[place] ^= 1 << bit;
            // the frames and their index stand behind each other, so that the tags are found whatever the header says
            assert_eq!((repair(&flipped).unwrap().frame_count(), lost(&flipped)), (3, 2), "bit {bit} of {place}");
        }
    }
}

#[test]
fn a_broken_frame_in_the_middle() {
    let mut file = evening();
    let second = Recording::open(&file).unwrap().frame(1).unwrap().place();
    file[second] ^= 1;
    assert_eq!(Recording::open(&file).unwrap_err().number(), 6);
    // the header still points to the table
    assert_eq!((repair(&file).unwrap().frame_count(), lost(&file)), (1, 2));
    // and nothing does where that is broken too
    file[25] ^= 1;
    assert_eq!(lost(&file), 0);
}

#[test]
fn a_broken_index() {
    let mut file = evening();
    let index = Recording::open(&file).unwrap().opened().index as usize;
    file[index] ^= 1;
    assert_eq!(Recording::open(&file).unwrap_err().number(), 6);
    assert_eq!(lost(&file), 2);
    // where neither the index nor the header leads there, what looks like a table is none
    file[25] ^= 1;
    assert_eq!(lost(&file), 0);
}

#[test]
fn bytes_that_are_no_table_have_no_tags() {
    assert_eq!(lost(&before_closing()), 0);
    assert_eq!(lost(&before_closing()[..73]), 0);
    // cut off in the table, or followed by a byte
    let file = evening();
    assert_eq!(lost(&file[..file.len() - 1]), 0);
    assert_eq!(lost(&[&file[..], b"x"].concat()), 0);
    // a tag that no table may have
    let mut broken = file.clone();
    *broken.last_mut().unwrap() = 1;
    assert_eq!(lost(&broken), 0);
    // offsets to anywhere
    for offset in [0, 1, 33, 97, 98, 99, u64::MAX] {
        let mut file = WHOLE.to_vec();
        file[5] = 0;
        file[25..33].copy_from_slice(&offset.to_le_bytes());
        assert_eq!(lost(&file), 0, "{offset}");
    }
}

#[test]
fn tables_of_every_size_are_counted() {
    for tags in [0, 1, 2, 3, 499, 500, 501, 999, 1000] {
        let mut file = tagged(tags);
        file[9] ^= 1;
        let repair = repair(&file).unwrap();
        assert_eq!(repair.tags_not_kept().len(), tags);
        let names = (0..tags).map(|number| format!("T{number}"));
        assert!(repair.tags_not_kept().map(|tag| tag.name.to_string()).eq(names));
    }
}
