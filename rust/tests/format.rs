//! docs/FORMAT.md, where a machine can hold it to something: its worked file, its definitions, its refusals and orders.

mod common;

use common::WHOLE;
use suljanko::{calls, commit, convert, convert_room, repair, Recorder, Recording, Refusal, Sheet, LARGEST_SHEET};

const FORMAT: &str = include_str!("../../docs/FORMAT.md");
const WORKED: &[u8] = include_bytes!("../../examples/worked.fstf");
const HEADER: &str = include_str!("../../include/fstf.h");

/// The cells of the table rows that stand under a heading.
fn rows(heading: &str) -> Vec<Vec<&'static str>> {
    let part = FORMAT.split(&format!("\n## {heading}\n")).nth(1).unwrap().split("\n## ").next().unwrap();
    let lines = part.lines().filter(|line| line.starts_with("| ") && !line.starts_with("| At"));
    lines.map(|line| line.trim_matches('|').split(" | ").map(str::trim).collect()).collect()
}

fn hex(text: &str) -> Vec<u8> {
    text.trim_matches('`').split(' ').map(|byte| u8::from_str_radix(byte, 16).unwrap()).collect()
}

#[test]
fn the_worked_file() {
    assert_eq!(WORKED, WHOLE);
    assert_eq!(WORKED, include_bytes!("../../crates/listing/stdin"));
    let mut bytes = Vec::new();
    for row in rows("The worked file") {
        assert_eq!(row[0].parse::<usize>().unwrap(), bytes.len());
        bytes.extend(hex(row[1]));
    }
    assert_eq!(bytes, WORKED);
}

#[test]
fn each_definition_that_it_names_is_there() {
    let specs = [
        ("Recording", include_str!("../../crates/layout/specs/Recording.antt")),
        ("Reading", include_str!("../../crates/layout/specs/Reading.antt")),
        ("Opening", include_str!("../../crates/layout/specs/Opening.antt")),
        ("Items", include_str!("../../crates/layout/specs/Items.antt")),
        ("Browser", include_str!("../../crates/layout/specs/Browser.antt")),
        ("Recorder", include_str!("../../crates/layout/specs/Recorder.antt")),
        ("Repair", include_str!("../../crates/layout/specs/Repair.antt")),
        ("Saving", include_str!("../../crates/layout/specs/Saving.antt")),
        ("OldSheets", include_str!("../../crates/layout/specs/OldSheets.antt")),
        ("Storage", include_str!("../../crates/layout/specs/Storage.antt")),
    ];
    let mut named = 0;
    for quoted in FORMAT.split('`').skip(1).step_by(2) {
        let (file, definition) = quoted.split_once('.').unwrap_or_default();
        for (_, spec) in specs.iter().filter(|(name, _)| *name == file) {
            let stands = ["", "data ", "record "].map(|kind| format!("pub {kind}{definition} "));
            assert!(stands.iter().any(|start| spec.contains(start)), "{quoted}");
            named += 1;
        }
    }
    assert!(named > 80, "{named} definitions");
}

#[test]
fn each_refusal_has_its_row() {
    let rows: Vec<_> = rows("Refusals").into_iter().filter(|row| row[0].parse::<u64>().is_ok()).collect();
    assert_eq!(rows.len(), 17);
    for (row, number) in rows.iter().zip(1..) {
        assert_eq!(row[0], number.to_string());
        let comma = if number < 17 { "," } else { "" };
        assert!(HEADER.contains(&format!("= {number}{comma} /* {}: ", row[1])), "{}", row[1]);
    }
}

#[test]
fn the_twelve_examples() {
    let rows = rows("Twelve examples");
    let numbers: Vec<_> = (1..=12).map(|number| format!("P{number}")).collect();
    assert!(rows.iter().skip(1).map(|row| row[0]).eq(numbers.iter().map(String::as_str)));
    let answer = |number: usize| rows[number][2];
    let set = |place: usize, byte: u8| {
        let mut file = WORKED.to_vec();
        file[place] = byte;
        Recording::open(&file).unwrap_err().number().to_string()
    };
    let cut = |length: usize| Recording::open(&WORKED[..length]).unwrap_err().number().to_string();
    assert_eq!(answer(2), cut(97));
    assert_eq!(answer(3), set(4, 2));
    assert_eq!(answer(4), set(9, 0));
    assert_eq!(answer(5), set(9, 75));
    assert_eq!(answer(6), set(5, 2));
    assert_eq!(answer(7), cut(33));
    let open = common::before_closing();
    let repaired = repair(&open[..73]).unwrap();
    assert_eq!((repaired.kept(), repaired.index(), repaired.user()), (52, 52, 56));
    assert_eq!(repaired.tail(), [0; 8]);
    assert!(answer(8).starts_with("52 bytes are kept; the index offset is 52, the user offset 56;"));
    assert_eq!((answer(9), repair(&open).unwrap().to_vec()), ("the worked file", WORKED.to_vec()));
    assert_eq!(answer(10), repair(&open[..51]).unwrap_err().number().to_string());
    let sheet = Sheet::from_bytes(&hex(rows[11][1].split('`').nth(1).unwrap())).unwrap();
    let committed = commit(WORKED, &sheet).unwrap();
    assert_eq!(committed.table(), hex(answer(11).split('`').nth(1).unwrap()));
    let again = commit(&committed.to_vec(), &sheet).unwrap_err();
    assert_eq!((answer(12), again.number()), ("11, place 0", 11));
}

/// The page in one line.
fn plain() -> String {
    FORMAT.split_whitespace().collect::<Vec<_>>().join(" ")
}

#[test]
fn the_old_sheet_that_it_names() {
    let part = FORMAT.split("\n## Old sheets\n").nth(1).unwrap().split("\n## ").next().unwrap();
    let quoted = part.split('`').skip(1).step_by(2).filter(|quoted| quoted.starts_with("01 04 "));
    let sheets: Vec<_> = quoted.map(hex).collect();
    assert_eq!(sheets.len(), 3);
    let against_worked = convert(WORKED, &sheets[0]).unwrap();
    assert_eq!(against_worked.bytes(), sheets[1]);
    assert_eq!(sheets[1], hex(rows("Twelve examples")[11][1].split('`').nth(1).unwrap()));
    let file = commit(WORKED, against_worked.sheet()).unwrap().to_vec();
    assert_eq!(convert(&file, &sheets[0]).unwrap().bytes(), sheets[2]);
    assert_eq!((LARGEST_SHEET, convert_room(0)), (49_281, 16_384));
    assert!(plain().contains("So a sheet has at most 49,281 bytes: "));
    assert!(plain().contains("at most 16,384 bytes more than the old one, and as any sheet at most 49,281."));
}

#[test]
fn the_positions_that_it_names() {
    let plain = plain();
    let says = |text: &str, refusal: Option<Refusal>, number: u64, place: u64| {
        assert!(plain.contains(text), "{text}");
        assert_eq!(
            refusal.and_then(|refusal| Some((refusal.number(), refusal.place()?))),
            Some((number, place)),
            "{text}"
        );
    };
    let sheet = |bytes: &str| Sheet::from_bytes(&hex(bytes)).err();
    let list = |bytes: &str| Recorder::new().begin_in_file_form(&hex(bytes), &[0; 4]).err();
    let opened = |file: &[u8]| Recording::open(file).err();
    says(
        "The sheet `01 05 41 07` says that a name of five letters follows; the second one, at 3,",
        sheet("01 05 41 07"),
        10,
        3,
    );
    let nobody_looked = "01 04 53 49 54 45 02 01 01 41";
    says(
        &format!("`{nobody_looked}` says by its kind 2 that nobody looked, and is refused 10 at 6;"),
        sheet(nobody_looked),
        10,
        6,
    );
    says("cut after 51 bytes has three bytes of the system table's count: 4 at 48.", opened(&WORKED[..51]), 4, 48);
    says("Cut after 97 it has three of the user table's: 7 at 94.", opened(&WORKED[..97]), 7, 94);
    let cut = "01 05 49 4D 41 47 45 05 00 61 62 63";
    says(&format!("`{cut}` is refused 10 at 9."), list(cut), 10, 9);
    let table = "02 00 00 00 01 41 00 01 41 01 07";
    says(&format!("the table `{table}`"), calls::first_tag(&hex(table)).refusal(), 7, 7);
    says("`01 05 2D 41` is refused 10 at 4,", list("01 05 2D 41"), 10, 4);
    let mut far = WORKED.to_vec();
    far[17..25].copy_from_slice(&1048_u64.to_le_bytes());
    says("with 1,048 for its system offset is refused 4 at 1,048.", opened(&far), 4, 1048);
    let mut two = common::recorded(&[("IMAGE", b""), ("STATUS", b"")], &[], &[]);
    assert_eq!((two[40], two[55]), (63, 63));
    two[40] = 64;
    says("With 64 at 40 the file is refused 3 at 40;", opened(&two), 3, 40);
    two[52] = b'-';
    says("with a `-` in the second name, at 52, besides, it is refused 3 at 52.", opened(&two), 3, 52);
}
