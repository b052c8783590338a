//! What `include/fstf.h` says beside its declarations: places, limits, rooms, names, its version; and the file for pkg-config.

const HEADER: &str = include_str!("../../include/fstf.h");

/// The number of a constant of the header.
fn constant(name: &str) -> u64 {
    let line = HEADER.lines().find(|line| line.trim_start().starts_with(&format!("{name} ="))).expect(name);
    let number = line.split('=').nth(1).unwrap().trim();
    number.split(|c: char| !c.is_ascii_digit()).next().unwrap().parse().expect(name)
}

fn defined(name: &str) -> &'static str {
    HEADER.lines().find_map(|line| line.strip_prefix(&format!("#define {name} "))).expect(name)
}

#[test]
fn places_and_limits_are_those_of_the_definitions() {
    let definitions = include_str!("../../crates/layout/specs/Recording.antt");
    let pairs = [
        ("FSTF_COUNT_PLACE", "count_place"),
        ("FSTF_INDEX_PLACE", "index_place"),
        ("FSTF_SYSTEM_PLACE", "system_place"),
        ("FSTF_USER_PLACE", "user_place"),
        ("FSTF_HEADER_LENGTH", "header_length"),
        ("FSTF_MOST_SECTIONS", "most_sections"),
        ("FSTF_LONGEST_CONFIGURATION", "longest_configuration"),
        ("FSTF_LONGEST_SECTION", "longest_section"),
        ("FSTF_MOST_FRAMES", "most_frames"),
        ("FSTF_MOST_TAGS", "most_tags"),
        ("FSTF_LARGEST_TABLE", "largest_table"),
    ];
    for (name, definition) in pairs {
        assert!(definitions.contains(&format!("\n{definition} = {}\n", constant(name))), "{name}");
    }
    let saving = include_str!("../../crates/layout/specs/Saving.antt");
    assert!(saving.contains(&format!("\nmost_changes = {}\n", constant("FSTF_MOST_CHANGES"))));
    assert!(definitions.contains("\nlongest_span = 4294967295\n"));
    assert!(defined("FSTF_LONGEST_SPAN").starts_with("UINT64_C(4294967295) "));
    assert!(definitions.contains("\nlargest_user_offset = 2 ^ 40 - largest_table\n"));
    assert!(defined("FSTF_LARGEST_FILE").starts_with("(UINT64_C(1) << 40) "));
    assert_eq!((constant("FSTF_LONGEST_NAME"), constant("FSTF_LONGEST_VALUE")), (255, 255));
    // a count; for each change a name, and twice a kind and a value, each string behind its length
    let change = 1 + constant("FSTF_LONGEST_NAME") + 2 * (1 + 1 + constant("FSTF_LONGEST_VALUE"));
    let sheet = 1 + constant("FSTF_MOST_CHANGES") * change;
    assert_eq!((sheet, suljanko::LARGEST_SHEET as u64), (49_281, sheet));
    assert!(defined("FSTF_LARGEST_SHEET").starts_with(&format!("UINT64_C({sheet}) ")));
    assert_eq!(constant("FSTF_CLOSING_PIECES"), suljanko::CLOSING_PIECES as u64);
}

// a change of which nobody looked gets a length byte and a value
#[test]
fn a_converted_sheet_has_room() {
    let more = constant("FSTF_MOST_CHANGES") * (1 + constant("FSTF_LONGEST_VALUE"));
    let room = format!("(UINT64_C(0) + (sheet_length) + UINT64_C({more}))");
    assert_eq!(defined("FSTF_CONVERT_ROOM(sheet_length)"), room);
    for (length, enough) in [(0, 16_384), (1, 16_385), (32_896, 49_280), (32_897, 49_281)] {
        assert_eq!((suljanko::convert_room(length), length as u64 + more), (enough, enough as u64));
    }
    // no sheet is longer, and a longer one than that is refused
    for length in [32_898, 49_281, 1 << 40, usize::MAX] {
        assert_eq!(suljanko::convert_room(length), suljanko::LARGEST_SHEET);
    }
}

#[test]
fn each_refusal_has_its_name() {
    let mut names = 0;
    for line in HEADER.lines().filter(|line| line.trim_start().starts_with("FSTF_") && line.contains("/* ")) {
        let (constant, comment) = line.trim().split_once(" = ").unwrap();
        let name = comment.split_once("/* ").unwrap().1.split(": ").next().unwrap();
        if HEADER.contains(&format!("    case {constant}: return \"{name}\";\n")) {
            names += 1;
        }
    }
    // 1 to 17; 0 is no refusal, and is named too
    assert_eq!(names, 17);
    assert_eq!(HEADER.matches("    case FSTF_").count(), 18);
    assert!(HEADER.contains("    case FSTF_TAKEN: return \"taken\";\n"));
}

#[test]
fn one_version_for_all() {
    let cargo = include_str!("../Cargo.toml");
    let version = cargo.lines().find_map(|line| line.strip_prefix("version = ")).unwrap().trim_matches('"');
    assert_eq!(defined("FSTF_VERSION"), format!("\"{version}\""));
    let parts = ["MAJOR", "MINOR", "PATCH"].map(|part| defined(&format!("FSTF_VERSION_{part}")));
    assert_eq!(parts.join("."), version);
    let package = include_str!("../../pkgconfig/fstf.pc");
    assert!(package.lines().any(|line| line == format!("Version: {version}")));
}
