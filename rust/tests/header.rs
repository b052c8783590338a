//! The declarations of `src/raw.rs` are those of `include/fstf.h`: the same structs, members, calls and kinds, in the same order.

const HEADER: &str = include_str!("../../include/fstf.h");
const RAW: &str = include_str!("../src/raw.rs");

/// A struct or a call: its name, and each member or argument with its type; of a call, last what it answers.
type Shape = (String, Vec<(String, String)>);

/// C without its comments, Rust without its own, each in one line.
fn plain(source: &str) -> String {
    let mut text = String::new();
    let mut rest = source;
    while let Some((ahead, behind)) = rest.split_once("/*") {
        text.push_str(ahead);
        rest = behind.split_once("*/").map_or("", |(_, behind)| behind);
    }
    text.push_str(rest);
    let lines: Vec<&str> = text.lines().map(|line| line.split("//").next().unwrap_or_default()).collect();
    lines.join(" ").split_whitespace().collect::<Vec<_>>().join(" ")
}

/// What stands between two texts, each time.
fn between<'a>(text: &'a str, open: &'a str, close: &'a str) -> Vec<&'a str> {
    text.split(open).skip(1).filter_map(|part| part.split_once(close).map(|(inside, _)| inside)).collect()
}

/// `const uint8_t *file` as Rust writes it: the name and the type.
fn from_c(declaration: &str) -> (String, String) {
    let (kind, name) = declaration.trim().rsplit_once(' ').unwrap();
    let kind = match (kind, name.starts_with('*')) {
        ("const uint8_t", true) => "*const u8",
        ("uint8_t", true) => "*mut u8",
        ("size_t", false) => "usize",
        ("uint64_t", false) => "u64",
        ("int64_t", false) => "i64",
        ("uint32_t", false) => "u32",
        (other, _) => other,
    };
    (name.trim_start_matches('*').to_string(), kind.to_string())
}

fn from_rust(declaration: &str) -> (String, String) {
    let (name, kind) = declaration.trim().trim_start_matches("pub ").split_once(": ").unwrap();
    (name.to_string(), kind.to_string())
}

fn each(list: &str, separator: char, read: fn(&str) -> (String, String)) -> Vec<(String, String)> {
    let parts = list.split(separator).map(str::trim);
    parts.filter(|part| !part.is_empty() && *part != "void").map(read).collect()
}

#[test]
fn structs() {
    let header = plain(HEADER);
    let in_header: Vec<Shape> = header
        .split("typedef struct {")
        .skip(1)
        .map(|part| {
            let (members, behind) = part.split_once('}').unwrap();
            let name = behind.split_once(';').unwrap().0.trim();
            (name.to_string(), each(members, ';', from_c))
        })
        .collect();
    let raw = plain(RAW);
    let in_raw: Vec<Shape> = between(&raw, "pub struct ", "}")
        .into_iter()
        .map(|part| {
            let (name, members) = part.split_once(" {").unwrap();
            (name.to_string(), each(members, ',', from_rust))
        })
        .collect();
    assert_eq!(in_header.len(), 11);
    assert_eq!(in_raw, in_header);
    // every answer has one head; the recorder's state is no answer
    for (name, members) in &in_header {
        let ahead: Vec<&str> = members.iter().take(2).map(|member| member.0.as_str()).collect();
        assert_eq!(ahead == ["refused", "place"], name != "FstfRecorder", "{name}");
    }
}

#[test]
fn calls() {
    let header = plain(HEADER);
    let in_header: Vec<Shape> = header
        .split(';')
        .filter_map(|part| {
            let (front, arguments) = part.split_once('(')?;
            // what the header itself defines is no call of the library
            if front.contains("static inline") {
                return None;
            }
            let (answer, name) = front.rsplit_once(' ')?;
            let answer = answer.rsplit(' ').next()?.to_string();
            let mut shape = each(arguments.trim_end_matches(')'), ',', from_c);
            shape.push((String::new(), answer));
            name.starts_with("fstf_").then(|| (name.to_string(), shape))
        })
        .collect();
    let raw = plain(RAW);
    let in_raw: Vec<Shape> = between(&raw, "pub fn ", ";")
        .into_iter()
        .map(|part| {
            let (name, behind) = part.split_once('(').unwrap();
            let (arguments, answer) = behind.split_once(") -> ").unwrap();
            let mut shape = each(arguments, ',', from_rust);
            shape.push((String::new(), answer.to_string()));
            (name.to_string(), shape)
        })
        .collect();
    assert_eq!(in_header.len(), 17);
    assert_eq!(in_raw, in_header);
}

#[test]
fn kinds() {
    let raw = plain(RAW);
    let kinds: Vec<String> =
        between(&raw, "pub const ", ";").into_iter().map(|kind| kind.replace(": u64", "")).collect();
    assert_eq!(kinds.len(), 7);
    assert!(plain(HEADER).contains(&format!("enum {{ {} }};", kinds.join(", "))));
}
