//! The README's example is the one that is compiled and run, and its refusals are those of the crate.

use suljanko::Refusal;

#[test]
fn the_example_is_that_of_the_readme() {
    let program = include_str!("../examples/list.rs");
    let start = program.find("use suljanko").unwrap();
    let end = program.find("\n\nfn main").unwrap();
    let shown: Vec<String> = program[start..end]
        .lines()
        .map(|line| if line.is_empty() { String::new() } else { format!("    {line}") })
        .collect();
    assert!(include_str!("../../README.md").contains(&shown.join("\n")));
}

#[test]
fn each_refusal_has_its_row() {
    let readme = include_str!("../../README.md");
    for number in 1..=17 {
        let refusal = Refusal::of(number, 0).unwrap();
        let row = format!("\n| {number} | {} | {} |\n", refusal.name(), refusal.advice());
        assert!(readme.contains(&row), "{row}");
    }
    assert_eq!(Refusal::of(18, 0).unwrap().name(), "unknown");
}
