//! Measures the static library against the rival: one process, the same inputs, run in turns. `bench PAGE`, from the repository's root, ends with a
//! verdict (verdict.rs), by what the page explains, and exits 1 where that is a failure; `bench` alone gives none.

#[path = "../compare/build.rs"]
#[allow(dead_code)]
mod build;
#[path = "../../rust/src/calls.rs"]
#[allow(dead_code)]
mod calls;
mod clock;
mod growth;
mod inputs;
#[path = "../compare/marks.rs"]
mod marks;
mod measure;
mod opening;
#[path = "../compare/random.rs"]
#[allow(dead_code)]
mod random;
#[path = "../../rust/src/raw.rs"]
#[allow(dead_code)]
mod raw;
mod reading;
mod recording;
mod saving;
mod verdict;
mod worst;

fn main() {
    let page = std::env::args().nth(1).map(|page| std::fs::read_to_string(page).expect("no such page"));
    let mut report = verdict::Report::new(page.as_deref());
    println!("| what | library | rival | ratio |");
    println!("|---|---|---|---|");
    let beside = opening::rows_of_frames(&mut report);
    saving::rows(&mut report);
    opening::rows_of_tags(&mut report);
    opening::rows_of_faults(&mut report);
    reading::rows(&mut report);
    recording::rows(&mut report);
    opening::row_of_bare_loop(&mut report, &beside);
    worst::rows(&mut report);
    growth::rows(&mut report);
    println!();
    println!("{}", measure::steadiness());
    if let Some(reasons) = report.verdict() {
        println!();
        println!("verdict: {}", if reasons.is_empty() { "passed" } else { "FAILED" });
        for reason in &reasons {
            println!("- {}", reason);
        }
        std::process::exit(i32::from(!reasons.is_empty()));
    }
}
