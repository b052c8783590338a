//! Compares every public call of the static library with the rival, on seeded inputs: `compare [COUNT [SEED [GROUP CASE]]]`.
//!
//! Exhaustive groups run once; the others take turns, until COUNT inputs were compared. A case draws its inputs from the seed, its
//! group and its number alone, so GROUP and CASE run one again.

mod build;
#[path = "../../rust/src/calls.rs"]
#[allow(dead_code)]
mod calls;
mod faults;
mod files;
mod limits;
#[allow(dead_code)]
mod marks;
mod random;
#[path = "../../rust/src/raw.rs"]
#[allow(dead_code)]
mod raw;
mod recorder;
mod sides;
mod tags;

use random::Random;
use sides::Sides;
use std::panic::{catch_unwind, AssertUnwindSafe};
use std::process::exit;

type Case = fn(&mut Sides, &mut Random);

const ONCE: [(&str, Case); 12] = [
    ("each-byte", files::each_byte),
    ("large-sections", limits::large_sections),
    ("full-tables", limits::full_tables),
    ("largest-sheets", limits::largest_sheets),
    ("large-configurations", limits::large_configurations),
    ("many-frames", limits::many_frames),
    ("long-recordings", limits::long_recordings),
    ("faults-of-files", faults::of_files),
    ("faults-of-tables", faults::of_tables),
    ("faults-of-sheets", faults::of_sheets),
    ("faults-of-lists", faults::of_lists),
    ("faults-in-twos", faults::in_twos),
];

/// Each with how many cases it has at a turn: those of few inputs have many.
const TURNS: [(&str, Case, u64); 31] = [
    ("legal", files::legal, 4),
    ("damaged", files::damaged, 4),
    ("numbers-nudged", files::numbers_nudged, 8),
    ("rules-bent", files::rules_bent, 12),
    ("times-bent", files::times_bent, 8),
    ("random-behind", files::random_behind, 4),
    ("spliced", files::spliced, 6),
    ("gaps", files::gaps, 4),
    ("miscounted", files::miscounted, 4),
    ("cut", files::cut, 4),
    ("repaired", files::repaired, 8),
    ("each-byte-of-small", files::each_byte_of_small, 1),
    ("each-cut-of-small", files::each_cut_of_small, 1),
    ("numbers-of-no-opening", files::numbers_of_no_opening, 4),
    ("session", recorder::session, 12),
    ("each-cut-of-closing", recorder::each_cut_of_closing, 1),
    ("made-up-states", recorder::made_up_states, 16),
    ("setups", recorder::setups, 12),
    ("shapes", recorder::shapes, 12),
    ("sheets", tags::sheets, 6),
    ("conversions", tags::conversions, 6),
    ("conflicts", tags::conflicts, 2),
    ("full-sheets", tags::full_sheets, 1),
    ("table-full", tags::table_full, 1),
    ("crowded", tags::crowded, 1),
    ("browsed", tags::browsed, 10),
    ("cursors", tags::cursors, 10),
    ("several-faults", faults::several, 10),
    ("faults-of-definitions", faults::of_definitions, 4),
    ("names-twice", faults::names_twice, 8),
    ("names-twice-among-many", faults::names_twice_among_many, 1),
];

const DEFAULT_COUNT: u64 = 10_000_000;
const DEFAULT_SEED: u64 = 1;

fn run(sides: &mut Sides, name: &'static str, group: Case, case: u64) {
    sides.group = name;
    sides.case = case;
    let mut random = Random::new(sides.seed, hash(name), case);
    let ran = catch_unwind(AssertUnwindSafe(|| group(sides, &mut random)));
    if ran.is_err() {
        sides.differences += 1;
        println!("seed {} group {} case {}: the rival panicked", sides.seed, name, case);
    }
    if sides.enough() {
        finish(sides, 0);
    }
}

fn hash(name: &str) -> u64 {
    name.bytes().fold(5381, |hash, byte| hash * 33 % (1 << 50) + u64::from(byte))
}

fn finish(sides: &Sides, lacking: usize) -> ! {
    if lacking > 0 {
        println!("{} outcomes of the orders were never met, or one was met outside its order", lacking);
    }
    println!("{} inputs, {} differences", sides.inputs, sides.differences);
    exit(if sides.differences > 0 || lacking > 0 { 1 } else { 0 });
}

fn argument(at: usize, default: u64) -> u64 {
    match std::env::args().nth(at) {
        Some(text) => text.parse().expect("a number"),
        None => default,
    }
}

fn group_named(name: &str) -> Option<(&'static str, Case)> {
    let turns = TURNS.iter().map(|(name, group, _)| (*name, *group));
    ONCE.iter().copied().chain(turns).find(|group| group.0 == name)
}

fn main() {
    let count = argument(1, DEFAULT_COUNT);
    let seed = argument(2, DEFAULT_SEED);
    println!("seed {}, at least {} inputs", seed, count);
    let mut sides = Sides::new(seed);
    if let Some(name) = std::env::args().nth(3) {
        let (name, group) = group_named(&name).expect("the name of a group");
        run(&mut sides, name, group, argument(4, 0));
        finish(&sides, 0);
    }
    for (name, group) in ONCE {
        run(&mut sides, name, group, 0);
    }
    let mut turn = 0;
    while sides.inputs < count {
        for (name, group, cases) in TURNS {
            for case in 0..cases {
                run(&mut sides, name, group, turn * cases + case);
            }
        }
        turn += 1;
    }
    let lacking = sides.report();
    finish(&sides, lacking);
}
