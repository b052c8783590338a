//! Lists a recording of any length: list FILE. Ends with 0 for a listing, with 1 where the file is refused, with 2 where it cannot be read.
//! Of a refused file it prints the number, and says beside it where the fault is and what stands there.
use std::process::ExitCode;

use suljanko::{Recording, Refusal};

fn list(file: &[u8]) -> Result<(), Refusal> {
    let recording = Recording::open(file)?;
    println!("frames {} sections {}", recording.frame_count(), recording.section_count());
    for frame in recording.frames() {
        let (number, place, length) = (frame.number(), frame.place(), frame.length());
        println!("{number} at {place} length {length} time {} exposure {}", frame.time(), frame.exposure());
    }
    Ok(())
}

fn main() -> ExitCode {
    let path = std::env::args_os().nth(1).unwrap_or_default();
    let file = match std::fs::read(&path) {
        Ok(file) => file,
        Err(error) => {
            eprintln!("{}: {error}", path.to_string_lossy());
            return ExitCode::from(2);
        }
    };
    match list(&file) {
        Ok(()) => ExitCode::SUCCESS,
        Err(refusal) => {
            println!("refused {}", refusal.number());
            eprintln!("{}: {refusal}", path.to_string_lossy());
            if let Some(spot) = refusal.spot(&file) {
                eprintln!("there: {spot}");
            }
            ExitCode::FAILURE
        }
    }
}
