//! Converts the old sheets of a queue: queue RECORDING, with the names of the sheets on its standard input, one a line.
//!
//! Each sheet is one that was prepared against RECORDING, and may say of a tag that nobody looked. The new sheet, in which that is filled in from
//! RECORDING, is stored beside the old one as NAME.converted, whole or not at all; a file that has this name already is left as it is. RECORDING and the
//! old sheets are only read. Then commit the new sheets to the recording as it is by now: what other members have changed since is told as a conflict.
//!
//! Each name is answered by one line: that it was converted and how many changes were filled in, or what is wrong, with the refusal's number, name and
//! place, what stands there, and what to do. An empty line names no sheet, and has no answer. A name is all that stands on its line, spaces too.
//! Ends with 0 where all were converted, with 1 where one was not, and with 2 where it was called in another way or a line cannot be read or written.
use std::ffi::OsStr;
use std::fs::File;
use std::io::{self, BufRead, Read, Write};
use std::os::unix::ffi::OsStrExt;
use std::path::{Path, PathBuf};
use std::process::ExitCode;

use suljanko::{files, Converted, Error, Lent, LARGEST_SHEET};

fn main() -> ExitCode {
    let mut arguments = std::env::args_os().skip(1);
    let recording = match (arguments.next(), arguments.next()) {
        (Some(recording), None) => recording,
        _ => {
            eprintln!("usage: queue RECORDING, with the names of old sheets on standard input, one a line");
            return ExitCode::from(2);
        }
    };
    match run(Path::new(&recording), io::stdin().lock(), io::stdout().lock()) {
        Ok(true) => ExitCode::SUCCESS,
        Ok(false) => ExitCode::FAILURE,
        Err(error) => {
            eprintln!("queue: {error}");
            ExitCode::from(2)
        }
    }
}

/// Answers each name by a line, as soon as it is done. Whether all sheets were converted.
pub fn run(recording: &Path, names: impl BufRead, mut answers: impl Write) -> io::Result<bool> {
    let mut all = true;
    for name in names.split(b'\n') {
        let name = name?;
        if name.is_empty() {
            continue;
        }
        let old = Path::new(OsStr::from_bytes(&name));
        let done = files::convert(recording, old, beside(old));
        all &= done.is_ok();
        writeln!(answers, "{}: {}", old.display(), answer(recording, old, done))?;
        answers.flush()?;
    }
    Ok(all)
}

fn beside(old: &Path) -> PathBuf {
    let mut new = old.as_os_str().to_os_string();
    new.push(".converted");
    PathBuf::from(new)
}

fn answer(recording: &Path, old: &Path, done: Result<Converted, Error>) -> String {
    match done {
        Ok(converted) => format!("converted, {converted}"),
        Err(error) => format!("not converted, {error}{}", there(recording, old, &error)),
    }
}

/// What stands at the place of a refusal, in the recording or in the sheet.
fn there(recording: &Path, old: &Path, error: &Error) -> String {
    let said = || {
        let refusal = error.refusal()?;
        let (path, most) = match refusal.position()?.lent {
            Lent::File => (recording, u64::MAX),
            // a longer file is no sheet, and its first fault is not further behind
            _ => (old, LARGEST_SHEET as u64 + 1),
        };
        let mut bytes = Vec::new();
        File::open(path).ok()?.take(most).read_to_end(&mut bytes).ok()?;
        Some(format!(" There: {}.", refusal.spot(&bytes)?))
    };
    said().unwrap_or_default()
}
