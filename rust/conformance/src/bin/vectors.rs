//! Runs a vectors file against the reference or the library.
//!
//! Usage: `vectors reference FILE` or `vectors library FILE [--listing PROGRAM]`. Each line of the
//! file that differs or cannot be run is named, with the reason. The last line is `N agree, M
//! differ, K passed over`. The exit status is 0 where all that was compared agrees, 1 where M is not
//! 0, 2 where nothing was compared or for bad usage, and 3 where the file cannot be read.

use std::path::PathBuf;
use std::process::ExitCode;

use conformance::{vectors, Library, Reference, Subject};

/// How much of a difference is shown.
const SHOWN: usize = 300;

const DIFFERS: u8 = 1;
const NOTHING: u8 = 2;
const UNREAD: u8 = 3;

fn main() -> ExitCode {
    let arguments: Vec<String> = std::env::args().skip(1).collect();
    let arguments: Vec<&str> = arguments.iter().map(String::as_str).collect();
    let (mut subject, file): (Box<dyn Subject>, &str) = match arguments.as_slice() {
        ["reference", file] => (Box::new(Reference), file),
        ["library", ..] if !guard::LINKED => {
            return stop(NOTHING, "built without the library: run `tools/library` and build again")
        }
        ["library", file] => (Box::new(Library::new(None)), file),
        ["library", file, "--listing", program] => {
            (Box::new(Library::new(Some(PathBuf::from(program)))), file)
        }
        _ => return stop(NOTHING, "usage: vectors reference|library FILE [--listing PROGRAM]"),
    };
    let text = match std::fs::read_to_string(file) {
        Ok(text) => text,
        Err(error) => return stop(UNREAD, &format!("{file}: {error}")),
    };
    let tally = vectors::run(&text, subject.as_mut(), &mut |line, how| {
        let how: String = how.chars().take(SHOWN).collect();
        println!("{file}:{line}: {how}");
    });
    println!("{tally}");
    match (tally.agree, tally.differ) {
        (0, 0) => stop(NOTHING, &format!("{file}: nothing was compared")),
        (_, 0) => ExitCode::SUCCESS,
        _ => ExitCode::from(DIFFERS),
    }
}

fn stop(status: u8, reason: &str) -> ExitCode {
    eprintln!("vectors: {reason}");
    ExitCode::from(status)
}
