//! The command line; tools/guard builds and runs it.

use std::ffi::OsString;
use std::io::{self, BufReader, BufWriter, IsTerminal};
use std::process::ExitCode;

use workbench::bench::{Bench, Stop};
use workbench::commands;

fn main() -> ExitCode {
    let words: Vec<OsString> = std::env::args_os().skip(1).collect();
    let terminal = io::stdin().is_terminal() && io::stdout().is_terminal();
    let mut bench = Bench {
        input: &mut BufReader::new(io::stdin().lock()),
        out: &mut BufWriter::new(io::stdout().lock()),
        err: &mut io::stderr(),
        terminal,
    };
    let done = commands::dispatch(&words, &mut bench);
    // An answer that could not be written is none, whatever it was.
    let done = bench.out.flush().map_err(Stop::from).and(done);
    let Err(stop) = done else { return ExitCode::SUCCESS };
    match &stop {
        Stop::Use(what) | Stop::File(what) => bench.say(what),
        Stop::Refused | Stop::Differs | Stop::Unheard => {}
    }
    ExitCode::from(stop.status())
}
