//! `guard make`: a table's bytes.

use super::Command;
use crate::arguments::{Arguments, OUT, SUPERVISOR};
use crate::bench::{Bench, Outcome, Stop};
use crate::source::Source;
use crate::{making, output};

pub const COMMAND: Command = Command {
    name: "make",
    usage: "FILE -o OUT [--supervisor]",
    about: "the bytes of the guard table, or of the supervisor's",
    help: "\
Writes the table that a board loads to OUT, which appears whole or not at all; with --supervisor the
supervisor table.
",
    files: 1,
    options: &[OUT, SUPERVISOR],
    run,
};

fn run(arguments: &Arguments, bench: &mut Bench) -> Outcome {
    let out = arguments.value(&OUT);
    if out.is_none() {
        return Err(Stop::Use("-o OUT is missing".into()));
    }
    output::keep_apart(arguments.file(0), out)?;
    let source = Source::read(arguments.file(0), bench)?;
    let table = match arguments.has(&SUPERVISOR) {
        true => making::supervisor(&source, bench)?.as_bytes().to_vec(),
        false => making::guard_of_sheet(&source, bench)?.as_bytes().to_vec(),
    };
    output::write(out, &table, bench)
}
