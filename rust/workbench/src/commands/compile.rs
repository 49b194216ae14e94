//! `guard compile`: a sheet's bytes.

use super::Command;
use crate::arguments::{Arguments, OUT};
use crate::bench::{Bench, Outcome};
use crate::source::{Source, Taken};
use crate::{making, output};

pub const COMMAND: Command = Command {
    name: "compile",
    usage: "FILE [-o OUT]",
    about: "the bytes of a text sheet",
    help: "\
Writes the sheet's bytes to standard output, or to OUT, which appears whole or not at all. Every error
of the text is told, with file, line, column, the line itself and what was expected. Hexadecimal text
and bytes are taken too, if they are a sheet's in bounds.
",
    files: 1,
    options: &[OUT],
    run,
};

fn run(arguments: &Arguments, bench: &mut Bench) -> Outcome {
    let out = arguments.value(&OUT);
    output::keep_apart(arguments.file(0), out)?;
    let source = Source::read(arguments.file(0), bench)?;
    if source.taken != Taken::TextSheet {
        making::in_bounds(&source, bench)?;
    }
    output::write(out, &source.bytes, bench)
}
