//! `guard show`: a sheet as a text sheet.

use super::Command;
use crate::arguments::Arguments;
use crate::bench::{Bench, Outcome};
use crate::source::Source;
use crate::{making, text};

pub const COMMAND: Command = Command {
    name: "show",
    usage: "FILE",
    about: "a sheet's bytes as a text sheet",
    help: "\
Writes every state and row of the sheet, in order. What has no name is given one: lines in0, in1 and
out0, monitors hard0 and soft1, states s0. The text compiles to the same bytes.
",
    files: 1,
    options: &[],
    run,
};

fn run(arguments: &Arguments, bench: &mut Bench) -> Outcome {
    let source = Source::read(arguments.file(0), bench)?;
    making::in_bounds(&source, bench)?;
    let Some(named) = source.named() else { return Err(bench.differs()) };
    bench.out.write_all(text::show(&named).as_bytes())?;
    Ok(())
}
