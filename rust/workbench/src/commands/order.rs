//! `guard order`: the outputs in the sheet's order, with their ranks.

use guard::sheet::{Literal, Sheet};
use guard::{Guard, Work};

use super::Command;
use crate::arguments::Arguments;
use crate::bench::{Bench, Outcome};
use crate::making;
use crate::source::Source;

pub const COMMAND: Command = Command {
    name: "order",
    usage: "FILE",
    about: "the outputs in the order of preference, with their ranks",
    help: "\
Where several outputs are equally good the guard gives the one of the highest rank. A rank has a digit
for each preference, the first the highest: 1 if the output has that line as preferred. The order is
the proved library's: which output its guard gives where only those left may be given. It is told
only where an independent implementation has the same; else the exit status is 3.
",
    files: 1,
    options: &[],
    run,
};

fn run(arguments: &Arguments, bench: &mut Bench) -> Outcome {
    let source = Source::read(arguments.file(0), bench)?;
    making::in_bounds(&source, bench)?;
    let (Some(named), Ok(read)) = (source.named(), reference::Sheet::parse(&source.bytes)) else {
        return Err(bench.differs());
    };
    let order = by_library(&named.sheet.prefer);
    if order != read.output_order() {
        return Err(bench.differs());
    }
    let width = usize::from(named.sheet.lines_out);
    writeln!(bench.out, "prefer {}", named.names.preferences(&named.sheet.prefer))?;
    for (rank, output) in (0..order.len()).rev().zip(order) {
        let lines = named.names.output(output);
        writeln!(bench.out, "rank {rank}  {rank:0width$b}  output {output}  {lines}")?;
    }
    Ok(())
}

/// The outputs, the preferred first, as the library's guards choose; fewer if one of them chooses what it
/// may not give.
fn by_library(prefer: &[Literal]) -> Vec<u8> {
    let mut work = Work::new();
    let outputs = 0..1 << prefer.len();
    let mut left: Vec<u8> = outputs.clone().collect();
    outputs
        .map_while(|_| chosen(prefer, &left, &mut work).map(|place| left.remove(place)))
        .collect()
}

/// The place of the output that a guard gives where only these may be given.
fn chosen(prefer: &[Literal], left: &[u8], work: &mut Work) -> Option<usize> {
    let next = |_, output| u8::from(!left.contains(&output));
    let sheet = Sheet::controller(0, prefer.len() as u8).prefer(prefer);
    let sheet = sheet.hard(2, |state| state == 0, next);
    let guard = Guard::make(&sheet.to_bytes(), work).ok()?;
    left.iter().position(|&output| output == guard.entry(0, 0).0)
}
