//! `guard list`: the listing of a guard.

use reference::SHEET_BYTES_MOST;

use super::Command;
use crate::arguments::Arguments;
use crate::bench::{Bench, Outcome, Stop};
use crate::making;
use crate::source::Source;

pub const COMMAND: Command = Command {
    name: "list",
    usage: "FILE",
    about: "the listing of a guard",
    help: "\
The first line has states, inputs, outputs and horizon; then comes a line for each state with
output>next state for each input, ascending. A refused sheet is listed as `refused N`.
",
    files: 1,
    options: &[],
    run,
};

fn run(arguments: &Arguments, bench: &mut Bench) -> Outcome {
    let source = Source::read(arguments.file(0), bench)?;
    if source.bytes.len() > SHEET_BYTES_MOST && !source.is_table() {
        writeln!(bench.out, "too long")?;
        let most = format!("more than {SHEET_BYTES_MOST} bytes");
        bench.say(format!("{}: {most}; {}", source.file, source.reason()));
        return Err(Stop::Refused);
    }
    let listing = making::guard_or_refusal(&source).and_then(|guard| guard.listing());
    match listing {
        Ok(listing) => bench.out.write_all(listing.as_bytes())?,
        Err(refusal) => {
            writeln!(bench.out, "refused {}", refusal.number())?;
            return Err(making::refuse(refusal, &source, bench));
        }
    }
    Ok(())
}
