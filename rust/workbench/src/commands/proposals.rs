//! `guard proposals`: a shield's proposals, by names.

use guard::sheet::Mode;
use guard::Supervisor;

use super::Command;
use crate::arguments::Arguments;
use crate::bench::{Bench, Outcome, Stop};
use crate::making;
use crate::source::Source;
use crate::states::{Proposed, States};

pub const COMMAND: Command = Command {
    name: "proposals",
    usage: "FILE",
    about: "a shield's proposals: which are sound, which may pass, and when they are trusted again",
    help: "\
For each product state that is kept the monitors' states that it stands for (after a ; those of the
copies that read the proposal), then for each input whether its proposal is sound, and whether it may
pass or must be corrected. Where an unsound one passes the copies take their monitors' states: then
the state that follows is told. A controller's sheet has no proposals, and exits 1.
",
    files: 1,
    options: &[],
    run,
};

fn run(arguments: &Arguments, bench: &mut Bench) -> Outcome {
    let source = Source::read(arguments.file(0), bench)?;
    let supervisor = making::supervisor(&source, bench)?;
    let Some(states) = States::of(&source, &supervisor) else {
        return Err(bench.differs());
    };
    if states.named.sheet.mode == Mode::Controller {
        bench.say(format!("{}: a controller's sheet, which has no proposals", source.file));
        return Err(Stop::Refused);
    }
    for state in (0..supervisor.states()).filter(|&state| supervisor.is_kept(state)) {
        writeln!(bench.out, "state {state}{}", states.described(state))?;
        write_proposals(&supervisor, &states, state, bench)?;
    }
    Ok(())
}

fn write_proposals(
    supervisor: &Supervisor,
    states: &States,
    state: usize,
    bench: &mut Bench,
) -> Outcome {
    for (input, name) in (0..).zip(states.inputs()) {
        let proposed = states.proposed(state, input);
        let passes = supervisor.allows(state, input, proposed.output);
        writeln!(bench.out, "  {name}  {}", told(proposed, passes))?;
    }
    Ok(())
}

fn told(proposed: Proposed, passes: bool) -> String {
    match (proposed.sound, proposed.given.filter(|_| passes)) {
        (true, Some(_)) => "sound, may pass".to_string(),
        (true, None) => "sound, must be corrected".to_string(),
        (false, None) => "unsound, must be corrected".to_string(),
        (false, Some(next)) => format!("unsound, may pass, and is trusted again: state {next}"),
    }
}
