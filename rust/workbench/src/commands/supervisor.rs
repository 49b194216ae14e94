//! `guard supervisor`: the allowed outputs, by names.

use guard::Supervisor;

use super::Command;
use crate::arguments::Arguments;
use crate::bench::{Bench, Outcome};
use crate::making;
use crate::source::Source;
use crate::states::States;

pub const COMMAND: Command = Command {
    name: "supervisor",
    usage: "FILE",
    about: "the supervisor: states, inputs and allowed outputs, by names",
    help: "\
For each product state the monitors' states that it stands for (after a ; those of the copies that
read a shield's proposal), then for each input every output that can still be survived. A state is
lost where some input leaves none.
",
    files: 1,
    options: &[],
    run,
};

fn run(arguments: &Arguments, bench: &mut Bench) -> Outcome {
    let source = Source::read(arguments.file(0), bench)?;
    let supervisor = making::supervisor(&source, bench)?;
    let Some(states) = States::of(&source, &supervisor) else {
        return Err(bench.differs());
    };
    for state in 0..supervisor.states() {
        let lost = if supervisor.is_kept(state) { "" } else { ", lost" };
        writeln!(bench.out, "state {state}{}{lost}", states.described(state))?;
        if supervisor.is_kept(state) {
            write_inputs(&supervisor, &states, state, bench)?;
        }
    }
    Ok(())
}

fn write_inputs(
    supervisor: &Supervisor,
    states: &States,
    state: usize,
    bench: &mut Bench,
) -> Outcome {
    for (input, name) in (0..).zip(states.inputs()) {
        let allowed = (0..1 << supervisor.outputs())
            .filter(|&output| supervisor.allows(state, input, output))
            .map(|output| states.named.names.output(output));
        let allowed: Vec<String> = allowed.collect();
        writeln!(bench.out, "  {name}  {}", allowed.join(", "))?;
    }
    Ok(())
}
