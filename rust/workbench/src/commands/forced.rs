//! `guard forced`: the play that beats an unrealizable sheet.

use guard::Force;

use super::Command;
use crate::arguments::Arguments;
use crate::bench::{Bench, Outcome};
use crate::making;
use crate::play::{steps, Answer, Play, Turn};
use crate::source::Source;

pub const COMMAND: Command = Command {
    name: "forced",
    usage: "FILE",
    about: "how inputs force a break of an unrealizable sheet, whatever the outputs",
    help: "\
For a sheet that is refused 8: in how many steps inputs force a break, of which monitors, and how. From
the start on, each product state that the play comes to is told once, with the monitors' states that it
stands for (after a ; those of the copies that read a shield's proposal), the steps that are left, the
broken one counted, and the input to give; then what each output leads to: a state with fewer steps left,
or a break, by the first monitor that does not accept then. No play is shorter, and of those inputs that
force as soon it is the lowest. What a state stands for, and where an output leads before the last step,
is told by an independent implementation, and only where its play is the library's. A sheet that is not
refused 8 is refused here: 23 if it can be kept.
",
    files: 1,
    options: &[],
    run,
};

fn run(arguments: &Arguments, bench: &mut Bench) -> Outcome {
    let source = Source::read(arguments.file(0), bench)?;
    let forced = making::forced(&source, bench)?;
    match Play::of(&source, &forced) {
        Some(play) => write_play(&play, bench),
        None => Err(bench.differs()),
    }
}

fn write_play(play: &Play, bench: &mut Bench) -> Outcome {
    let named = &play.states.named;
    let left =
        |force: &Force| format!("{} left, input {}", steps(force.steps), play.input(force.input));
    let outputs: Vec<String> =
        (0..1 << named.sheet.lines_out).map(|output| named.names.output(output)).collect();
    let width = outputs.iter().map(String::len).max().unwrap_or(0);
    writeln!(bench.out, "{}", play.summary())?;
    for Turn { state, force, answers } in &play.turns {
        writeln!(bench.out, "state {state}{}", play.states.described(*state))?;
        writeln!(bench.out, "  {}", left(force))?;
        for (output, answer) in outputs.iter().zip(answers) {
            let leads = match answer {
                Answer::Break(monitor) => format!("broken by {}", play.monitor(*monitor)),
                Answer::State(next, force) => format!("state {next}: {}", left(force)),
            };
            writeln!(bench.out, "    {output:<width$}  {leads}")?;
        }
    }
    Ok(())
}
