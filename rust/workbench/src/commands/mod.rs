//! The commands, a file each.

mod check;
mod compile;
mod dot;
mod forced;
mod forecast;
mod list;
mod make;
mod order;
mod proposals;
mod run;
mod show;
mod supervisor;

use std::ffi::OsString;

use crate::arguments::{Arguments, Opt};
use crate::bench::{Bench, Outcome, Stop};

/// A command: how it is called, what it does, and the function that does it.
pub struct Command {
    pub name: &'static str,
    /// The words after the name.
    pub usage: &'static str,
    /// What it does, in a line.
    pub about: &'static str,
    /// More about it.
    pub help: &'static str,
    /// How many files it takes.
    pub files: usize,
    pub options: &'static [Opt],
    pub run: fn(&Arguments, &mut Bench) -> Outcome,
}

/// Every command, in the order of use.
pub const COMMANDS: &[Command] = &[
    compile::COMMAND,
    show::COMMAND,
    check::COMMAND,
    forced::COMMAND,
    order::COMMAND,
    list::COMMAND,
    supervisor::COMMAND,
    proposals::COMMAND,
    forecast::COMMAND,
    make::COMMAND,
    dot::COMMAND,
    run::COMMAND,
];

const FILES: &str = "\
FILE is a text sheet, hexadecimal text or bytes, decided by its content; - is standard input. list, dot
and run take stored guard tables too.
Exit status: 0; 1 the sheet, the table or a step is refused, or the text has errors; 2 wrong use; 3 a
file cannot be read or written, or the reader that tells places and names differs from the library.
";

/// Runs the command that the words name.
pub fn dispatch(words: &[OsString], bench: &mut Bench) -> Outcome {
    let Some((name, rest)) = words.split_first() else {
        return Err(Stop::Use("a command is missing; guard --help lists them".into()));
    };
    if is_help(name) {
        bench.out.write_all(overview().as_bytes())?;
        return Ok(());
    }
    let Some(command) = COMMANDS.iter().find(|command| name == command.name) else {
        let name = name.to_string_lossy();
        return Err(Stop::Use(format!("there is no command {name}; guard --help lists them")));
    };
    let Command { name, usage, about, help, .. } = command;
    if rest.iter().take_while(|word| *word != "--").any(is_help) {
        write!(bench.out, "guard {name} {usage}\n    {about}\n\n{help}\n{FILES}")?;
        return Ok(());
    }
    if !guard::LINKED {
        return Err(Stop::Use("built without the library; tools/guard builds it with it".into()));
    }
    let arguments = Arguments::read(rest, command.files, command.options);
    let done = arguments.and_then(|arguments| (command.run)(&arguments, bench));
    done.map_err(|stop| match stop {
        Stop::Use(what) => Stop::Use(format!("{what}; usage: guard {name} {usage}")),
        other => other,
    })
}

fn is_help(word: &OsString) -> bool {
    word == "--help" || word == "-h"
}

fn overview() -> String {
    let mut text =
        "Write, check, see and try a sheet; docs/SHEETS.md tells how to write one.\n\n".to_string();
    for Command { name, usage, about, .. } in COMMANDS {
        text += &format!("  guard {:<40} {about}\n", format!("{name} {usage}"));
    }
    text + "\nguard COMMAND --help tells more.\n" + FILES
}
