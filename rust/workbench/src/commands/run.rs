//! `guard run`: a board at work.

use std::io::{BufRead, Read};

use guard::sheet::Mode;
use guard::{Board, Guard, Refusal};

use super::Command;
use crate::arguments::Arguments;
use crate::bench::{Bench, Outcome, Stop};
use crate::making;
use crate::names::Names;
use crate::source::Source;
use crate::tap::{self, Call};

pub const COMMAND: Command = Command {
    name: "run",
    usage: "FILE",
    about: "a board at work, a line of standard input for each call",
    help: "\
The board is loaded when it begins. A line is an input: its number (0 alone where there are no lines
in), or the names of the lines that are on, as `tray !lid`; lines not named are off. A shield reads the
site's lines, a slash and the proposal: `tray / open`. Or a line is one of rewind, unload and load. Blank
lines and what comes after # are passed over. Each call is answered by a line: the output by names, the
state, the steps and the deviations; or the refusal. A line that cannot be read calls nothing, and is told
on standard error. The run goes on after both, and then exits 1 at the end. FILE cannot be - here.

For a board that drives a device: rewind, and every load, begins the monitors anew and forgets what the
device did, so load and rewind only when it is as at the start. A refused step has no output to drive:
drive the one that is safe, since to hold the last one is a step that no guard has judged.
",
    files: 1,
    options: &[],
    run,
};

/// The longest line that is read.
const LINE_MOST: u64 = 1 << 16;

/// A board, the table it runs by, and whether any call was refused.
struct Run {
    board: Board,
    guard: Guard,
    names: Names,
    mode: Mode,
    refused: bool,
}

fn run(arguments: &Arguments, bench: &mut Bench) -> Outcome {
    if arguments.file(0) == "-" {
        let what = "standard input has the calls: FILE cannot be - here";
        return Err(Stop::Use(what.into()));
    }
    let source = Source::read(arguments.file(0), bench)?;
    let guard = making::guard(&source, bench)?;
    let (names, mode) = (source.names_for(&guard), guard.mode());
    let mut run = Run { board: Board::new(), guard, names, mode, refused: false };
    run.board.load(&run.guard).map_err(|refusal| making::refuse(refusal, &source, bench))?;
    run.greet(bench);
    let mut number = 0;
    while let Some(line) = run.next_line(bench)? {
        number += 1;
        run.take_line(&line, number, bench)?;
    }
    if bench.terminal {
        writeln!(bench.out)?;
    }
    match run.refused {
        true => Err(Stop::Refused),
        false => Ok(()),
    }
}

impl Run {
    fn greet(&self, bench: &mut Bench) {
        if bench.terminal {
            let (site, out) = (self.names.lines_in.join(" "), self.names.lines_out.join(" "));
            let form = match self.mode {
                Mode::Controller if site.is_empty() => "0, since there are no lines in".to_string(),
                Mode::Controller => site,
                Mode::Shield => format!("{site} / {out}"),
            };
            bench.say(format!("inputs {form}; outputs {out}; rewind, unload, load; Ctrl-D ends"));
        }
    }

    /// The next line of standard input, after a prompt where somebody sits there.
    fn next_line(&self, bench: &mut Bench) -> Result<Option<String>, Stop> {
        if bench.terminal {
            write!(bench.out, "> ")?;
            bench.out.flush()?;
        }
        let mut line = Vec::new();
        let read = Read::take(&mut *bench.input, LINE_MOST + 1).read_until(b'\n', &mut line);
        match read.map_err(|error| Stop::File(format!("standard input: {error}")))? as u64 {
            0 => Ok(None),
            length if length > LINE_MOST => {
                Err(Stop::File(format!("standard input: a line of more than {LINE_MOST} bytes")))
            }
            _ => Ok(Some(String::from_utf8_lossy(&line).trim_end().to_string())),
        }
    }

    fn take_line(&mut self, line: &str, number: usize, bench: &mut Bench) -> Outcome {
        match tap::read(line, number, &self.names, self.mode) {
            Ok(None) => {}
            Ok(Some(call)) => {
                let answer = self.call(call);
                self.refused |= answer.is_err();
                writeln!(bench.out, "{}", self.told(answer))?;
                // Whoever gives the calls one by one waits for the answer.
                bench.out.flush()?;
            }
            Err(fault) => {
                // A line that cannot be read calls nothing.
                self.refused = true;
                bench.tell(fault.on_line("standard input", line));
            }
        }
        Ok(())
    }

    /// What the board answers, in a word: the output, or what has become of the board.
    fn call(&mut self, call: Call) -> Result<String, Refusal> {
        match call {
            Call::Step(input) => {
                self.board.step(&self.guard, input).map(|output| self.names.output(output))
            }
            Call::Load => self.board.load(&self.guard).map(|()| "loaded".to_string()),
            Call::Rewind => self.board.rewind().map(|()| "rewound".to_string()),
            Call::Unload => self.board.unload().map(|()| "unloaded".to_string()),
        }
    }

    fn told(&self, answer: Result<String, Refusal>) -> String {
        let fields = self.board.fields();
        match answer {
            Ok(answer) if fields.loaded => format!(
                "{answer} | state {} | steps {} | deviations {}",
                fields.place, fields.steps, fields.deviations
            ),
            Ok(answer) => answer,
            Err(refusal) => refusal.to_string(),
        }
    }
}
