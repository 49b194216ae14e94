//! `guard check`: whether a sheet is accepted, and if not, why and where.

use guard::{Forced, Guard, Refusal, Supervisor, Work};
use reference::{Fault, Kept, Product, Sheet};

use super::Command;
use crate::arguments::Arguments;
use crate::bench::{Bench, Outcome, Stop};
use crate::making;
use crate::play::Play;
use crate::source::Source;

pub const COMMAND: Command = Command {
    name: "check",
    usage: "FILE",
    about: "whether a sheet is accepted; if not, why and where",
    help: "\
Prints the number of states, the lengths of both tables and the kind of the guard's rows (20, with two
bytes for a next state, where it has more than 256 states); or the refusal's number, its ground, and
the record and byte where it is found, or of an unrealizable sheet of which monitors one is forced to
break, in how many steps, and by which input first. All numbers are the proved library's. Places and
names are told by an independent reader; should that one differ, the number stands alone and the exit
status is 3.
",
    files: 1,
    options: &[],
    run,
};

fn run(arguments: &Arguments, bench: &mut Bench) -> Outcome {
    let source = Source::read(arguments.file(0), bench)?;
    let mut work = Work::new();
    let tables = Supervisor::make(&source.bytes, &mut work)
        .and_then(|supervisor| Ok((supervisor, Guard::make(&source.bytes, &mut work)?)));
    match tables {
        Ok((supervisor, guard)) => accepted(&source, &supervisor, &guard, bench),
        Err(refusal) => refused(&source, refusal, found(&source), bench),
    }
}

fn accepted(source: &Source, supervisor: &Supervisor, guard: &Guard, bench: &mut Bench) -> Outcome {
    let kept = (0..supervisor.states()).filter(|&state| supervisor.is_kept(state)).count();
    writeln!(bench.out, "{}: accepted", source.file)?;
    writeln!(bench.out, "  product states    {:>6}", supervisor.states())?;
    writeln!(bench.out, "  kept states       {kept:>6}")?;
    writeln!(bench.out, "  guard states      {:>6}", guard.states())?;
    writeln!(bench.out, "  supervisor table  {:>6} bytes", supervisor.as_bytes().len())?;
    let (length, kind) = (guard.as_bytes().len(), guard.rows().number());
    writeln!(bench.out, "  guard table       {length:>6} bytes, rows of kind {kind}")?;
    Ok(())
}

/// What the reference finds: a refusal's number, and for 1 to 6 where, for 8 how it is forced; 0 where
/// none is found, or another play than the library's.
fn found(source: &Source) -> (u32, Option<String>) {
    let sheet = match Sheet::read(&source.bytes) {
        Ok(sheet) => sheet,
        Err(fault) => {
            return (fault.refusal.number(), Some(place(&fault)));
        }
    };
    match Product::explore(&sheet) {
        Err(refusal) => (refusal.number(), None),
        Ok(product) if Kept::by_rounds(&product).is_kept(0) => (0, None),
        Ok(_) => match beaten(source) {
            Some(how) => (Refusal::Unrealizable.number(), Some(how)),
            None => (0, None),
        },
    }
}

/// How a sheet is beaten, by the library; nothing where the reference differs.
fn beaten(source: &Source) -> Option<String> {
    let forced = Forced::make(&source.bytes, &mut Work::new()).ok()?;
    let play = Play::of(source, &forced)?;
    let input = play.input(play.first().force.input);
    Some(format!("{}, first input {input}; guard forced tells the play", play.summary()))
}

/// Record, byte and words of a fault; record 0 is the head, and monitors are counted from 0.
fn place(fault: &Fault) -> String {
    let Fault { refusal, record, byte, what } = fault;
    match refusal {
        reference::Refusal::BadMonitor | reference::Refusal::SeventhMonitor => {
            format!("record {record} (monitor {}), byte {byte}: {what}", record - 1)
        }
        _ => format!("record {record}, byte {byte}: {what}"),
    }
}

/// Tells a refusal, with what the reference found if that is the same.
fn refused(
    source: &Source,
    refusal: Refusal,
    (number, detail): (u32, Option<String>),
    bench: &mut Bench,
) -> Outcome {
    if number != refusal.number() {
        writeln!(bench.out, "refused {}", refusal.number())?;
        return Err(bench.differs());
    }
    writeln!(bench.out, "{}: {refusal}", source.file)?;
    if let Some(detail) = detail {
        writeln!(bench.out, "  {detail}")?;
    }
    making::hint(refusal, source, bench);
    Err(Stop::Refused)
}

#[cfg(test)]
mod tests {
    use super::*;

    /// Tells a refusal, whatever the reference finds.
    fn told(refusal: Refusal, found: (u32, Option<String>)) -> (u8, String) {
        let source = Source::of_bytes("it", vec![0; 4]);
        let (mut out, mut err) = (Vec::new(), Vec::new());
        let input = &mut std::io::empty();
        let mut bench = Bench { input, out: &mut out, err: &mut err, terminal: false };
        let stop = refused(&source, refusal, found, &mut bench).unwrap_err();
        (stop.status(), String::from_utf8(out).unwrap())
    }

    #[test]
    fn where_the_reference_differs_the_number_stands_alone() {
        let place = Some("record 1, byte 4: a word".to_string());
        for number in [0, 1, 3, 5, 8] {
            let alone = (3, "refused 4\n".to_string());
            assert_eq!(told(Refusal::BadMonitor, (number, place.clone())), alone);
            assert_eq!(told(Refusal::BadMonitor, (number, None)), alone);
        }
        for number in [0, 4, 7] {
            assert_eq!(told(Refusal::Unrealizable, (number, None)), (3, "refused 8\n".to_string()));
        }
        let (status, out) = told(Refusal::BadMonitor, (4, place));
        assert_eq!((status, out.lines().nth(1)), (1, Some("  record 1, byte 4: a word")));
        assert_eq!(told(Refusal::Unrealizable, (8, None)).0, 1);
    }
}
