//! `guard forecast`: how well each product state can still do.

use guard::{Averages, Forecast, Prospect};

use super::Command;
use crate::arguments::Arguments;
use crate::bench::{Bench, Outcome};
use crate::making;
use crate::source::Source;
use crate::states::States;

pub const COMMAND: Command = Command {
    name: "forecast",
    usage: "FILE",
    about: "how well each state can still do: its best and least average reward",
    help: "\
A line for each product state: its number; the best and the least that allowed outputs can make of it,
as average rewards over the horizon's steps; and the monitors' states that it stands for in their order,
then in brackets those of the copies that read a shield's proposal. An average has all its digits, and a
bar beside it: the longest is the largest of the card, and a part of a mark is drawn as one. A state that
is not kept is lost. What a state stands for is told by an independent implementation, and only where
its supervisor table is the library's.
",
    files: 1,
    options: &[],
    run,
};

/// The marks of the longest bar.
const MARKS: usize = 20;
/// An average has no more decimals: times 2^24 it is a whole number.
const DECIMALS: usize = 24;
/// The longest word in the decimals' place.
const WORD: usize = "least".len();

fn run(arguments: &Arguments, bench: &mut Bench) -> Outcome {
    let source = Source::read(arguments.file(0), bench)?;
    let forecast = making::forecast(&source, bench)?;
    let supervisor = making::supervisor(&source, bench)?;
    let states = States::of(&source, &supervisor);
    match states.filter(|_| forecast.count() == supervisor.states()) {
        Some(states) => write_card(&forecast, &states, bench),
        None => Err(bench.differs()),
    }
}

fn write_card(forecast: &Forecast, states: &States, bench: &mut Bench) -> Outcome {
    let horizon = states.named.sheet.horizon;
    let steps = if horizon == 1 { "step" } else { "steps" };
    writeln!(bench.out, "average reward over {horizon} {steps}")?;
    let best = Column::new(forecast, |averages| averages.best);
    let least = Column::new(forecast, |averages| averages.least);
    let mut write_row = |state: &str, [best, least]: [String; 2], names: &[String]| {
        let row = format!("{state:>5}  {best}  {least}  {}", names.join(", "));
        writeln!(bench.out, "{}", row.trim_end())
    };
    write_row("state", [best.word("best"), least.word("least")], &states.heads())?;
    for (state, prospect) in forecast.iter().enumerate() {
        let cells = match prospect {
            Prospect::Lost => [best.word("lost"), least.word("")],
            Prospect::Worth(averages) => [best.cell(averages), least.cell(averages)],
        };
        write_row(&state.to_string(), cells, &states.label(state))?;
    }
    Ok(())
}

/// The column of one of the two averages: its decimals, points below each other, and its bars.
struct Column {
    of: fn(&Averages) -> f64,
    /// The longest of what stands before the point, and of the rest.
    whole: usize,
    part: usize,
    /// What the longest bar stands for.
    largest: f64,
}

impl Column {
    fn new(forecast: &Forecast, of: fn(&Averages) -> f64) -> Column {
        let all = || forecast.iter().filter_map(|prospect| prospect.averages());
        let decimals = || all().map(|averages| decimal(of(&averages)));
        Column {
            of,
            whole: decimals().map(|(whole, _)| whole.len()).max().unwrap_or(0),
            part: decimals().map(|(_, part)| part.len()).max().unwrap_or(0),
            largest: all().map(|averages| averages.best).fold(0.0, f64::max),
        }
    }

    fn width(&self) -> usize {
        WORD.max(self.whole + self.part)
    }

    /// A word in the decimals' place.
    fn word(&self, word: &str) -> String {
        format!("{word:<width$}  {:MARKS$}", "", width = self.width())
    }

    fn cell(&self, averages: &Averages) -> String {
        let average = (self.of)(averages);
        let (whole, part) = decimal(average);
        let number = format!("{whole:>before$}{part}", before = self.whole);
        let bar = "#".repeat(marks(average, self.largest));
        format!("{number:<width$}  {bar:<MARKS$}", width = self.width())
    }
}

/// An average in decimal, exactly: what stands before the point, and the point with what follows it.
fn decimal(average: f64) -> (String, String) {
    let text = format!("{average:.DECIMALS$}");
    let text = text.trim_end_matches('0').trim_end_matches('.');
    let (whole, part) = text.split_at(text.find('.').unwrap_or(text.len()));
    (whole.to_string(), part.to_string())
}

/// How many marks the bar of an average has.
fn marks(average: f64, largest: f64) -> usize {
    match largest > 0.0 {
        true => (average * MARKS as f64 / largest).ceil() as usize,
        false => 0,
    }
}
