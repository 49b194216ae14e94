//! What is timed of the makers: groups of sheets, and for each what it comes to.

use conformance::orders::orders;
use conformance::{generate, Random};
use reference::{Kept, Product, Refusal, Sheet, GUARD_BYTES_MOST};

use crate::makers::{Maker, ALL, PLAY, TABLES};
use crate::sheets;
use crate::timing::{Effort, Runs, COLUMNS};

/// The width of all that stands before the times.
pub const WIDTH: usize = 66;

/// One sheet, or several made one after the other, with the times of each maker.
pub struct Row {
    name: String,
    sheets: Vec<Vec<u8>>,
    makers: Vec<(&'static dyn Maker, Runs)>,
}

/// Rows that belong together.
pub struct Group {
    name: &'static str,
    rows: Vec<Row>,
}

impl Row {
    fn new(name: &str, sheets: Vec<Vec<u8>>, makers: &[&'static dyn Maker]) -> Row {
        let makers = makers.iter().map(|&maker| (maker, Runs::default())).collect();
        Row { name: name.to_string(), sheets, makers }
    }

    fn print(&self) {
        let mut before = format!("{:<24} {}", self.name, size(&self.sheets));
        for (maker, runs) in &self.makers {
            println!("{:<width$} {:<10} {runs}", before, maker.name(), width = WIDTH - 11);
            before.clear();
        }
    }
}

impl Group {
    /// Rows with the times of both tables.
    fn new(name: &'static str, rows: Vec<(String, Vec<u8>)>) -> Group {
        Group::by(TABLES, name, rows)
    }

    fn by(
        makers: &[&'static dyn Maker],
        name: &'static str,
        rows: Vec<(String, Vec<u8>)>,
    ) -> Group {
        let row = |(name, sheet): (String, _)| Row::new(&name, vec![sheet], makers);
        Group { name, rows: rows.into_iter().map(row).collect() }
    }

    pub fn check(&self) {
        for row in &self.rows {
            for sheet in &row.sheets {
                row.makers.iter().for_each(|(maker, _)| maker.check(sheet));
            }
        }
    }

    pub fn run(&mut self, effort: Effort) {
        for row in &mut self.rows {
            for (maker, runs) in &mut row.makers {
                runs.add(maker.time(effort, &row.sheets));
            }
        }
    }

    pub fn print(&self) {
        let figures = format!("{:<24} {HEADS}", self.name);
        println!("{figures:<WIDTH$} {COLUMNS}");
        self.rows.iter().for_each(Row::print);
        println!();
    }
}

const HEADS: &str = "states guard rounds letters";

/// What sheets come to: product states, guard states (none of an unrealizable sheet), rounds and letters;
/// or the refusal.
fn size(sheets: &[Vec<u8>]) -> String {
    if let Err(refusal) = Sheet::parse(&sheets[0]) {
        return format!("{:<19} {:>7}", refusal.to_string(), "-");
    }
    let letters = sheets.iter().map(|sheet| {
        let sheet = Sheet::parse(sheet).expect("the sheet is read");
        sheet.input_count() * sheet.output_count()
    });
    let (least, most) = letters.fold((usize::MAX, 0), |(a, b), l| (a.min(l), b.max(l)));
    let letters = if least == most { most.to_string() } else { format!("{least}-{most}") };
    let guard = match reference::make_guard(&sheets[0], &mut [0; GUARD_BYTES_MOST]) {
        Ok(guard) => guard.states.to_string(),
        Err(Refusal::Unrealizable) => "-".to_string(),
        Err(refusal) => return format!("{:<19} {letters:>7}", refusal.to_string()),
    };
    let sheet = Sheet::parse(&sheets[0]).expect("the sheet is read");
    let product = Product::explore(&sheet).expect("few states");
    let rounds = Kept::by_rounds(&product).rounds();
    format!("{:>6} {guard:>5} {rounds:>6} {letters:>7}", product.count())
}

/// All groups of rows.
pub fn all() -> Vec<Group> {
    vec![
        general(),
        large(),
        lost(),
        ties(),
        few_letters(),
        refused(),
        cut(),
        one_hash(),
        shields(),
        long_horizons(),
    ]
}

fn general() -> Group {
    let rows = [
        ("small (A)", sheets::small()),
        ("middle", sheets::middle()),
        ("full, two counters", sheets::counters((4, 2), 6, (32, 8))),
        ("full, six monitors", sheets::six_monitors()),
        ("full, shield", sheets::shield_with(2, 2, 6, 2, 2, 4)),
        ("chain", sheets::chain()),
    ];
    Group::by(ALL, "general", rows.map(named).into())
}

/// More than 256 states. A guard of so many has rows of kind 20.
fn large() -> Group {
    let rows = [
        ("two counters, 300", sheets::counters((4, 2), 6, (30, 10))),
        ("two counters, 512", sheets::counters((4, 2), 6, (32, 16))),
        ("512, all in the guard", sheets::counters_by_lines_in(6, (32, 16))),
        ("512, 2 letters", sheets::counters_of((0, 1), 6, 512)),
    ];
    Group::by(ALL, "more than 256 states", rows.map(named).into())
}

fn named((name, sheet): (&str, Vec<u8>)) -> (String, Vec<u8>) {
    (name.to_string(), sheet)
}

fn lost() -> Group {
    let rows = [
        ("at once, 64 letters", sheets::lost_at_once()),
        ("shield", sheets::lost_shield()),
        ("longest, 64 letters", generate::longest_play(4, 2)),
        ("longest, 2 letters", generate::longest_play(0, 1)),
    ];
    Group::by(PLAY, "unrealizable", rows.map(named).into())
}

/// One state, in which all outputs are equally good: every order of the lines, made one after the other.
fn ties() -> Group {
    let row = |lines| {
        let sheets: Vec<Vec<u8>> = orders(lines).iter().map(|order| sheets::tied(order)).collect();
        Row::new(&format!("{lines} out, {} orders", sheets.len()), sheets, TABLES)
    };
    Group { name: "ties", rows: vec![row(1), row(2), row(3)] }
}

fn few_letters() -> Group {
    let notebook = sheets::from_text(include_str!("../../../sheets/counters-32-8.hex"));
    let rows = [
        ("0 in, 1 out, H 6", sheets::counters_of((0, 1), 6, 256)),
        ("0 in, 2 out, H 6", sheets::counters_of((0, 2), 6, 256)),
        ("notebook's counters", notebook),
        ("0 in, 3 out, H 6", sheets::counters_of((0, 3), 6, 256)),
        ("1 in, 2 out, H 6", sheets::counters_of((1, 2), 6, 256)),
        ("1 in, 2 out, H 6, small", sheets::counters_of((1, 2), 6, 16)),
    ];
    Group::new("few letters", rows.map(named).into())
}

fn refused() -> Group {
    let notebook = sheets::from_text(include_str!("../../../sheets/counters-32-17.hex"));
    let rows = [
        ("counters 32, 17", sheets::counters((0, 1), 6, (32, 17))),
        ("notebook's counters", notebook),
        ("counters 32, 17", sheets::counters((4, 2), 6, (32, 17))),
        ("six counters", sheets::six_counters()),
    ];
    let mut group = Group::new("refused 7", rows.map(named).into());
    let generated = (0..).map(|case| generate::sheet(&mut Random::new(1, case)));
    let refused =
        generated.filter(|sheet| reference::guard_table(sheet) == Err(Refusal::TooManyStates));
    let refused = refused.take(20).collect();
    group.rows.push(Row::new("20 generated, together", refused, TABLES));
    group
}

/// A call that is refused by its first record does nothing but clear work memory; a forecast also
/// hands its card back.
fn cut() -> Group {
    Group::by(ALL, "refused 1", vec![named(("one byte: clearing alone", vec![0]))])
}

fn one_hash() -> Group {
    // Lines 4 and 5 go out. Where line 0 moves a group, no two neighbouring letters lead alike.
    let rows = [
        ("8 x 8", sheets::one_hash(8, [4, 5])),
        ("16 x 16", sheets::one_hash(16, [4, 5])),
        ("22 x 22", sheets::one_hash(22, [4, 5])),
        ("16 x 16, by a line in", sheets::one_hash(16, [0, 4])),
    ];
    Group::new("one hash", rows.map(named).into())
}

fn shields() -> Group {
    const SIZES: [usize; 4] = [8, 60, 120, 240];
    const LINES: [(u8, u8); 7] = [(0, 1), (1, 1), (2, 1), (0, 2), (1, 2), (2, 2), (0, 3)];
    let mut rows = Vec::new();
    for states in SIZES {
        for (site_lines, outputs) in LINES {
            let sheet = sheets::shield_of(site_lines, outputs, 6, states);
            rows.push((format!("m {site_lines}, {outputs} out"), sheet));
        }
    }
    for (site_lines, outputs, counter) in [(0, 2, 8), (1, 2, 8), (0, 3, 8)] {
        let sheet = sheets::shield_with(site_lines, outputs, 6, 2, 1, counter);
        rows.push((format!("m {site_lines}, {outputs} out, 2 copies"), sheet));
    }
    Group::new("shields, H 6", rows)
}

fn long_horizons() -> Group {
    let rows = [
        ("0 in, 3 out, H 24", sheets::counters_of((0, 3), 24, 256)),
        ("1 in, 3 out, H 24", sheets::counters_of((1, 3), 24, 256)),
        ("2 in, 3 out, H 12", sheets::counters_of((2, 3), 12, 256)),
        ("shield m 0, 1 out, H 24", sheets::shield_of(0, 1, 24, 240)),
        ("shield m 0, 2 out, H 12", sheets::shield_of(0, 2, 12, 240)),
    ];
    Group::new("long horizons", rows.map(named).into())
}

#[cfg(test)]
mod tests {
    use super::*;

    #[test]
    fn all_three_answer_alike() {
        all().iter().for_each(Group::check);
    }

    #[test]
    fn sheets_come_to_what_they_are_named_for() {
        for group in all() {
            let expected = match group.name {
                "refused 1" => Some(Refusal::Truncated),
                "refused 7" => Some(Refusal::TooManyStates),
                "unrealizable" => Some(Refusal::Unrealizable),
                _ => None,
            };
            for sheet in group.rows.iter().flat_map(|row| &row.sheets) {
                assert_eq!(reference::guard_table(sheet).err(), expected, "{}", group.name);
            }
        }
        assert_eq!(super::refused().rows.last().map(|row| row.sheets.len()), Some(20));
    }
}
