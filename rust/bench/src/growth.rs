//! How the time of a guard grows with the number of states.

use crate::makers::{Maker, GUARD};
use crate::sheets;
use crate::timing::{ratio, Effort, Runs, COLUMNS};

/// The fewest and the most states: the sizes in between are doublings.
const STATES_LEAST: usize = 8;
const STATES_MOST: usize = 512;
const HORIZON: u8 = 6;
/// Lines in and out: 2, 8 and 64 letters.
const LINES: [(u8, u8); 3] = [(0, 1), (1, 2), (4, 2)];

/// The sheets of so many letters, by number of states, with their times.
pub struct Growth {
    lines: (u8, u8),
    rows: Vec<(usize, Vec<Vec<u8>>, Runs)>,
}

impl Growth {
    pub fn all() -> Vec<Growth> {
        LINES.map(Growth::new).into()
    }

    fn new(lines: (u8, u8)) -> Growth {
        let sizes = std::iter::successors(Some(STATES_LEAST), |states| Some(2 * states));
        let rows = sizes.take_while(|&states| states <= STATES_MOST).map(|states| {
            let sheet = sheets::counters_of(lines, HORIZON, states);
            (states, vec![sheet], Runs::default())
        });
        Growth { lines, rows: rows.collect() }
    }

    pub fn check(&self) {
        self.rows.iter().for_each(|(_, sheets, _)| GUARD.check(&sheets[0]));
    }

    pub fn run(&mut self, effort: Effort) {
        for (_, sheets, runs) in &mut self.rows {
            runs.add(GUARD.time(effort, sheets));
        }
    }

    /// The times, and the power of the number of states that each grows by from row to row.
    pub fn print(&self) {
        let (lines_in, lines_out) = self.lines;
        println!(
            "guard of two counters by states: {} letters, H = {HORIZON}",
            1 << (lines_in + lines_out)
        );
        println!("{:>7} {COLUMNS}   power: rattle   plain   tuned", "states");
        let mut before: Option<(usize, &Runs)> = None;
        for (states, _, runs) in &self.rows {
            let power = |of: fn(&Runs) -> Option<f64>| {
                let (fewer, earlier) = before?;
                let doublings = (*states as f64 / fewer as f64).log2();
                Some((of(runs)? / of(earlier)?).log2() / doublings)
            };
            let [rattle, plain, tuned] =
                [Runs::rattle, Runs::plain, Runs::tuned].map(power).map(ratio);
            println!("{states:>7} {runs} {rattle:>15} {plain:>7} {tuned:>7}");
            before = Some((*states, runs));
        }
    }
}

#[cfg(test)]
mod tests {
    use super::*;

    #[test]
    fn all_three_answer_alike() {
        Growth::all().iter().for_each(Growth::check);
    }
}
