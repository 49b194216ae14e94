//! Times the proved library (rattle), the reference (plain) and the crate tuned in one process, on
//! the same inputs.
//!
//! A run takes for each figure the best of many short samples, the three in turn, of calls that
//! include all clearing and allocating: so a busy machine changes little. There are five runs, and
//! each row has the medians over them of the times and of the ratios. `bench quick` is one run with
//! fewer samples.

mod boards;
mod growth;
mod makers;
mod rows;
mod sheets;
mod timing;

use std::time::Duration;

use crate::boards::Boards;
use crate::growth::Growth;
use crate::timing::Effort;

const FULL: Effort = Effort { sample: Duration::from_micros(500), samples: 140, runs: 5 };
const QUICK: Effort = Effort { sample: Duration::from_micros(300), samples: 100, runs: 1 };

fn main() {
    let quick = std::env::args().nth(1).is_some_and(|argument| argument == "quick");
    let effort = if quick { QUICK } else { FULL };
    if !guard::LINKED {
        println!("built without the library (tools/library): plain and tuned alone\n");
    }
    let mut groups = rows::all();
    let mut growths = Growth::all();
    let mut boards = Boards::new();
    groups.iter().for_each(|group| group.check());
    growths.iter().for_each(Growth::check);
    for run in 1..=effort.runs {
        eprintln!("bench: run {run} of {}", effort.runs);
        groups.iter_mut().for_each(|group| group.run(effort));
        boards.run(effort);
        growths.iter_mut().for_each(|growth| growth.run(effort));
    }
    println!(
        "rattle: the proved library; plain: the reference; tuned: safe Rust written for speed"
    );
    let of = if effort.runs == 1 { "of one run" } else { "medians of five runs" };
    println!("r/plain, r/tuned: rattle's time over the other's; {of}\n");
    groups.iter().for_each(|group| group.print());
    println!("{:<width$} {}", "board", timing::COLUMNS, width = rows::WIDTH);
    boards.print(rows::WIDTH);
    for growth in growths {
        println!();
        growth.print();
    }
}
