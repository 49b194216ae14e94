//! A tray lock: one line in (a tray is there), one line out (open). Never open twice running; open
//! when a tray is there, if that can be. Where it must be, two trays running beat the sheet.
//!
//! Run with `cargo run --offline --example tray`, after `tools/library`.

use guard::sheet::Sheet;
use guard::{Board, Forced, Forecast, Guard, Refusal, Supervisor, Work};

/// A letter is tray + 2 x open; state 2 is the break.
fn never_twice(state: u8, letter: u8) -> u8 {
    match (state, letter >> 1) {
        (2, _) => 2,
        (_, 1) => state + 1,
        _ => 0,
    }
}

fn main() -> Result<(), Refusal> {
    let as_the_tray = |_, letter: u8| u8::from(letter == 0 || letter == 3);
    let sheet = Sheet::controller(1, 1)
        .horizon(1)
        .hard(3, |state| state < 2, never_twice)
        .soft(3, 2, |state| state == 1, as_the_tray)
        .to_bytes();
    let mut work = Work::new();
    let supervisor = Supervisor::make(&sheet, &mut work)?;
    for state in 0..supervisor.states() {
        let masks: Vec<u8> =
            (0..1 << supervisor.inputs()).map(|i| supervisor.mask(state, i)).collect();
        println!("product state {state}: kept {}, masks {masks:?}", supervisor.is_kept(state));
    }
    for (state, prospect) in Forecast::make(&sheet, &mut work)?.iter().enumerate() {
        println!("product state {state}: {prospect:?}");
    }
    let guard = Guard::make(&sheet, &mut work)?;
    let mut board = Board::new();
    board.load(&guard)?;
    print!("{}", guard.listing()?);
    for tray in [1, 1, 1, 0, 1] {
        println!("tray {tray}: open {}", board.step(&guard, tray)?);
    }
    println!("{} steps", board.steps());
    board.unload()?;
    beaten(&mut work)
}

/// The lock that must be open with a tray: which trays force a break, and at the last what closed and open
/// break.
fn beaten(work: &mut Work) -> Result<(), Refusal> {
    let sheet = Sheet::controller(1, 1)
        .hard(3, |state| state < 2, never_twice)
        .hard(2, |state| state == 0, |_, letter| u8::from(letter == 1))
        .to_bytes();
    let forced = Forced::make(&sheet, work)?;
    for (state, force) in forced.iter().enumerate() {
        let broken = [0, 1].map(|output| forced.broken_by(state, output));
        println!("product state {state}: {force:?}, broken by {broken:?}");
    }
    Ok(())
}
