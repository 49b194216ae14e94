//! Who answers: the reference or the library, behind the same calls.

use std::io::Write;
use std::path::{Path, PathBuf};
use std::process::{Command, Stdio};

use guard::{calls, Guard, Work};
use reference::{Averages, Board, Prospect};

/// A forecast card as the library writes it.
pub type Card = [u64; calls::CARD_WORDS];

/// The calls of document 01, answered by numbers.
pub trait Subject {
    /// Makes a supervisor table: number and length.
    fn make_supervisor(&mut self, sheet: &[u8], result: &mut [u8]) -> (u32, u64);
    /// Makes a guard table: number and length.
    fn make_guard(&mut self, sheet: &[u8], result: &mut [u8]) -> (u32, u64);
    /// Makes a forecast card: number.
    fn forecast(&mut self, sheet: &[u8], card: &mut Card) -> u32;
    /// Makes the play that beats a sheet: number and length.
    fn forced(&mut self, sheet: &[u8], result: &mut [u8]) -> (u32, u64);
    /// Loads: number.
    fn load(&mut self, board: &mut Board, table: &[u8]) -> u32;
    /// Steps: number and output.
    fn step(&mut self, board: &mut Board, table: &[u8], input: u8) -> (u32, u32);
    /// Rewinds: number.
    fn rewind(&mut self, board: &mut Board) -> u32;
    /// Unloads: number.
    fn unload(&mut self, board: &mut Board) -> u32;
    /// What the listing program prints.
    fn list(&mut self, sheet: &[u8]) -> String;
}

/// The number of an answer: 0 if it is not refused.
pub fn number<T>(answer: &Result<T, reference::Refusal>) -> u32 {
    answer.as_ref().map_or_else(|refusal| refusal.number(), |_| 0)
}

/// The card of the reference's forecast: what is not there is lost, and of a refusal that is all.
pub fn card_of(forecast: &Result<Vec<Prospect>, reference::Refusal>) -> Card {
    let prospects = forecast.as_deref().unwrap_or_default();
    let mut card = [calls::LOST; calls::CARD_WORDS];
    card[0] = prospects.len() as u64;
    for (entry, prospect) in card[1..].chunks_exact_mut(2).zip(prospects) {
        if let Prospect::Worth(Averages { best, least }) = prospect {
            entry.copy_from_slice(&[best.to_bits(), least.to_bits()]);
        }
    }
    card
}

/// The independent reference.
pub struct Reference;

impl Subject for Reference {
    fn make_supervisor(&mut self, sheet: &[u8], result: &mut [u8]) -> (u32, u64) {
        let made = reference::make_supervisor(sheet, result);
        (number(&made), made.map_or(0, |m| m.length as u64))
    }

    fn make_guard(&mut self, sheet: &[u8], result: &mut [u8]) -> (u32, u64) {
        let made = reference::make_guard(sheet, result);
        (number(&made), made.map_or(0, |m| m.length as u64))
    }

    fn forecast(&mut self, sheet: &[u8], card: &mut Card) -> u32 {
        let forecast = reference::forecast(sheet);
        *card = card_of(&forecast);
        number(&forecast)
    }

    fn forced(&mut self, sheet: &[u8], result: &mut [u8]) -> (u32, u64) {
        let made = reference::make_forced(sheet, result);
        (number(&made), made.map_or(0, |m| m.length as u64))
    }

    fn load(&mut self, board: &mut Board, table: &[u8]) -> u32 {
        number(&board.load(table))
    }

    fn step(&mut self, board: &mut Board, table: &[u8], input: u8) -> (u32, u32) {
        let answer = board.step(table, input);
        (number(&answer), answer.map_or(0, u32::from))
    }

    fn rewind(&mut self, board: &mut Board) -> u32 {
        number(&board.rewind())
    }

    fn unload(&mut self, board: &mut Board) -> u32 {
        number(&board.unload())
    }

    fn list(&mut self, sheet: &[u8]) -> String {
        reference::list(sheet)
    }
}

/// The proved library, and the listing program where there is one.
pub struct Library {
    work: Work,
    listing: Option<PathBuf>,
}

impl Library {
    /// Without a listing program the library's own listing is taken.
    pub fn new(listing: Option<PathBuf>) -> Library {
        Library { work: Work::new(), listing }
    }
}

/// The board's bytes as the library takes them.
pub fn to_bytes(board: &Board) -> [u8; calls::BOARD_BYTES] {
    let fields = guard::Fields {
        loaded: board.loaded,
        mode: board.mode,
        inputs: board.inputs,
        outputs: board.outputs,
        count: board.count,
        place: board.place,
        steps: board.steps,
        deviations: board.deviations,
    };
    guard::Board::from(fields).to_bytes()
}

/// The reference's board of the library's bytes.
pub fn from_bytes(bytes: [u8; calls::BOARD_BYTES]) -> Board {
    let fields = guard::Board::from_bytes(bytes).fields();
    Board {
        loaded: fields.loaded,
        mode: fields.mode,
        inputs: fields.inputs,
        outputs: fields.outputs,
        count: fields.count,
        place: fields.place,
        steps: fields.steps,
        deviations: fields.deviations,
    }
}

/// A call of the library on a board of the reference's.
fn on_bytes<T>(board: &mut Board, call: impl FnOnce(&mut [u8; calls::BOARD_BYTES]) -> T) -> T {
    let mut bytes = to_bytes(board);
    let answer = call(&mut bytes);
    *board = from_bytes(bytes);
    answer
}

impl Subject for Library {
    fn make_supervisor(&mut self, sheet: &[u8], result: &mut [u8]) -> (u32, u64) {
        let mut figures = [u64::MAX; calls::FIGURES];
        let number = calls::make_supervisor(sheet, result, &mut self.work, &mut figures);
        (number, figures[0])
    }

    fn make_guard(&mut self, sheet: &[u8], result: &mut [u8]) -> (u32, u64) {
        let mut figures = [u64::MAX; calls::FIGURES];
        let number = calls::make_guard(sheet, result, &mut self.work, &mut figures);
        (number, figures[0])
    }

    fn forecast(&mut self, sheet: &[u8], card: &mut Card) -> u32 {
        calls::forecast(sheet, &mut self.work, card)
    }

    fn forced(&mut self, sheet: &[u8], result: &mut [u8]) -> (u32, u64) {
        let mut figures = [u64::MAX; calls::FIGURES];
        let number = calls::forced(sheet, result, &mut self.work, &mut figures);
        (number, figures[0])
    }

    fn load(&mut self, board: &mut Board, table: &[u8]) -> u32 {
        on_bytes(board, |bytes| calls::load(bytes, table))
    }

    fn step(&mut self, board: &mut Board, table: &[u8], input: u8) -> (u32, u32) {
        on_bytes(board, |bytes| calls::step(bytes, table, input))
    }

    fn rewind(&mut self, board: &mut Board) -> u32 {
        on_bytes(board, calls::rewind)
    }

    fn unload(&mut self, board: &mut Board) -> u32 {
        on_bytes(board, calls::unload)
    }

    fn list(&mut self, sheet: &[u8]) -> String {
        if let Some(program) = &self.listing {
            return listing_of(program, sheet);
        }
        if sheet.len() > reference::SHEET_BYTES_MOST {
            return "too long\n".to_string();
        }
        let listing = Guard::make(sheet, &mut self.work).and_then(|guard| guard.listing());
        listing.unwrap_or_else(|refusal| format!("refused {}\n", refusal.number()))
    }
}

/// What the listing program writes for a sheet.
fn listing_of(program: &Path, sheet: &[u8]) -> String {
    let mut child = Command::new(program)
        .stdin(Stdio::piped())
        .stdout(Stdio::piped())
        .spawn()
        .unwrap_or_else(|error| panic!("{}: {error}", program.display()));
    // The program may stop reading early, where the sheet is too long.
    let mut input = child.stdin.take().expect("standard input is piped");
    let _ = input.write_all(sheet);
    drop(input);
    let output = child.wait_with_output().expect("the program's output is read");
    String::from_utf8_lossy(&output.stdout).into_owned()
}
