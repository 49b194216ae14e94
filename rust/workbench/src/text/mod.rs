//! The text sheet: a sheet in words. docs/SHEETS.md has its grammar.

mod condition;
mod cover;
mod draft;
mod judge;
pub mod line;
mod monitor;
mod show;
mod statement;
pub mod words;

use guard::sheet::Sheet;

pub use condition::Letters;
pub use show::show;

use crate::names::Names;
use crate::place::{Fault, Place};
use draft::Draft;
use judge::Findings;
use line::Line;

/// A sheet, and what its parts are called.
#[derive(Clone, Debug, PartialEq, Eq)]
pub struct Named {
    pub sheet: Sheet,
    pub names: Names,
}

/// The sheet that a text is, with what can hardly be meant in it; or all its faults, in the order of
/// their places.
pub fn compile(text: &str) -> Result<(Named, Vec<Fault>), Vec<Fault>> {
    let text = text.strip_prefix(BYTE_ORDER_MARK).unwrap_or(text);
    let mut found = Findings::default();
    let mut draft = Draft::default();
    // The last line that says something.
    let mut end = Place { line: 1, column: 1 };
    for (index, text) in text.lines().enumerate() {
        let mut faults = Vec::new();
        let words = words::words(text, index + 1, &mut faults);
        let spelled = faults.is_empty();
        if let Some(mut line) = Line::new(words) {
            let place = line.place();
            let mut statement = statement::read(&mut line, &mut faults);
            if !spelled {
                statement.misspell();
            }
            faults.extend(draft.add(statement, place).err());
            end = place;
        }
        // After a character that means nothing the rest of its line is not judged.
        faults.truncate(if spelled { faults.len() } else { 1 });
        found.faults.append(&mut faults);
    }
    let named = judge::judge(&draft, end, &mut found);
    if found.faults.is_empty() {
        return Ok((named, found.warnings));
    }
    found.faults.sort_by_key(|fault| fault.place);
    Err(found.faults)
}

/// What some editors put before a text.
pub const BYTE_ORDER_MARK: char = '\u{FEFF}';

/// A condition that holds for exactly these letters of the lines; nothing where it holds always.
pub fn condition_for(letters: Letters, lines: &[String]) -> Option<String> {
    (letters != condition::all_letters(lines.len())).then(|| cover::condition(letters, lines))
}
