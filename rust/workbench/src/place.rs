//! Places in a text, and what is told of them.

use std::fmt;

/// A place in a text: line and column, both from 1, columns in characters.
#[derive(Clone, Copy, Debug, PartialEq, Eq, PartialOrd, Ord, Hash)]
pub struct Place {
    pub line: usize,
    pub column: usize,
}

/// What is wrong at a place of a text, and what was expected there.
#[derive(Clone, Debug, PartialEq, Eq)]
pub struct Fault {
    pub place: Place,
    pub what: String,
    pub expected: String,
}

impl Fault {
    pub fn new(place: Place, what: impl Into<String>, expected: impl Into<String>) -> Fault {
        Fault { place, what: what.into(), expected: expected.into() }
    }

    /// The fault as it is printed, by the line that it is on: file, place, what is wrong, the line
    /// with a mark, what was expected.
    pub fn on_line<'a>(&'a self, file: &'a str, line: &'a str) -> Told<'a> {
        Told { fault: self, file, line }
    }
}

/// A fault with the file and the line that it is of.
pub struct Told<'a> {
    fault: &'a Fault,
    file: &'a str,
    line: &'a str,
}

/// How many characters of a line are shown before a mark, and how many from it on.
const BEFORE: usize = 80;
const AFTER: usize = 80;

impl fmt::Display for Told<'_> {
    fn fmt(&self, f: &mut fmt::Formatter<'_>) -> fmt::Result {
        let Fault { place, what, expected } = self.fault;
        let line = self.line.trim_end();
        let skipped = (place.column - 1).saturating_sub(BEFORE);
        let shown: String = line.chars().skip(skipped).take(BEFORE + AFTER).map(visible).collect();
        // Tabs stay tabs, so that the mark stands below its place.
        let blank = |c| if c == '\t' { '\t' } else { ' ' };
        let before = shown.chars().chain(std::iter::repeat(' ')).take(place.column - 1 - skipped);
        let indent: String = before.map(blank).collect();
        let cut = if skipped > 0 { ".. " } else { "" };
        let more = if line.chars().nth(skipped + BEFORE + AFTER).is_some() { " .." } else { "" };
        writeln!(f, "{}:{}:{}: {what}", self.file, place.line, place.column)?;
        writeln!(f, "    {cut}{shown}{more}")?;
        writeln!(f, "    {}{indent}^", " ".repeat(cut.len()))?;
        writeln!(f, "  expected {expected}")
    }
}

/// A character as it may be printed.
fn visible(c: char) -> char {
    match c {
        '\t' => c,
        _ if c.is_control() => '\u{FFFD}',
        _ => c,
    }
}
