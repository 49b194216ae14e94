//! A line of a text sheet in words: names, numbers and signs.

use crate::place::{Fault, Place};

/// The words that name nothing.
pub const RESERVED: [&str; 23] = [
    "mode",
    "controller",
    "shield",
    "in",
    "out",
    "horizon",
    "match",
    "prefer",
    "hard",
    "soft",
    "limit",
    "weight",
    "state",
    "start",
    "accept",
    "else",
    "sound",
    "differ",
    // The lines that `guard run` takes beside inputs, and those that a board will.
    "load",
    "unload",
    "rewind",
    "mark",
    "recall",
];

/// The words that a statement begins with: a text that has one of them is taken for a text sheet.
pub const STATEMENTS: [&str; 10] =
    ["mode", "in", "out", "horizon", "match", "prefer", "hard", "soft", "limit", "state"];

/// Those of the head.
pub const HEAD: [&str; 6] = ["mode", "in", "out", "horizon", "match", "prefer"];

/// What a line is made of.
const EXPECTED: &str =
    "names (a letter, then letters, digits and `_`), numbers, and the signs , ! & | ( ) ->";

/// What a word is.
#[derive(Clone, Copy, Debug, PartialEq, Eq)]
pub enum Kind {
    /// A letter, then letters, digits and `_`; keywords too.
    Name,
    /// Decimal digits.
    Number,
    /// One of `,` `!` `&` `|` `(` `)` `/` `->`.
    Sign,
}

/// A word of a text, with its place.
#[derive(Clone, Debug, PartialEq, Eq)]
pub struct Word {
    pub kind: Kind,
    pub text: String,
    pub place: Place,
}

impl Word {
    /// Whether it is this sign or keyword.
    pub fn is(&self, text: &str) -> bool {
        self.text == text
    }

    /// Whether it may name a line, a state or a monitor.
    pub fn is_free_name(&self) -> bool {
        self.kind == Kind::Name && !RESERVED.contains(&self.text.as_str())
    }
}

/// A line's text without its comment.
pub fn uncommented(line: &str) -> &str {
    line.split_once('#').map_or(line, |(before, _)| before)
}

/// The words of a line with this number; a character that begins none is a fault, and passed over.
pub fn words(line: &str, number: usize, faults: &mut Vec<Fault>) -> Vec<Word> {
    let characters: Vec<char> = uncommented(line).chars().collect();
    let mut words = Vec::new();
    let mut at = 0;
    while let Some(&first) = characters.get(at) {
        let place = Place { line: number, column: at + 1 };
        let mut length = 1;
        if let Some((kind, found)) = word_at(&characters[at..]) {
            length = found;
            let text = characters[at..at + length].iter().collect();
            words.push(Word { kind, text, place });
        } else if !first.is_ascii_whitespace() {
            let what = format!("`{}` means nothing here", first.escape_debug());
            faults.push(Fault::new(place, what, EXPECTED));
        }
        at += length;
    }
    words
}

/// The kind and the length of the word that the characters begin with.
fn word_at(characters: &[char]) -> Option<(Kind, usize)> {
    let run = |part: fn(&char) -> bool| characters.iter().take_while(|c| part(c)).count();
    match characters {
        ['-', '>', ..] => Some((Kind::Sign, 2)),
        [',' | '!' | '&' | '|' | '(' | ')' | '/', ..] => Some((Kind::Sign, 1)),
        [c, ..] if c.is_ascii_digit() => Some((Kind::Number, run(|c| c.is_ascii_alphanumeric()))),
        [c, ..] if c.is_ascii_alphabetic() => {
            Some((Kind::Name, run(|c| c.is_ascii_alphanumeric() || *c == '_')))
        }
        _ => None,
    }
}
