//! A line of a text sheet while it is read, word by word.

use super::words::{Kind, Word};
use crate::place::{Fault, Place};

/// The words of a line that are still to be read.
pub struct Line {
    words: std::vec::IntoIter<Word>,
    /// Just after the last word.
    end: Place,
}

impl Line {
    /// The line of these words; nothing if there are none.
    pub fn new(words: Vec<Word>) -> Option<Line> {
        let last = words.last()?;
        let column = last.place.column + last.text.chars().count();
        let end = Place { column, ..last.place };
        Some(Line { words: words.into_iter(), end })
    }

    /// The next word.
    pub fn peek(&self) -> Option<&Word> {
        self.words.as_slice().first()
    }

    /// Whether a word of the rest is this sign.
    pub fn has(&self, sign: &str) -> bool {
        self.words.as_slice().iter().any(|word| word.is(sign))
    }

    /// Takes the next word if it is as it should be.
    pub fn take_if(&mut self, fits: impl Fn(&Word) -> bool) -> Option<Word> {
        fits(self.peek()?).then(|| self.words.next()).flatten()
    }

    /// Takes this sign or keyword, if it is next.
    pub fn take(&mut self, text: &str) -> bool {
        self.take_if(|word| word.is(text)).is_some()
    }

    /// Where the next word stands, or the line's end.
    pub fn place(&self) -> Place {
        self.peek().map_or(self.end, |word| word.place)
    }

    /// A fault at the next word.
    pub fn fault(&self, what: impl Into<String>, expected: impl Into<String>) -> Fault {
        Fault::new(self.place(), what, expected)
    }

    /// The fault of a next word that is not what was expected.
    pub fn unlike(&self, expected: impl Into<String>) -> Fault {
        let what = match self.peek() {
            None => "the line ends too early".to_string(),
            Some(word) if word.kind == Kind::Name && !word.is_free_name() => {
                format!("the keyword `{}` cannot stand here", word.text)
            }
            Some(word) => format!("`{}` cannot stand here", word.text),
        };
        self.fault(what, expected)
    }

    /// A name that is no keyword.
    pub fn name(&mut self, expected: &str) -> Result<Word, Fault> {
        self.take_if(Word::is_free_name).ok_or_else(|| self.unlike(expected))
    }

    /// A number within bounds.
    pub fn number(&mut self, what: &str, least: u8, most: u8) -> Result<(u8, Place), Fault> {
        let expected = format!("a number from {least} to {most}");
        let place = self.place();
        let word =
            self.take_if(|word| word.kind == Kind::Number).ok_or_else(|| self.unlike(&expected))?;
        match word.text.parse::<u8>() {
            Ok(number) if (least..=most).contains(&number) => Ok((number, place)),
            _ => Err(Fault::new(place, format!("{what} is {}", word.text), expected)),
        }
    }

    /// Nothing more.
    pub fn end(&self) -> Result<(), Fault> {
        match self.peek() {
            None => Ok(()),
            Some(_) => Err(self.unlike("the end of the line")),
        }
    }
}
