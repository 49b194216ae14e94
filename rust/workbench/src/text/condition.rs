//! Conditions on letters: names of lines joined by `!`, `&`, `|` and parentheses.

use super::line::Line;
use super::words::Word;
use crate::place::Fault;

/// How deep parentheses and `!` may be nested.
const DEPTH_MOST: usize = 64;

/// A set of letters, bit l for letter l: at most six lines make at most 64 letters.
pub type Letters = u64;

/// All letters of so many lines.
pub fn all_letters(lines: usize) -> Letters {
    Letters::MAX >> (64 - (1 << lines))
}

/// The letters of so many lines in which the line is on.
pub fn letters_with(line: usize, lines: usize) -> Letters {
    (0..1 << lines).filter(|letter: &u32| letter >> line & 1 == 1).fold(0, |set, l| set | 1 << l)
}

/// A part of a condition; operators come after what they are of.
#[derive(Clone, Debug, PartialEq, Eq)]
enum Part {
    Line(Word),
    Not,
    And,
    Or,
}

/// A condition, as its parts in postfix order.
#[derive(Clone, Debug, Default, PartialEq, Eq)]
pub struct Condition(Vec<Part>);

impl Condition {
    /// Reads a condition: `!` binds strongest, then `&`, then `|`.
    pub fn read(line: &mut Line) -> Result<Condition, Fault> {
        let mut condition = Condition::default();
        condition.read_or(line, 0)?;
        Ok(condition)
    }

    fn read_or(&mut self, line: &mut Line, depth: usize) -> Result<(), Fault> {
        self.read_and(line, depth)?;
        while line.take("|") {
            self.read_and(line, depth)?;
            self.0.push(Part::Or);
        }
        Ok(())
    }

    fn read_and(&mut self, line: &mut Line, depth: usize) -> Result<(), Fault> {
        self.read_not(line, depth)?;
        while line.take("&") {
            self.read_not(line, depth)?;
            self.0.push(Part::And);
        }
        Ok(())
    }

    fn read_not(&mut self, line: &mut Line, depth: usize) -> Result<(), Fault> {
        if depth > DEPTH_MOST {
            let what = format!("more than {DEPTH_MOST} parentheses and `!` within each other");
            return Err(line.fault(what, "a condition of fewer levels"));
        }
        if line.take("!") {
            self.read_not(line, depth + 1)?;
            self.0.push(Part::Not);
        } else if line.take("(") {
            self.read_or(line, depth + 1)?;
            if !line.take(")") {
                return Err(line.unlike("`)`, `&` or `|`"));
            }
        } else {
            let reads = |word: &Word| word.is_free_name() || word.is("sound") || word.is("differ");
            let name =
                line.take_if(reads).ok_or_else(|| line.unlike("the name of a line, `!` or `(`"))?;
            self.0.push(Part::Line(name));
        }
        Ok(())
    }

    /// The names in it that are none of these lines.
    pub fn unknown<'a>(&'a self, lines: &'a [String]) -> impl Iterator<Item = &'a Word> {
        self.0.iter().filter_map(|part| match part {
            Part::Line(word) if !lines.contains(&word.text) => Some(word),
            _ => None,
        })
    }

    /// The letters in which it holds, line j being bit j; a name that is none of the lines is off.
    pub fn letters(&self, lines: &[String]) -> Letters {
        let mut stack: Vec<Letters> = Vec::new();
        for part in &self.0 {
            let value = match part {
                Part::Line(word) => lines
                    .iter()
                    .position(|line| *line == word.text)
                    .map_or(0, |line| letters_with(line, lines.len())),
                Part::Not => !stack.pop().unwrap_or(0) & all_letters(lines.len()),
                Part::And => stack.pop().unwrap_or(0) & stack.pop().unwrap_or(0),
                Part::Or => stack.pop().unwrap_or(0) | stack.pop().unwrap_or(0),
            };
            stack.push(value);
        }
        stack.pop().unwrap_or(0)
    }
}
