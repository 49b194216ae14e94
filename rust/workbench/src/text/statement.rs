//! The statements of a text sheet: one a line.

use guard::sheet::{Mode, Role, Sheet};

use super::condition::Condition;
use super::line::Line;
use super::words::{Word, HEAD, STATEMENTS};
use crate::place::{Fault, Place};

/// A statement of the head.
#[derive(Clone, Debug, PartialEq, Eq)]
pub enum Head {
    Mode(Mode),
    In(Vec<Word>),
    Out(Vec<Word>),
    Horizon(u8, Place),
    Match(u8),
    Prefer(Vec<(Word, bool)>),
}

/// When a rule is taken.
#[derive(Clone, Debug, PartialEq, Eq)]
pub enum When {
    Holds(Condition),
    Else,
}

/// The opening of a monitor. A fault in the name or the weight does not close it.
#[derive(Clone, Debug, PartialEq, Eq)]
pub struct Opening {
    pub role: Role,
    pub name: Option<Word>,
    pub weight: u8,
}

/// The opening of a state.
#[derive(Clone, Debug, PartialEq, Eq)]
pub struct State {
    pub name: Option<Word>,
    pub start: Option<Place>,
    pub accepts: bool,
    /// Whether its line has a fault, so that a mark on it may not have been seen.
    pub faulty: bool,
}

/// A line with a fault, by what it was to be.
#[derive(Clone, Debug, PartialEq, Eq)]
pub enum Unread {
    /// A statement of the head, by its first word.
    Head(String),
    /// A rule.
    Rule,
    /// What begins with a word that no statement begins with.
    Other,
}

/// A line's statement.
#[derive(Clone, Debug, PartialEq, Eq)]
pub enum Statement {
    Head(Head),
    Monitor(Opening),
    State(State),
    Rule(When, Word),
    Unread(Unread),
}

impl Statement {
    /// Takes account of a character in the line that was passed over: what seemed to be no statement
    /// may well have been a rule, and a state may have another name.
    pub fn misspell(&mut self) {
        match self {
            Statement::Unread(unread @ Unread::Other) => *unread = Unread::Rule,
            Statement::State(state) => state.faulty = true,
            _ => {}
        }
    }
}

/// Reads a line that has a word. An opening is there even where a fault cuts it short, so that what
/// comes after it has its place.
pub fn read(line: &mut Line, faults: &mut Vec<Fault>) -> Statement {
    let keyword = line.peek().map_or(String::new(), |word| word.text.clone());
    let role = match keyword.as_str() {
        "hard" => Role::Hard,
        "soft" => Role::Soft,
        "limit" => Role::Limit,
        "state" => {
            line.take(&keyword);
            return Statement::State(State::read(line, faults));
        }
        _ => {
            let unread = Statement::Unread(unread(line, &keyword));
            let statement = match HEAD.contains(&keyword.as_str()) {
                true => read_head(line, &keyword),
                false => read_rule(line),
            };
            return statement.unwrap_or_else(|fault| {
                faults.push(fault);
                unread
            });
        }
    };
    line.take(&keyword);
    // A soft monitor without a weight is judged on with the least one.
    let mut opening = Opening { role, name: None, weight: u8::from(role == Role::Soft) };
    faults.extend(opening.read(line).err());
    Statement::Monitor(opening)
}

/// What a line was to be, if it has a fault.
fn unread(line: &Line, keyword: &str) -> Unread {
    match HEAD.contains(&keyword) {
        true => Unread::Head(keyword.to_string()),
        false if is_rule(line) => Unread::Rule,
        false => Unread::Other,
    }
}

/// Whether a line is meant as a rule: it has a word or a sign that no other line begins with or has.
fn is_rule(line: &Line) -> bool {
    let signs = ["->", "&", "|", "!", "(", ")"];
    line.peek().is_some_and(|word| word.is("else")) || signs.iter().any(|sign| line.has(sign))
}

impl Opening {
    fn read(&mut self, line: &mut Line) -> Result<(), Fault> {
        self.name = Some(line.name("a name for the monitor")?);
        if self.role == Role::Soft {
            if !line.take("weight") {
                return Err(line.unlike("`weight` and a number from 1 to 255"));
            }
            (self.weight, _) = line.number("the weight", 1, 255)?;
        } else if line.peek().is_some_and(|word| word.is("weight")) {
            let what = "a weight on a monitor that earns nothing";
            return Err(line.fault(what, "no weight: only soft monitors have one"));
        }
        line.end()
    }
}

impl State {
    /// Reads a name and marks. After a fault the marks that are still to come are looked for.
    fn read(line: &mut Line, faults: &mut Vec<Fault>) -> State {
        let mut state = State { name: None, start: None, accepts: false, faulty: false };
        let known = faults.len();
        match line.name("a name for the state") {
            Ok(name) => state.name = Some(name),
            Err(fault) => faults.push(fault),
        }
        while line.peek().is_some() {
            let unlike = line.unlike("`start`, `accept` or the end of the line");
            let place = line.place();
            let again = match line.take_if(|_| true) {
                Some(word) if word.is("start") => state.start.replace(place).is_some(),
                Some(word) if word.is("accept") => std::mem::replace(&mut state.accepts, true),
                _ => {
                    faults.push(unlike);
                    continue;
                }
            };
            if again {
                faults.push(Fault::new(place, "this mark stands twice on one state", "it once"));
            }
        }
        // One fault a line is enough.
        faults.truncate(known + 1);
        state.faulty = faults.len() > known;
        state
    }
}

fn read_head(line: &mut Line, keyword: &str) -> Result<Statement, Fault> {
    line.take(keyword);
    let head = match keyword {
        "mode" if line.take("controller") => Head::Mode(Mode::Controller),
        "mode" if line.take("shield") => Head::Mode(Mode::Shield),
        "mode" => return Err(line.unlike("`controller` or `shield`")),
        "in" => Head::In(read_list(line, |line| line.name("the name of a line in"))?),
        "out" => Head::Out(read_list(line, |line| line.name("the name of a line out"))?),
        "horizon" => {
            let (horizon, place) = line.number("the horizon", 0, Sheet::HORIZON_MOST)?;
            Head::Horizon(horizon, place)
        }
        "match" => Head::Match(line.number("the match weight", 0, 255)?.0),
        _ => Head::Prefer(read_list(line, |line| {
            let on = !line.take("!");
            Ok((line.name("the name of a line out, or `!` and one")?, on))
        })?),
    };
    line.end()?;
    Ok(Statement::Head(head))
}

/// One or more, separated by blanks or commas.
fn read_list<T>(
    line: &mut Line,
    read: impl Fn(&mut Line) -> Result<T, Fault>,
) -> Result<Vec<T>, Fault> {
    let mut list = vec![read(line)?];
    while line.take(",") || line.peek().is_some() {
        list.push(read(line)?);
    }
    Ok(list)
}

/// `CONDITION -> STATE` or `else -> STATE`.
fn read_rule(line: &mut Line) -> Result<Statement, Fault> {
    if !is_rule(line) {
        return Err(line.unlike(format!("{}, or CONDITION -> STATE", STATEMENTS.join(", "))));
    }
    let (when, expected) = match line.take("else") {
        true => (When::Else, "`->`"),
        false => (When::Holds(Condition::read(line)?), "`->`, `&` or `|`"),
    };
    if !line.take("->") {
        return Err(line.unlike(expected));
    }
    let to = line.name("the name of a state")?;
    line.end()?;
    Ok(Statement::Rule(when, to))
}
