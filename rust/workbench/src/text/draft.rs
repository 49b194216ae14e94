//! A text sheet as its statements put it together, before anything in it is judged.

use guard::sheet::Mode;

use super::statement::{Head, Opening, State, Statement, Unread, When};
use super::words::Word;
use crate::place::{Fault, Place};

/// A rule: when it is taken, and where it leads.
pub struct Rule {
    pub when: When,
    pub to: Word,
    pub place: Place,
}

/// A state with its rules.
pub struct DraftState {
    pub opening: State,
    pub place: Place,
    pub rules: Vec<Rule>,
    /// Whether a line of it could not be read, so that letters may seem to be left over.
    pub faulty: bool,
}

/// A monitor with its states.
pub struct DraftMonitor {
    pub opening: Opening,
    pub place: Place,
    pub states: Vec<DraftState>,
    /// Whether a line in it could not be read, so that states may seem to be missing.
    pub faulty: bool,
}

/// What an unread line leaves without a place.
#[derive(Clone, Copy, Debug, Default, PartialEq, Eq)]
enum Lost {
    /// Nothing.
    #[default]
    Nothing,
    /// What comes next: if it is a rule, the line was a state, and if it is a state, a monitor.
    Next,
    /// The rules of a state.
    Rules,
    /// The states of a monitor.
    States,
}

/// What the statements say, each with its place.
#[derive(Default)]
pub struct Draft {
    pub mode: Option<(Mode, Place)>,
    pub lines_in: Option<(Vec<Word>, Place)>,
    pub lines_out: Option<(Vec<Word>, Place)>,
    pub horizon: Option<(u8, Place)>,
    pub match_weight: Option<(u8, Place)>,
    pub prefer: Option<(Vec<(Word, bool)>, Place)>,
    pub monitors: Vec<DraftMonitor>,
    /// The first words of head lines that could not be read.
    pub faulty: Vec<String>,
    /// Whether a line that could not be read may have been of the head.
    pub misses_head: bool,
    lost: Lost,
}

impl Draft {
    /// Takes a line's statement.
    pub fn add(&mut self, statement: Statement, place: Place) -> Result<(), Fault> {
        match statement {
            Statement::Head(head) => self.add_head(head, place),
            Statement::Monitor(opening) => {
                self.lost = Lost::Nothing;
                let states = Vec::new();
                self.monitors.push(DraftMonitor { opening, place, states, faulty: false });
                Ok(())
            }
            Statement::State(opening) => self.add_state(opening, place),
            Statement::Rule(when, to) => self.add_rule(Rule { when, to, place }),
            Statement::Unread(unread) => {
                self.add_unread(unread);
                Ok(())
            }
        }
    }

    /// What an unread line would have said is not missed.
    fn add_unread(&mut self, unread: Unread) {
        if let Some(state) = self.last_state() {
            state.faulty = true;
        }
        match unread {
            Unread::Head(word) => self.faulty.push(word),
            // Within a state a line that is no opening was to be a rule.
            Unread::Rule => {}
            Unread::Other => {
                self.lost = Lost::Next;
                self.misses_head |= self.monitors.is_empty();
                if let Some(monitor) = self.monitors.last_mut() {
                    monitor.faulty = true;
                }
            }
        }
    }

    fn last_state(&mut self) -> Option<&mut DraftState> {
        self.monitors.last_mut()?.states.last_mut()
    }

    fn add_state(&mut self, opening: State, place: Place) -> Result<(), Fault> {
        if matches!(self.lost, Lost::Next | Lost::States) {
            self.lost = Lost::States;
            return Ok(());
        }
        self.lost = Lost::Nothing;
        let Some(monitor) = self.monitors.last_mut() else {
            let expected = "`hard NAME`, `soft NAME weight N` or `limit NAME` above it";
            return Err(Fault::new(place, "a state of no monitor", expected));
        };
        monitor.states.push(DraftState { opening, place, rules: Vec::new(), faulty: false });
        Ok(())
    }

    fn add_rule(&mut self, rule: Rule) -> Result<(), Fault> {
        if self.lost != Lost::Nothing {
            self.lost = if self.lost == Lost::Next { Lost::Rules } else { self.lost };
            return Ok(());
        }
        let Some(state) = self.last_state() else {
            return Err(Fault::new(rule.place, "a rule of no state", "`state NAME` above it"));
        };
        if matches!(state.rules.last(), Some(Rule { when: When::Else, .. })) {
            let what = "a rule after `else`, which takes every letter";
            return Err(Fault::new(rule.place, what, "`else` as the last rule of a state"));
        }
        state.rules.push(rule);
        Ok(())
    }

    /// Takes a line of the head; where it is out of place or said before, with a fault.
    fn add_head(&mut self, head: Head, place: Place) -> Result<(), Fault> {
        let late = !self.monitors.is_empty();
        let (word, earlier) = match head {
            Head::Mode(mode) => ("mode", put(&mut self.mode, mode, place)),
            Head::In(names) => ("in", put(&mut self.lines_in, names, place)),
            Head::Out(names) => ("out", put(&mut self.lines_out, names, place)),
            Head::Horizon(horizon, at) => ("horizon", put(&mut self.horizon, horizon, at)),
            Head::Match(weight) => ("match", put(&mut self.match_weight, weight, place)),
            Head::Prefer(order) => ("prefer", put(&mut self.prefer, order, place)),
        };
        if let Some(earlier) = earlier {
            let what = format!("`{word}` is said a second time, after line {}", earlier.line);
            return Err(Fault::new(place, what, "each statement of the head once"));
        }
        if late {
            let what = format!("`{word}` after a monitor");
            return Err(Fault::new(place, what, "the head before the first monitor"));
        }
        Ok(())
    }
}

/// Puts a value in its place, or tells where the one stands that is there.
fn put<T>(slot: &mut Option<(T, Place)>, value: T, place: Place) -> Option<Place> {
    match slot {
        Some((_, earlier)) => Some(*earlier),
        None => {
            *slot = Some((value, place));
            None
        }
    }
}
