//! The play that beats a sheet, from the start on: the states that it comes to, and what each output leads
//! to.
//!
//! The library says the inputs, and at the last step the monitors. Where outputs lead before that, and what
//! some of them break, is told by the reference's product, and only where its play is the library's.

use std::collections::BTreeSet;

use guard::{Force, Forced};
use reference::Product;

use crate::source::Source;
use crate::states::States;

/// What an output leads to.
pub enum Answer {
    /// A break of this monitor, of several the first in the sheet's order.
    Break(usize),
    /// A state with fewer steps left.
    State(usize, Force),
}

/// A state that the play comes to, and what each output leads to.
pub struct Turn {
    pub state: usize,
    pub force: Force,
    pub answers: Vec<Answer>,
}

/// The turns, in the order in which the play comes to them.
pub struct Play {
    pub states: States,
    pub turns: Vec<Turn>,
}

impl Turn {
    /// Nothing if the state, or one that an output leads to, is kept.
    fn of(state: usize, forced: &Forced, product: &Product) -> Option<Turn> {
        let force = forced.get(state)?;
        let answer = |output| {
            let edge = product.edge(state, force.input.into(), output);
            if let Some(next) = edge.next() {
                return Some(Answer::State(next, forced.get(next)?));
            }
            let monitor = match force.steps {
                1 => forced.broken_by(state, output as u8),
                _ => edge.broken_by(),
            };
            monitor.map(Answer::Break)
        };
        let answers = (0..product.output_count()).map(answer).collect::<Option<_>>()?;
        Some(Turn { state, force, answers })
    }
}

impl Play {
    /// Nothing where reference and library differ.
    pub fn of(source: &Source, forced: &Forced) -> Option<Play> {
        let states = States::of_forced(source, forced)?;
        let mut order = vec![0];
        let mut turns = Vec::new();
        while let Some(&state) = order.get(turns.len()) {
            let turn = Turn::of(state, forced, &states.product)?;
            for answer in &turn.answers {
                match answer {
                    Answer::State(next, _) if !order.contains(next) => order.push(*next),
                    _ => {}
                }
            }
            turns.push(turn);
        }
        Some(Play { states, turns })
    }

    /// The start.
    pub fn first(&self) -> &Turn {
        &self.turns[0]
    }

    /// What it comes to: the monitors of which one is broken in the end, and in how many steps.
    pub fn summary(&self) -> String {
        let broken = |answer: &Answer| match answer {
            Answer::Break(monitor) => Some(*monitor),
            Answer::State(..) => None,
        };
        let answers = self.turns.iter().flat_map(|turn| &turn.answers);
        let monitors: BTreeSet<usize> = answers.filter_map(broken).collect();
        let names: Vec<&str> = monitors.into_iter().map(|monitor| self.monitor(monitor)).collect();
        format!("a break of {} is forced in {}", any_of(&names), steps(self.first().force.steps))
    }

    /// A monitor's name.
    pub fn monitor(&self, monitor: usize) -> &str {
        &self.states.named.names.monitors[monitor].name
    }

    /// An input's name.
    pub fn input(&self, input: u8) -> String {
        let named = &self.states.named;
        named.names.input(named.sheet.mode, input)
    }
}

/// So many steps.
pub fn steps(count: u16) -> String {
    format!("{count} {}", if count == 1 { "step" } else { "steps" })
}

/// `a, b or c`.
fn any_of(names: &[&str]) -> String {
    match names {
        [most @ .., last] if !most.is_empty() => format!("{} or {last}", most.join(", ")),
        _ => names.concat(),
    }
}

#[cfg(test)]
mod tests {
    use super::*;

    #[test]
    fn names_are_joined_by_commas_and_or() {
        let all = ["lock", "lamp", "limit2"];
        let joined = ["", "lock", "lock or lamp", "lock, lamp or limit2"];
        assert_eq!([0, 1, 2, 3].map(|count| any_of(&all[..count])), joined);
    }
}
