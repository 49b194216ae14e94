//! What product states and guard states stand for, by the names of monitor states.
//!
//! The library numbers product states and does not say which monitor states they are made of. The
//! reference does; it is asked only where its supervisor table is the library's, byte for byte, or of
//! an unrealizable sheet its play.

use guard::sheet::{Mode, Role};
use guard::{Forced, Guard, Supervisor};
use reference::{Product, Sheet};

use crate::names::MonitorNames;
use crate::source::Source;
use crate::text::Named;

/// A monitor and the state it is in, by names.
pub struct MonitorState<'a> {
    pub monitor: &'a str,
    pub state: &'a str,
}

/// What comes of a shield's proposal at a product state.
#[derive(Clone, Copy, Debug, PartialEq, Eq)]
pub struct Proposed {
    pub output: u8,
    pub sound: bool,
    /// The product state where it is given; nothing if that is broken.
    pub given: Option<usize>,
}

/// The product states of a sheet, with their names.
pub struct States {
    pub named: Named,
    pub product: Product,
    read: Sheet,
}

impl States {
    /// Nothing where reference and library differ.
    pub fn of(source: &Source, supervisor: &Supervisor) -> Option<States> {
        let table = reference::supervisor_table(&source.bytes).ok()?;
        (table == supervisor.as_bytes()).then(|| States::of_sheet(source))?
    }

    /// Of an unrealizable sheet; nothing where reference and library differ.
    pub fn of_forced(source: &Source, forced: &Forced) -> Option<States> {
        let play = reference::forced_bytes(&source.bytes).ok()?;
        (play == forced.as_bytes()).then(|| States::of_sheet(source))?
    }

    fn of_sheet(source: &Source) -> Option<States> {
        let read = Sheet::parse(&source.bytes).ok()?;
        let product = Product::explore(&read).ok()?;
        Some(States { named: source.named()?, product, read })
    }

    /// The inputs by names, in order, and all of one width.
    pub fn inputs(&self) -> Vec<String> {
        let Named { sheet, names } = &self.named;
        let inputs = (0..1 << sheet.inputs()).map(|input| names.input(sheet.mode, input));
        let inputs: Vec<String> = inputs.collect();
        let width = inputs.iter().map(String::len).max().unwrap_or(0);
        inputs.into_iter().map(|input| format!("{input:<width$}")).collect()
    }

    /// What a shield's input proposes at a product state, and what comes of it.
    pub fn proposed(&self, state: usize, input: u8) -> Proposed {
        let output = input >> self.read.site_lines;
        let sound = self.read.is_sound(self.product.tuple(state), input);
        let given = self.product.edge(state, input.into(), output.into()).next();
        Proposed { output, sound, given }
    }

    /// The monitors and their states, by names in order, of a product state; then those of the copies
    /// that read the proposal.
    pub fn monitors(&self, state: usize) -> (Vec<MonitorState<'_>>, Vec<MonitorState<'_>>) {
        let Named { sheet, names } = &self.named;
        let copied = |monitor: &&usize| {
            sheet.mode == Mode::Shield && sheet.monitors[**monitor].role == Role::Hard
        };
        let all: Vec<usize> = (0..sheet.monitors.len()).collect();
        let mut states = self.product.tuple(state).iter();
        let mut place = |&monitor: &usize| {
            let MonitorNames { name, states: known } = &names.monitors[monitor];
            let state = states.next().map_or(0, |&state| usize::from(state));
            MonitorState { monitor: name, state: &known[state] }
        };
        let own = all.iter().map(&mut place).collect();
        (own, all.iter().filter(copied).map(&mut place).collect())
    }

    /// The monitors of a product state by name, each with its state, after a colon; nothing where
    /// there are none.
    pub fn described(&self, state: usize) -> String {
        let told = |places: Vec<MonitorState>| {
            let each =
                places.iter().map(|MonitorState { monitor, state }| format!("{monitor} {state}"));
            each.collect::<Vec<_>>().join(", ")
        };
        let (monitors, copies) = self.monitors(state);
        match (monitors.is_empty(), copies.is_empty()) {
            (true, _) => String::new(),
            (_, true) => format!(": {}", told(monitors)),
            _ => format!(": {}; proposal {}", told(monitors), told(copies)),
        }
    }

    /// The monitors' states in order; those of the copies in brackets.
    pub fn label(&self, state: usize) -> Vec<String> {
        self.in_order(state, |place| place.state)
    }

    /// The monitors' names in that order.
    pub fn heads(&self) -> Vec<String> {
        self.in_order(0, |place| place.monitor)
    }

    fn in_order(&self, state: usize, word: fn(MonitorState) -> &str) -> Vec<String> {
        let (monitors, copies) = self.monitors(state);
        let own = monitors.into_iter().map(|place| word(place).to_string());
        own.chain(copies.into_iter().map(|place| format!("({})", word(place)))).collect()
    }

    /// The product state of each guard state: the guard's outputs are followed from the start, and
    /// every way must lead to the same one.
    pub fn of_guard(&self, guard: &Guard) -> Option<Vec<usize>> {
        let mut found = vec![None; guard.states()];
        found[0] = Some(0);
        for state in 0..guard.states() {
            for input in 0..1 << guard.inputs() {
                let (output, next) = guard.entry(state, input);
                let edge = self.product.edge(found[state]?, input.into(), output.into());
                let to = edge.next()?;
                if *found[next].get_or_insert(to) != to {
                    return None;
                }
            }
        }
        found.into_iter().collect()
    }
}
