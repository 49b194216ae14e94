//! From a draft of a monitor to its table.

use guard::sheet::Monitor;

use super::condition::{all_letters, Letters};
use super::draft::{DraftMonitor, DraftState, Rule};
use super::judge::{judge_distinct, some_of, Findings};
use super::statement::When;
use super::words::Word;
use crate::names::setting;
use crate::place::{Fault, Place};

/// The monitor and the names of its states; `lines` are those that it reads, where they are known.
pub fn judge_monitor(
    draft: &DraftMonitor,
    lines: Option<&[String]>,
    found: &mut Findings,
) -> (Monitor, Vec<String>) {
    let DraftMonitor { opening, place, states, faulty } = draft;
    if states.is_empty() && !faulty {
        let expected = "`state NAME start` and its rules below it";
        found.faults.push(Fault::new(*place, "a monitor without states", expected));
    }
    if let Some(beyond) = states.get(Monitor::STATES_MOST) {
        let what = format!("a monitor of {} states", states.len());
        found.faults.push(Fault::new(
            beyond.place,
            what,
            format!("at most {}", Monitor::STATES_MOST),
        ));
    }
    let words: Vec<Word> = states.iter().filter_map(|state| state.opening.name.clone()).collect();
    judge_distinct(&words, "state", found);
    let name =
        |state: &DraftState| state.opening.name.as_ref().map_or("", |word| &word.text).to_string();
    let names: Vec<String> = states.iter().map(name).collect();
    let start = judge_start(draft, found);
    // Where a line of a state has a fault, its name may be another.
    let told = !faulty && states.iter().all(|state| !state.opening.faulty);
    let mut rows = Vec::new();
    for state in states.iter().take(Monitor::STATES_MOST + 1) {
        if told {
            judge_targets(state, &names, found);
        }
        if let Some(lines) = lines {
            rows.extend(judge_rules(state, lines, &names, found));
        }
    }
    let monitor = Monitor {
        role: opening.role,
        weight: opening.weight,
        start: start as u8,
        next: rows,
        accepts: states.iter().map(|state| state.opening.accepts).collect(),
    };
    (monitor, names)
}

/// The one state that is marked as the start.
fn judge_start(draft: &DraftMonitor, found: &mut Findings) -> usize {
    let marks = draft.states.iter().enumerate();
    let mut marks = marks.filter_map(|(number, state)| Some((number, state.opening.start?)));
    let first = marks.next();
    for (_, again) in marks {
        let what = "a second start of this monitor";
        let line = first.map_or(0, |(_, place)| place.line);
        found.faults.push(Fault::new(again, what, format!("one alone, as on line {line}")));
    }
    // A state whose line has a fault may have been the start.
    let told = !draft.faulty && draft.states.iter().all(|state| !state.opening.faulty);
    if first.is_none() && told && !draft.states.is_empty() {
        let what = "a monitor without a start";
        found.faults.push(Fault::new(draft.place, what, "`start` on one of its states"));
    }
    first.map_or(0, |(number, _)| number)
}

/// A fault for each rule that leads to no state of the monitor.
fn judge_targets(state: &DraftState, names: &[String], found: &mut Findings) {
    for Rule { to, .. } in &state.rules {
        if !names.contains(&to.text) {
            let what = format!("the monitor has no state `{}`", to.text);
            let known: Vec<&str> =
                names.iter().map(String::as_str).filter(|name| !name.is_empty()).collect();
            let expected = format!("one of its states: {}", some_of(&known));
            found.faults.push(Fault::new(to.place, what, expected));
        }
    }
}

/// A state's row: for each letter the first rule whose condition holds is taken.
fn judge_rules(
    state: &DraftState,
    lines: &[String],
    names: &[String],
    found: &mut Findings,
) -> Vec<u8> {
    let mut row = vec![0; 1 << lines.len()];
    let mut left = all_letters(lines.len());
    let mut known = !state.faulty;
    for Rule { when, to, place } in &state.rules {
        let holds = match when {
            When::Else => left,
            When::Holds(condition) => {
                known &= !judge_names(condition.unknown(lines), lines, found);
                let holds = condition.letters(lines);
                if holds & left == 0 && known {
                    found.warnings.push(idle(*place, holds));
                }
                holds
            }
        };
        let next = names.iter().position(|name| *name == to.text).unwrap_or(0);
        for letter in (0..row.len()).filter(|letter| (holds & left) >> letter & 1 == 1) {
            row[letter] = next as u8;
        }
        left &= !holds;
    }
    if left != 0 && known {
        found.faults.push(uncovered(state, left, lines));
    }
    row
}

/// What is said of a condition that decides nothing.
fn idle(place: Place, holds: Letters) -> Fault {
    let what = match holds {
        0 => "warning: this condition never holds",
        _ => "warning: the conditions above this one take all its letters",
    };
    Fault::new(place, what, "a condition that holds for a letter that is left")
}

/// Whether there are such names; a fault for each.
fn judge_names<'a>(
    unknown: impl Iterator<Item = &'a Word>,
    lines: &[String],
    found: &mut Findings,
) -> bool {
    let mut any = false;
    for word in unknown {
        let what = format!("there is no line `{}` here", word.text);
        let expected = format!("one of {}", lines.join(", "));
        found.faults.push(Fault::new(word.place, what, expected));
        any = true;
    }
    any
}

/// The fault of a state with letters left over, with the lowest of them.
fn uncovered(state: &DraftState, left: Letters, lines: &[String]) -> Fault {
    let letter = setting(lines, left.trailing_zeros() as u8);
    let name = state.opening.name.as_ref().map_or("", |word| word.text.as_str());
    let what = format!("no rule of state `{name}` covers the letter {letter}");
    Fault::new(state.place, what, "a condition that holds there, or `else -> STATE`")
}
