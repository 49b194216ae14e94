//! From a draft to the sheet, with every fault that is in it.

use std::collections::HashMap;

use guard::sheet::{Literal, Mode, Role, Sheet};

use super::draft::{Draft, DraftMonitor};
use super::monitor::judge_monitor;
use super::words::Word;
use super::Named;
use crate::names::{MonitorNames, Names};
use crate::place::{Fault, Place};

/// What judging a draft comes to besides the sheet.
#[derive(Default)]
pub struct Findings {
    /// What makes it no sheet.
    pub faults: Vec<Fault>,
    /// What can hardly be meant.
    pub warnings: Vec<Fault>,
}

/// The sheet that the draft is, as far as it can be told; it stands only where there is no fault.
pub fn judge(draft: &Draft, end: Place, found: &mut Findings) -> Named {
    judge_missing(draft, end, found);
    let lines_in = judge_lines(draft.lines_in.as_ref(), Sheet::LINES_IN_MOST, "in", found);
    let lines_out = judge_lines(draft.lines_out.as_ref(), Sheet::LINES_OUT_MOST, "out", found);
    judge_distinct(&[&lines_in[..], &lines_out[..]].concat(), "line", found);
    let texts = |words: &[Word]| words.iter().map(|word| word.text.clone()).collect::<Vec<_>>();
    let mode = draft.mode.map_or(Mode::Controller, |(mode, _)| mode);
    let new = if mode == Mode::Shield { Sheet::shield } else { Sheet::controller };
    let mut named = Named {
        sheet: new(lines_in.len() as u8, lines_out.len() as u8),
        names: Names {
            lines_in: texts(&lines_in),
            lines_out: texts(&lines_out),
            monitors: Vec::new(),
        },
    };
    let fits = judge_size(draft, &named.sheet, found);
    named.sheet.horizon = judge_horizon(draft, &named.sheet, found);
    named.sheet.match_weight = judge_match(draft, mode, found);
    named.sheet.prefer = judge_order(draft, found);
    // Without all lines, or with too many, conditions cannot be held against the letters.
    let faulty = |line: &str| draft.faulty.iter().any(|faulty| faulty == line);
    let whole = |list: &Option<(Vec<Word>, Place)>, kept: &[Word]| {
        list.as_ref().is_none_or(|(words, _)| words.len() == kept.len())
    };
    let lists = whole(&draft.lines_in, &lines_in) && whole(&draft.lines_out, &lines_out);
    let heard = !faulty("in") && !faulty("out") && (draft.lines_in.is_some() || !draft.misses_head);
    let readable = fits && lists && heard && draft.lines_out.is_some();
    judge_monitors(draft, readable, &mut named, found);
    named
}

/// A fault for each statement of the head that is not there.
fn judge_missing(draft: &Draft, end: Place, found: &mut Findings) {
    let first = draft.monitors.first().map(|monitor| monitor.place);
    let before = if first.is_some() { " before this" } else { "" };
    let statements = [
        ("mode", draft.mode.is_some(), "`mode controller` or `mode shield`"),
        ("out", draft.lines_out.is_some(), "`out` and the names of one to three lines"),
        ("horizon", draft.horizon.is_some(), "`horizon` and a number"),
        ("prefer", draft.prefer.is_some(), "`prefer` and every line out once"),
    ];
    for (word, there, expected) in statements {
        let unread = draft.misses_head || draft.faulty.iter().any(|faulty| faulty == word);
        if !there && !unread {
            let what = format!("the head has no `{word}`");
            let expected = format!("{expected}{before}");
            found.faults.push(Fault::new(first.unwrap_or(end), what, expected));
        }
    }
}

/// The names of a list, as many as there may be.
fn judge_lines(
    list: Option<&(Vec<Word>, Place)>,
    most: usize,
    way: &str,
    found: &mut Findings,
) -> Vec<Word> {
    let Some((words, _)) = list else { return Vec::new() };
    if let Some(beyond) = words.get(most) {
        let what = format!("{} lines {way}", words.len());
        found.faults.push(Fault::new(beyond.place, what, format!("at most {most}")));
    }
    words.iter().take(most).cloned().collect()
}

/// A fault for each name that stands before too.
pub fn judge_distinct(words: &[Word], of: &str, found: &mut Findings) {
    let mut first: HashMap<&str, Place> = HashMap::new();
    for word in words {
        let earlier = *first.entry(&word.text).or_insert(word.place);
        if earlier != word.place {
            let what = format!("a second {of} named `{}`, after line {}", word.text, earlier.line);
            found.faults.push(Fault::new(word.place, what, "a name of its own"));
        }
    }
}

/// Some names, as many as a reader takes in.
pub fn some_of(names: &[&str]) -> String {
    const SHOWN: usize = 8;
    let more = if names.len() > SHOWN { ", .." } else { "" };
    format!("{}{more}", names[..names.len().min(SHOWN)].join(", "))
}

/// Whether the guard has no more inputs and lines than it may.
fn judge_size(draft: &Draft, sheet: &Sheet, found: &mut Findings) -> bool {
    let (inputs, outputs) = (usize::from(sheet.inputs()), usize::from(sheet.lines_out));
    let place =
        [&draft.lines_out, &draft.lines_in].into_iter().flatten().next().map(|(_, place)| *place);
    let Some(place) = place else { return true };
    let of = match sheet.mode {
        Mode::Controller => "",
        Mode::Shield => ", since a shield reads a proposal for each line out",
    };
    if inputs > Sheet::INPUTS_MOST {
        let what = format!("the guard has {inputs} inputs{of}");
        found.faults.push(Fault::new(place, what, format!("at most {}", Sheet::INPUTS_MOST)));
    } else if inputs + outputs > Sheet::LINES_MOST {
        let what = format!("the guard has {inputs} inputs{of}, and {outputs} outputs");
        let expected = format!("at most {} together", Sheet::LINES_MOST);
        found.faults.push(Fault::new(place, what, expected));
    }
    inputs <= Sheet::INPUTS_MOST && inputs + outputs <= Sheet::LINES_MOST
}

fn judge_horizon(draft: &Draft, sheet: &Sheet, found: &mut Findings) -> u8 {
    const MOST: u8 = Sheet::HORIZON_MOST;
    let Some((horizon, place)) = draft.horizon else { return 0 };
    let inputs = sheet.inputs();
    if u16::from(inputs) * u16::from(horizon) > u16::from(MOST) {
        let what = format!("the horizon is {horizon}, of a guard with {inputs} inputs");
        let expected = format!("at most {}: inputs times horizon is at most {MOST}", MOST / inputs);
        found.faults.push(Fault::new(place, what, expected));
    }
    horizon
}

fn judge_match(draft: &Draft, mode: Mode, found: &mut Findings) -> u8 {
    let Some((weight, place)) = draft.match_weight else { return 0 };
    if mode == Mode::Controller && draft.mode.is_some() {
        let what = "a match weight for a controller, which reads no proposal";
        found.faults.push(Fault::new(place, what, "it only after `mode shield`"));
    }
    weight
}

/// The order of preference: every line out once.
fn judge_order(draft: &Draft, found: &mut Findings) -> Vec<Literal> {
    let (Some((order, place)), Some((lines_out, _))) = (&draft.prefer, &draft.lines_out) else {
        return Vec::new();
    };
    if lines_out.len() > Sheet::LINES_OUT_MOST {
        return Vec::new();
    }
    let lines_out: Vec<&str> = lines_out.iter().map(|word| word.text.as_str()).collect();
    let expected = format!("every line out once: {}", lines_out.join(", "));
    let known = found.faults.len();
    let mut literals: Vec<Literal> = Vec::new();
    for (word, on) in order {
        let Some(line) = lines_out.iter().position(|&line| line == word.text) else {
            let what = format!("there is no line out `{}`", word.text);
            found.faults.push(Fault::new(word.place, what, &expected));
            continue;
        };
        if literals.iter().any(|literal| usize::from(literal.line) == line) {
            let what = format!("`{}` is named a second time", word.text);
            found.faults.push(Fault::new(word.place, what, &expected));
        }
        literals.push(Literal { line: line as u8, on: *on });
    }
    let named = |name: &&&str| order.iter().any(|(word, _)| word.text == **name);
    let missing: Vec<&str> = lines_out.iter().filter(|name| !named(name)).copied().collect();
    if !missing.is_empty() && found.faults.len() == known {
        let what = format!("without {}", missing.join(", "));
        found.faults.push(Fault::new(*place, what, expected));
    }
    literals
}

fn judge_monitors(draft: &Draft, readable: bool, named: &mut Named, found: &mut Findings) {
    let openings: Vec<Word> =
        draft.monitors.iter().filter_map(|monitor| monitor.opening.name.clone()).collect();
    judge_distinct(&openings, "monitor", found);
    for (number, draft_monitor) in draft.monitors.iter().enumerate().take(Sheet::MONITORS_MOST + 1)
    {
        let DraftMonitor { opening, place, .. } = draft_monitor;
        if number == Sheet::MONITORS_MOST {
            let what = "a seventh monitor";
            found.faults.push(Fault::new(
                *place,
                what,
                format!("at most {}", Sheet::MONITORS_MOST),
            ));
        }
        if opening.role == Role::Limit && matches!(draft.mode, Some((Mode::Controller, _))) {
            let what = "a deviation limit for a controller, which reads no proposal";
            found.faults.push(Fault::new(*place, what, "it only after `mode shield`"));
        }
        let lines = named.names.read_by(opening.role);
        let readable = readable || opening.role == Role::Limit;
        let (monitor, states) = judge_monitor(draft_monitor, readable.then_some(&lines[..]), found);
        let name = opening.name.as_ref().map_or(String::new(), |word| word.text.clone());
        named.names.monitors.push(MonitorNames { name, states });
        named.sheet.monitors.push(monitor);
    }
}
