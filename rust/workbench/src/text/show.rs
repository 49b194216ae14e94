//! A sheet as a text sheet.

use std::collections::BTreeMap;
use std::fmt::{self, Write};

use guard::sheet::{Mode, Monitor, Role};

use super::condition::Letters;
use super::cover::condition;
use super::Named;
use crate::names::{role_word, MonitorNames};

/// The text of a sheet in bounds: every state and row, in order.
pub fn show(named: &Named) -> String {
    let mut text = String::new();
    write_sheet(&mut text, named).expect("a string takes any text");
    text
}

fn write_sheet(text: &mut String, named: &Named) -> fmt::Result {
    let Named { sheet, names } = named;
    match sheet.mode {
        Mode::Controller => writeln!(text, "mode controller")?,
        Mode::Shield => writeln!(text, "mode shield")?,
    }
    if !names.lines_in.is_empty() {
        writeln!(text, "in {}", names.lines_in.join(", "))?;
    }
    writeln!(text, "out {}", names.lines_out.join(", "))?;
    writeln!(text, "horizon {}", sheet.horizon)?;
    if sheet.mode == Mode::Shield {
        writeln!(text, "match {}", sheet.match_weight)?;
    }
    writeln!(text, "prefer {}", names.preferences(&sheet.prefer))?;
    for (monitor, monitor_names) in sheet.monitors.iter().zip(&names.monitors) {
        write_monitor(text, monitor, monitor_names, &names.read_by(monitor.role))?;
    }
    Ok(())
}

fn write_monitor(
    text: &mut String,
    monitor: &Monitor,
    names: &MonitorNames,
    lines: &[String],
) -> fmt::Result {
    write!(text, "\n{} {}", role_word(monitor.role), names.name)?;
    if monitor.role == Role::Soft {
        write!(text, " weight {}", monitor.weight)?;
    }
    writeln!(text)?;
    let rows = monitor.next.chunks_exact(1 << lines.len());
    for (number, row) in rows.enumerate() {
        let start = if usize::from(monitor.start) == number { " start" } else { "" };
        let accept = if monitor.accepts[number] { " accept" } else { "" };
        writeln!(text, "  state {}{start}{accept}", names.states[number])?;
        write_row(text, row, &names.states, lines)?;
    }
    Ok(())
}

/// A condition for each next state, `else` for the one that most letters lead to.
fn write_row(text: &mut String, row: &[u8], states: &[String], lines: &[String]) -> fmt::Result {
    let mut ways: BTreeMap<u8, Letters> = BTreeMap::new();
    for (letter, &next) in row.iter().enumerate() {
        *ways.entry(next).or_default() |= 1 << letter;
    }
    // Of several the first: `max_by_key` gives the last.
    let most = ways.iter().rev().max_by_key(|(_, letters)| letters.count_ones());
    let most = most.map(|(&next, _)| next);
    for (&next, &letters) in ways.iter().filter(|(&next, _)| Some(next) != most) {
        writeln!(text, "    {} -> {}", condition(letters, lines), states[usize::from(next)])?;
    }
    match most {
        Some(next) => writeln!(text, "    else -> {}", states[usize::from(next)]),
        None => Ok(()),
    }
}
