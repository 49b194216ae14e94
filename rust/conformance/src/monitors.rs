//! What a step does to each monitor and to each copy, straight from the sheet: beside the reference's
//! own step.

use reference::{Mode, Monitor, Role, Sheet, Tuple};

/// The letter of the site's lines with outputs set so.
fn letter(sheet: &Sheet, input: u8, setting: u8) -> u8 {
    input % (1 << sheet.site_lines) + (setting << sheet.site_lines)
}

/// What the controller proposes at an input of a shield.
pub fn proposal(sheet: &Sheet, input: u8) -> u8 {
    input >> sheet.site_lines
}

/// The places of the hard monitors of a shield, each with its copy's: the copies stand after the
/// monitors.
fn copies(sheet: &Sheet) -> impl Iterator<Item = (usize, usize)> + '_ {
    let hard =
        |&place: &usize| sheet.mode == Mode::Shield && sheet.monitors[place].role == Role::Hard;
    (0..sheet.monitors.len()).filter(hard).zip(sheet.monitors.len()..)
}

/// Whether an input's proposal is sound: every copy, which reads it, accepts after the step.
pub fn sound(sheet: &Sheet, at: &Tuple, input: u8) -> bool {
    let read = letter(sheet, input, proposal(sheet, input));
    let accepts = |monitor: &Monitor, copy: usize| monitor.accepts(monitor.next(at[copy], read));
    copies(sheet).all(|(place, copy)| accepts(&sheet.monitors[place], copy))
}

/// The tuple that monitors and copies move to: up to N5 the next product state.
pub fn moved(sheet: &Sheet, at: &Tuple, input: u8, output: u8) -> Tuple {
    let differs = output != proposal(sheet, input);
    let limit_letter = u8::from(sound(sheet, at, input)) + 2 * u8::from(differs);
    let mut to = *at;
    for (place, monitor) in sheet.monitors.iter().enumerate() {
        to[place] = match monitor.role {
            Role::Limit => monitor.next(at[place], limit_letter),
            Role::Hard | Role::Soft => monitor.next(at[place], letter(sheet, input, output)),
        };
    }
    for (place, copy) in copies(sheet) {
        let read = letter(sheet, input, proposal(sheet, input));
        to[copy] = sheet.monitors[place].next(at[copy], read);
    }
    to
}

/// The monitors that do not accept after a step, soft ones too, in the sheet's order.
pub fn refusing(sheet: &Sheet, at: &Tuple, input: u8, output: u8) -> Vec<usize> {
    let to = moved(sheet, at, input, output);
    let refuses = |&place: &usize| !sheet.monitors[place].accepts(to[place]);
    (0..sheet.monitors.len()).filter(refuses).collect()
}

/// The hard monitors and limits among them: those that the step breaks.
pub fn broken(sheet: &Sheet, at: &Tuple, input: u8, output: u8) -> Vec<usize> {
    let mut broken = refusing(sheet, at, input, output);
    broken.retain(|&monitor| sheet.monitors[monitor].role != Role::Soft);
    broken
}

/// Whether a step is one after which the copies take their monitors' states (N5).
pub fn recovers(sheet: &Sheet, at: &Tuple, input: u8, output: u8) -> bool {
    sheet.mode == Mode::Shield
        && broken(sheet, at, input, output).is_empty()
        && !sound(sheet, at, input)
        && output == proposal(sheet, input)
}

/// Whether every copy is in the state of its monitor.
pub fn agreeing(sheet: &Sheet, tuple: &Tuple) -> bool {
    copies(sheet).all(|(place, copy)| tuple[copy] == tuple[place])
}

/// The next product state.
pub fn next(sheet: &Sheet, at: &Tuple, input: u8, output: u8) -> Tuple {
    let mut to = moved(sheet, at, input, output);
    if recovers(sheet, at, input, output) {
        for (place, copy) in copies(sheet) {
            to[copy] = to[place];
        }
    }
    to
}
