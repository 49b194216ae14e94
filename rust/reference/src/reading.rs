//! Reading a sheet's bytes, and telling where they are at fault.
//!
//! Words are made only where there is a fault, and a fault on its way up is boxed, so that results
//! stay small: a sheet that is not refused is read as fast as if nothing were told of faults.

use crate::sheet::{horizon_fits, lines_fit, split_record, HORIZON_MOST, MONITORS_MOST};
use crate::tables::RECORD_HEADER;
use crate::{Fault, Literal, Mode, Monitor, Refusal, Role, Sheet};

const MONITOR_STATES_MOST: u8 = 32;
const LIMIT_LETTERS: usize = 4;
const HEAD: u16 = 1;
const MONITOR: u16 = 2;

/// Where the parts of a record are, from its first byte.
mod at {
    pub const LENGTH: usize = 0;
    pub const KIND: usize = 2;

    pub const MODE: usize = 4;
    pub const LINES_IN: usize = 5;
    pub const LINES_OUT: usize = 6;
    pub const HORIZON: usize = 7;
    pub const MATCH_WEIGHT: usize = 8;
    pub const PREFERENCES: usize = 9;

    pub const ROLE: usize = 4;
    pub const WEIGHT: usize = 5;
    pub const STATES: usize = 6;
    pub const START: usize = 7;
    pub const ACCEPT: usize = 8;
}

/// What is read, or the fault.
type Read<T> = Result<T, Box<Fault>>;

impl Sheet {
    /// Reads a sheet that none of the refusals 1 to 6 applies to.
    pub fn read(bytes: &[u8]) -> Result<Sheet, Fault> {
        Sheet::read_records(bytes).map_err(|fault| *fault)
    }

    /// Like `read`, for callers that need no more than the fault's refusal.
    pub fn parse(bytes: &[u8]) -> Result<Sheet, Refusal> {
        Sheet::read_records(bytes).map_err(|fault| fault.refusal)
    }

    /// Reads the records in turn; each is judged whole before the next is looked at.
    fn read_records(bytes: &[u8]) -> Read<Sheet> {
        let head = Record::at(bytes, 0, 0)?;
        let mut sheet = read_head(&head)?;
        let mut start = head.end();
        while start < bytes.len() {
            let record = Record::at(bytes, start, 1 + sheet.monitors.len())?;
            let monitor = sheet.read_monitor(&record)?;
            sheet.monitors.push(monitor);
            start = record.end();
        }
        Ok(sheet)
    }

    fn read_monitor(&self, record: &Record) -> Read<Monitor> {
        record.require_kind(MONITOR, "monitor")?;
        if self.monitors.len() == MONITORS_MOST {
            let what = "a seventh monitor; at most six may be".to_string();
            return Err(record.fault(Refusal::SeventhMonitor, at::LENGTH, what));
        }
        let bad = |at, what| record.fault(Refusal::BadMonitor, at, what);
        let length = record.body.len();
        let Some((&[role, weight, states, start], tables)) = record.body.split_first_chunk() else {
            return Err(bad(at::LENGTH, format!("length is {length}; more than 4 may be")));
        };
        let role = self.read_role(record, role, weight)?;
        if !(1..=MONITOR_STATES_MOST).contains(&states) {
            return Err(bad(at::STATES, format!("states is {states}; 1 to 32 may be")));
        }
        if start >= states {
            return Err(bad(at::START, format!("start is {start}; {} may be", below(states))));
        }
        let letters = match role {
            Role::Hard | Role::Soft => 1 << (self.site_lines + self.outputs),
            Role::Limit => LIMIT_LETTERS,
        };
        let count = usize::from(states);
        let whole = 4 + count * (1 + letters);
        if length != whole {
            let what = format!("{whole} may be (states {states}, letters {letters})");
            return Err(bad(at::LENGTH, format!("length is {length}; {what}")));
        }
        let (accept, rows) = tables.split_at(count);
        check_tables(record, states, accept, rows)?;
        let accept = accept.iter().rev().fold(0, |bits, &a| bits << 1 | u32::from(a));
        Ok(Monitor { role, weight, start, letters, accept, rows: rows.to_vec() })
    }

    /// The role, if the mode has it and the weight suits it.
    fn read_role(&self, record: &Record, role: u8, weight: u8) -> Read<Role> {
        let bad = |at, what| record.fault(Refusal::BadMonitor, at, what);
        let role = match (role, self.mode) {
            (0, _) => Role::Hard,
            (1, _) => Role::Soft,
            (2, Mode::Shield) => Role::Limit,
            (_, mode) => {
                let roles = if mode == Mode::Shield { "0 to 2" } else { "0 or 1" };
                let what = format!("role is {role}; {roles} may be (mode {})", mode as u8);
                return Err(bad(at::ROLE, what));
            }
        };
        if (role == Role::Soft) != (weight > 0) {
            let weights = if role == Role::Soft { "1 to 255" } else { "only 0" };
            let what = format!("weight is {weight}; {weights} may be (role {})", role as u8);
            return Err(bad(at::WEIGHT, what));
        }
        Ok(role)
    }
}

/// A sheet without its monitors: all but H is judged first (3), then H (6).
fn read_head(record: &Record) -> Read<Sheet> {
    record.require_kind(HEAD, "head")?;
    let bad = |at, what| record.fault(Refusal::BadHead, at, what);
    let length = record.body.len();
    let Some((fields, literals)) = record.body.split_first_chunk() else {
        return Err(bad(at::LENGTH, format!("length is {length}; 6 to 8 may be")));
    };
    let &[mode, site_lines, outputs, horizon, match_weight] = fields;
    let Some(mode) = Mode::from_byte(mode) else {
        return Err(bad(at::MODE, format!("mode is {mode}; 0 or 1 may be")));
    };
    let inputs = read_lines(record, mode, site_lines, outputs)?;
    if mode == Mode::Controller && match_weight != 0 {
        let what = format!("match weight is {match_weight}; only 0 may be (mode 0)");
        return Err(bad(at::MATCH_WEIGHT, what));
    }
    let whole = 5 + usize::from(outputs);
    if length != whole {
        let what = format!("length is {length}; {whole} may be (lines out {outputs})");
        return Err(bad(at::LENGTH, what));
    }
    let literals = read_literals(record, literals)?;
    if !horizon_fits(inputs, horizon) {
        let most = HORIZON_MOST / inputs.max(1);
        let what = format!("horizon is {horizon}; 0 to {most} may be (inputs {inputs})");
        return Err(record.fault(Refusal::LongHorizon, at::HORIZON, what));
    }
    let monitors = Vec::new();
    Ok(Sheet { mode, site_lines, inputs, outputs, horizon, match_weight, literals, monitors })
}

/// The guard's input lines, if the head's lines are in their bounds.
fn read_lines(record: &Record, mode: Mode, site_lines: u8, outputs: u8) -> Read<u8> {
    let bad = |at, what| record.fault(Refusal::BadHead, at, what);
    if site_lines > 4 {
        return Err(bad(at::LINES_IN, format!("lines in is {site_lines}; 0 to 4 may be")));
    }
    if !(1..=3).contains(&outputs) {
        return Err(bad(at::LINES_OUT, format!("lines out is {outputs}; 1 to 3 may be")));
    }
    let inputs_of = |site_lines| match mode {
        Mode::Controller => site_lines,
        Mode::Shield => site_lines + outputs,
    };
    let inputs = inputs_of(site_lines);
    if lines_fit(mode, inputs, outputs) {
        return Ok(inputs);
    }
    let made = if inputs > 4 {
        format!("{inputs} inputs")
    } else {
        format!("{} inputs and outputs", inputs + outputs)
    };
    let bound = (1..=4).find(|&lines| !lines_fit(mode, inputs_of(lines), outputs)).unwrap_or(5);
    let what = format!(
        "lines in is {site_lines}, which makes {made}; {} may be (mode {}, lines out {outputs})",
        below(bound),
        mode as u8
    );
    Err(bad(at::LINES_IN, what))
}

/// The preferences, if each output line has one; there are as many as lines.
fn read_literals(record: &Record, bytes: &[u8]) -> Read<Vec<Literal>> {
    let outputs = bytes.len();
    let mut seen = 0u8;
    let mut literals = Vec::with_capacity(outputs);
    for (place, &byte) in bytes.iter().enumerate() {
        let bad = |what| record.fault(Refusal::BadHead, at::PREFERENCES + place, what);
        let (line, on) = if byte < 8 { (byte, true) } else { (byte - 8, false) };
        if usize::from(line) >= outputs {
            let what = format!("a line below {outputs}, or 8 more, may be");
            return Err(bad(format!("preference {place} is {byte}; {what}")));
        }
        if seen >> line & 1 == 1 {
            let what = format!("line {line} again; each line may be named once");
            return Err(bad(format!("preference {place} is {byte}, {what}")));
        }
        seen |= 1 << line;
        literals.push(Literal { line, on });
    }
    Ok(literals)
}

/// Whether the accept bytes are 0 or 1 and the next states below the number of states.
fn check_tables(record: &Record, states: u8, accept: &[u8], rows: &[u8]) -> Read<()> {
    let bad = |at, what| record.fault(Refusal::BadMonitor, at, what);
    if let Some(state) = accept.iter().position(|&a| a > 1) {
        let what = format!("accept byte of state {state} is {}; 0 or 1 may be", accept[state]);
        return Err(bad(at::ACCEPT + state, what));
    }
    if let Some(entry) = rows.iter().position(|&next| next >= states) {
        let letters = rows.len() / accept.len();
        let (state, letter) = (entry / letters, entry % letters);
        let (next, may) = (rows[entry], below(states));
        let what =
            format!("next state of state {state} at letter {letter} is {next}; {may} may be");
        return Err(bad(at::ACCEPT + accept.len() + entry, what));
    }
    Ok(())
}

/// The numbers below a bound, which is not 0, in words.
fn below(bound: u8) -> String {
    match bound - 1 {
        0 => "only 0".to_string(),
        most => format!("0 to {most}"),
    }
}

/// A whole record of a sheet, and its place there.
struct Record<'a> {
    number: usize,
    start: usize,
    kind: u16,
    body: &'a [u8],
}

impl<'a> Record<'a> {
    /// The record that begins at a byte of the sheet.
    fn at(bytes: &'a [u8], start: usize, number: usize) -> Read<Record<'a>> {
        let rest = &bytes[start..];
        match split_record(rest) {
            Some((kind, body, _)) => Ok(Record { number, start, kind, body }),
            None => Err(no_record(rest, start, number)),
        }
    }

    /// Where the next record begins.
    fn end(&self) -> usize {
        self.start + RECORD_HEADER + self.body.len()
    }

    /// A fault at a part of the record.
    #[cold]
    fn fault(&self, refusal: Refusal, at: usize, what: String) -> Box<Fault> {
        Box::new(Fault { refusal, record: self.number, byte: self.start + at, what })
    }

    /// Whether the record is of the kind that its place asks for.
    fn require_kind(&self, kind: u16, name: &str) -> Read<()> {
        if self.kind == kind {
            return Ok(());
        }
        let second = if self.kind == HEAD { ", a second head" } else { "" };
        let what = format!("kind is {}{second}; {kind} ({name}) may be", self.kind);
        Err(self.fault(Refusal::Misplaced, at::KIND, what))
    }
}

/// The fault of bytes that are too few for the record that should begin there.
#[cold]
fn no_record(rest: &[u8], start: usize, number: usize) -> Box<Fault> {
    let left = match rest.len() {
        1 => "1 byte is left".to_string(),
        count => format!("{count} bytes are left"),
    };
    let (refusal, what) = match *rest {
        [] => (Refusal::Misplaced, "no record is there; a head (kind 1) may be".to_string()),
        [low, high, _, _, ..] => {
            let length = usize::from(u16::from_le_bytes([low, high]));
            let whole = RECORD_HEADER + length;
            let what = format!("length is {length}, a record of {whole} bytes; {left}");
            (Refusal::Truncated, what)
        }
        _ => (Refusal::Truncated, format!("{left}; a record has at least 4")),
    };
    Box::new(Fault { refusal, record: number, byte: start, what })
}
