//! The guard board: load, step, rewind, unload.

use crate::sheet::{horizon_fits, lines_fit, split_record, Mode};
use crate::tables::{GUARD_HEAD, RECORD_HEADER};
use crate::{Refusal, RowKind, STATES_MOST};

/// The most steps of a run.
pub const STEPS_MOST: u32 = 1_000_000;

/// What the head of a loadable table says.
#[derive(Clone, Copy, Debug, PartialEq, Eq)]
pub struct TableHead {
    pub mode: u8,
    pub inputs: u8,
    pub outputs: u8,
    pub horizon: u8,
    pub count: u16,
    /// The kind of its rows.
    pub rows: RowKind,
}

/// The head of a guard table that can be loaded; nothing if the slice is no such table.
pub fn loadable(table: &[u8]) -> Option<TableHead> {
    let (kind, body, rows) = split_record(table)?;
    let &[mode, inputs, outputs, horizon, low, high] = body else { return None };
    let count = u16::from_le_bytes([low, high]);
    let row_kind = RowKind::of_table(table)?;
    if kind != GUARD_HEAD
        || !shape_fits(mode, inputs, outputs, count)
        || !horizon_fits(inputs, horizon)
        || usize::from(count) > row_kind.states_most()
        || table.len() != row_kind.table_len(usize::from(count), inputs)
    {
        return None;
    }
    let body_len = row_kind.body_len(inputs);
    let expected = [body_len as u8, 0, row_kind.number() as u8, 0];
    let fits = |(output, next): (u8, u16)| output >> outputs == 0 && next < count;
    let sound = rows.chunks_exact(RECORD_HEADER + body_len).all(|row| {
        let (header, body) = row.split_at(RECORD_HEADER);
        header == expected && row_kind.all(body, fits)
    });
    sound.then_some(TableHead { mode, inputs, outputs, horizon, count, rows: row_kind })
}

/// The bounds on mode, lines and count that tables and boards share.
fn shape_fits(mode: u8, inputs: u8, outputs: u8, count: u16) -> bool {
    Mode::from_byte(mode).is_some_and(|mode| lines_fit(mode, inputs, outputs))
        && (1..=STATES_MOST).contains(&usize::from(count))
}

/// A board record. Any values may stand in it: one with a field out of range counts as empty.
///
/// A refused call changes nothing.
#[derive(Clone, Copy, Debug, Default, PartialEq, Eq)]
pub struct Board {
    pub loaded: bool,
    pub mode: u8,
    pub inputs: u8,
    pub outputs: u8,
    pub count: u16,
    pub place: u16,
    pub steps: u32,
    pub deviations: u32,
}

impl Board {
    /// Whether the board holds a run: loaded, with every field in range.
    pub fn is_live(&self) -> bool {
        self.loaded
            && shape_fits(self.mode, self.inputs, self.outputs, self.count)
            && self.place < self.count
            && self.steps <= STEPS_MOST
            && self.deviations <= if self.mode == 1 { self.steps } else { 0 }
    }

    /// Takes a table's head and begins a run.
    pub fn load(&mut self, table: &[u8]) -> Result<(), Refusal> {
        if self.is_live() {
            return Err(Refusal::Occupied);
        }
        let head = loadable(table).ok_or(Refusal::BadTable)?;
        *self = Board {
            loaded: true,
            mode: head.mode,
            inputs: head.inputs,
            outputs: head.outputs,
            count: head.count,
            ..Board::default()
        };
        Ok(())
    }

    /// Answers an input by the table's entry, and moves on.
    pub fn step(&mut self, table: &[u8], input: u8) -> Result<u8, Refusal> {
        if !self.is_live() {
            return Err(Refusal::Empty);
        }
        if self.steps == STEPS_MOST {
            return Err(Refusal::Spent);
        }
        if u32::from(input) >= 1 << self.inputs {
            return Err(Refusal::BadInput);
        }
        let (output, next) = self.entry(table, input).ok_or(Refusal::BadTable)?;
        self.place = next;
        self.steps += 1;
        if self.mode == 1 && output != input >> (self.inputs - self.outputs) {
            self.deviations += 1;
        }
        Ok(output)
    }

    /// The table's entry for the place and an input; nothing where the table's length is not the
    /// board's by the kind of the first row, or the entry is out of range. No other row is looked at,
    /// and rows of kind 17 are read whatever the count is.
    fn entry(&self, table: &[u8], input: u8) -> Option<(u8, u16)> {
        let kind = RowKind::of_table(table)?;
        if table.len() != kind.table_len(usize::from(self.count), self.inputs) {
            return None;
        }
        let row = kind.table_len(usize::from(self.place), self.inputs) + RECORD_HEADER;
        let (output, next) = kind.read(&table[row + kind.entry_len() * usize::from(input)..]);
        (output >> self.outputs == 0 && next < self.count).then_some((output, next))
    }

    /// Begins the run again.
    pub fn rewind(&mut self) -> Result<(), Refusal> {
        if !self.is_live() {
            return Err(Refusal::Empty);
        }
        self.place = 0;
        self.steps = 0;
        self.deviations = 0;
        Ok(())
    }

    /// Empties the board.
    pub fn unload(&mut self) -> Result<(), Refusal> {
        if !self.is_live() {
            return Err(Refusal::Empty);
        }
        *self = Board::default();
        Ok(())
    }
}
