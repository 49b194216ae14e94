//! The rows of guard tables, which are of two kinds.

use crate::tables::{Writer, GUARD_HEAD_BODY, RECORD_HEADER};
use crate::STATES_MOST;

/// How the rows of a guard table are written: all of them alike.
#[derive(Clone, Copy, Debug, PartialEq, Eq)]
pub enum RowKind {
    /// Kind 17: for each input the output and the next state, a byte each.
    Narrow,
    /// Kind 20: the same with two bytes for the next state.
    Wide,
}

impl RowKind {
    /// The kind of a guard's rows, by its number of states.
    pub fn for_states(count: usize) -> RowKind {
        if count <= RowKind::Narrow.states_most() {
            RowKind::Narrow
        } else {
            RowKind::Wide
        }
    }

    /// The kind of a table's first row; nothing where the table is too short to show it, or where it
    /// is no row's.
    pub fn of_table(table: &[u8]) -> Option<RowKind> {
        let first = table.get(RECORD_HEADER + GUARD_HEAD_BODY..)?;
        let &[_, _, low, high, ..] = first else { return None };
        let number = u16::from_le_bytes([low, high]);
        [RowKind::Narrow, RowKind::Wide].into_iter().find(|kind| kind.number() == number)
    }

    /// The kind as records have it.
    pub const fn number(self) -> u16 {
        match self {
            RowKind::Narrow => 17,
            RowKind::Wide => 20,
        }
    }

    /// The most states of a table with such rows.
    pub const fn states_most(self) -> usize {
        match self {
            RowKind::Narrow => 256,
            RowKind::Wide => STATES_MOST,
        }
    }

    /// The bytes of an entry.
    pub(crate) const fn entry_len(self) -> usize {
        match self {
            RowKind::Narrow => 2,
            RowKind::Wide => 3,
        }
    }

    /// The bytes of a row's body.
    pub(crate) const fn body_len(self, inputs: u8) -> usize {
        self.entry_len() << inputs
    }

    /// The bytes of a table with so many rows.
    pub(crate) const fn table_len(self, count: usize, inputs: u8) -> usize {
        RECORD_HEADER + GUARD_HEAD_BODY + count * (RECORD_HEADER + self.body_len(inputs))
    }

    /// The output and the next state that an entry has.
    pub(crate) fn read(self, entry: &[u8]) -> (u8, u16) {
        let next = match self {
            RowKind::Narrow => u16::from(entry[1]),
            RowKind::Wide => u16::from_le_bytes([entry[1], entry[2]]),
        };
        (entry[0], next)
    }

    /// Whether all entries of a row's body fit. There is a loop for each kind, so that none asks for it
    /// at each entry.
    pub(crate) fn all(self, body: &[u8], fits: impl Fn((u8, u16)) -> bool) -> bool {
        use RowKind::{Narrow, Wide};
        match self {
            Narrow => body.chunks_exact(Narrow.entry_len()).all(|entry| fits(Narrow.read(entry))),
            Wide => body.chunks_exact(Wide.entry_len()).all(|entry| fits(Wide.read(entry))),
        }
    }

    /// Writes an entry; a narrow one's next state is below 256.
    pub(crate) fn write(self, (output, next): (u8, u16), out: &mut Writer) {
        out.byte(output);
        match self {
            RowKind::Narrow => out.byte(next as u8),
            RowKind::Wide => out.number(next),
        }
    }
}
