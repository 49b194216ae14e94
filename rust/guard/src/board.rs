use std::fmt;

use crate::calls::{self, BOARD_BYTES};
use crate::Refusal;

/// A guard board: the record that goes from call to call.
///
/// It holds no table; each step is lent the one that was loaded. A refused call changes nothing.
/// A record with a field out of range counts as empty, so [`Board::from_bytes`] takes any bytes.
#[derive(Clone, Copy, Default, PartialEq, Eq, Hash)]
pub struct Board {
    bytes: [u8; BOARD_BYTES],
}

/// A board's record, field by field.
#[derive(Clone, Copy, Debug, Default, PartialEq, Eq, Hash)]
pub struct Fields {
    /// Whether a table was loaded.
    pub loaded: bool,
    /// The table's mode: 0 decides alone, 1 corrects a proposal.
    pub mode: u8,
    /// The table's input lines.
    pub inputs: u8,
    /// The table's output lines.
    pub outputs: u8,
    /// The table's states.
    pub count: u16,
    /// The state that the run is in.
    pub place: u16,
    /// The steps since loading or rewinding.
    pub steps: u32,
    /// In mode 1, at how many of the steps the output differed from the proposal.
    pub deviations: u32,
}

impl Board {
    /// The empty board.
    pub fn new() -> Board {
        Board::default()
    }

    /// A board by its bytes; the layout is in [`calls::BOARD_BYTES`].
    pub fn from_bytes(bytes: [u8; BOARD_BYTES]) -> Board {
        Board { bytes }
    }

    /// The board's bytes.
    pub fn to_bytes(&self) -> [u8; BOARD_BYTES] {
        self.bytes
    }

    /// Loads a table and begins a run. Refused, in this order: [`Refusal::Occupied`],
    /// [`Refusal::BadTable`].
    ///
    /// The monitors begin in their start states: load only when the device is as at the start
    /// ([`Board::rewind`] says why).
    pub fn load(&mut self, table: impl AsRef<[u8]>) -> Result<(), Refusal> {
        Refusal::check(calls::load(&mut self.bytes, table.as_ref()))
    }

    /// Answers an input by an output and moves on. Refused, in this order: [`Refusal::Empty`],
    /// [`Refusal::Spent`], [`Refusal::BadInput`], [`Refusal::BadTable`].
    ///
    /// A refused step has no output to drive (the 0 of [`calls::step`] is none): drive one that is
    /// safe whatever came before (a lock closed). To hold the last one may break what must hold, and
    /// no monitor sees what is driven then.
    #[inline]
    pub fn step(&mut self, table: impl AsRef<[u8]>, input: u8) -> Result<u8, Refusal> {
        let (number, output) = calls::step(&mut self.bytes, table.as_ref(), input);
        Refusal::check(number)?;
        Ok(output as u8)
    }

    /// Begins the run again. Refused: [`Refusal::Empty`].
    ///
    /// The monitors begin anew, as they do after [`Board::unload`] and [`Board::load`], and forget
    /// what the device did: a lock that was opened at step 1,000,000, is refused
    /// [`Refusal::Spent`] and is rewound may open again at once. So rewind only when the device is
    /// as at the start.
    pub fn rewind(&mut self) -> Result<(), Refusal> {
        Refusal::check(calls::rewind(&mut self.bytes))
    }

    /// Empties the board. Refused: [`Refusal::Empty`].
    pub fn unload(&mut self) -> Result<(), Refusal> {
        Refusal::check(calls::unload(&mut self.bytes))
    }

    /// The fields of the record, in range or not.
    pub fn fields(&self) -> Fields {
        let b = &self.bytes;
        Fields {
            loaded: b[0] == 1,
            mode: b[1],
            inputs: b[2],
            outputs: b[3],
            count: u16::from_le_bytes([b[4], b[5]]),
            place: u16::from_le_bytes([b[6], b[7]]),
            steps: u32::from_le_bytes([b[8], b[9], b[10], b[11]]),
            deviations: u32::from_le_bytes([b[12], b[13], b[14], b[15]]),
        }
    }

    /// The steps since loading or rewinding.
    pub fn steps(&self) -> u32 {
        self.fields().steps
    }

    /// In mode 1, at how many of the steps the output differed from the proposal.
    pub fn deviations(&self) -> u32 {
        self.fields().deviations
    }
}

impl From<Fields> for Board {
    fn from(fields: Fields) -> Board {
        let mut bytes = [0; BOARD_BYTES];
        bytes[0] = u8::from(fields.loaded);
        bytes[1] = fields.mode;
        bytes[2] = fields.inputs;
        bytes[3] = fields.outputs;
        bytes[4..6].copy_from_slice(&fields.count.to_le_bytes());
        bytes[6..8].copy_from_slice(&fields.place.to_le_bytes());
        bytes[8..12].copy_from_slice(&fields.steps.to_le_bytes());
        bytes[12..16].copy_from_slice(&fields.deviations.to_le_bytes());
        Board { bytes }
    }
}

impl fmt::Debug for Board {
    fn fmt(&self, f: &mut fmt::Formatter<'_>) -> fmt::Result {
        f.debug_tuple("Board").field(&self.fields()).finish()
    }
}

#[cfg(test)]
mod tests {
    use super::*;

    #[test]
    fn fields_and_bytes_say_the_same() {
        let bytes = [1, 2, 3, 4, 5, 6, 7, 8, 9, 10, 11, 12, 13, 14, 15, 16];
        let board = Board::from_bytes(bytes);
        assert_eq!(board.fields().place, 0x0807);
        assert_eq!(board.fields().deviations, 0x100F_0E0D);
        assert_eq!(Board::from(board.fields()), board);
        assert_eq!(board.to_bytes(), bytes);
    }

    #[test]
    fn only_the_byte_1_is_loaded() {
        for byte in 0..=255 {
            let mut bytes = [0; BOARD_BYTES];
            bytes[0] = byte;
            assert_eq!(Board::from_bytes(bytes).fields().loaded, byte == 1);
        }
    }
}
