use crate::calls::{self, FIGURES, LISTING_FIGURES};
use crate::sheet::Mode;
use crate::work::{INPUTS_MOST, STATES_MOST};
use crate::{Board, Refusal, RowKind, Work};

const HEADER: usize = 4;

/// What a maker wrote into the result memory it was lent.
#[derive(Clone, Copy, Debug, PartialEq, Eq)]
pub struct Made {
    /// Its bytes, at the start of the memory; the rest is as it was.
    pub length: usize,
    /// Its states.
    pub states: usize,
}

/// A maker's answer: what it made, or the refusal.
pub(crate) fn made(number: u32, figures: [u64; FIGURES]) -> Result<Made, Refusal> {
    Refusal::check(number)?;
    Ok(Made { length: figures[0] as usize, states: figures[1] as usize })
}

/// A supervisor table: for each product state whether it is kept and, for each input, exactly
/// which outputs can still be survived.
#[derive(Clone, Debug, PartialEq, Eq, Hash)]
pub struct Supervisor {
    bytes: Vec<u8>,
}

impl Supervisor {
    /// The length of the longest table.
    pub const BYTES_MOST: usize = Supervisor::HEAD + STATES_MOST * (HEADER + 1 + INPUTS_MOST);
    const HEAD: usize = HEADER + 5;

    /// Makes the table of a sheet.
    pub fn make(sheet: &[u8], work: &mut Work) -> Result<Supervisor, Refusal> {
        let mut bytes = vec![0; Supervisor::BYTES_MOST];
        let made = Supervisor::make_into(sheet, &mut bytes, work)?;
        bytes.truncate(made.length);
        Ok(Supervisor { bytes })
    }

    /// Makes the table of a sheet in the caller's memory; a refusal leaves it as it was.
    pub fn make_into(sheet: &[u8], result: &mut [u8], work: &mut Work) -> Result<Made, Refusal> {
        let mut figures = [0; FIGURES];
        made(calls::make_supervisor(sheet, result, work, &mut figures), figures)
    }

    /// The table.
    pub fn as_bytes(&self) -> &[u8] {
        &self.bytes
    }

    /// The guard's input lines.
    pub fn inputs(&self) -> u8 {
        self.bytes[HEADER + 1]
    }

    /// The output lines.
    pub fn outputs(&self) -> u8 {
        self.bytes[HEADER + 2]
    }

    /// The number of product states.
    pub fn states(&self) -> usize {
        usize::from(u16::from_le_bytes([self.bytes[HEADER + 3], self.bytes[HEADER + 4]]))
    }

    /// Whether the product state is kept.
    ///
    /// # Panics
    /// Where the table has no such state.
    pub fn is_kept(&self, state: usize) -> bool {
        self.row(state)[0] == 1
    }

    /// The outputs allowed in a state at an input, bit o for output o.
    ///
    /// # Panics
    /// Where the table has no such state or input.
    pub fn mask(&self, state: usize, input: u8) -> u8 {
        self.row(state)[1 + usize::from(input)]
    }

    /// Whether an output is allowed in a state at an input.
    ///
    /// # Panics
    /// Where the table has no such state or input.
    pub fn allows(&self, state: usize, input: u8, output: u8) -> bool {
        output < 8 && self.mask(state, input) >> output & 1 == 1
    }

    fn row(&self, state: usize) -> &[u8] {
        let body = 1 + (1 << self.inputs());
        let start = Supervisor::HEAD + state * (HEADER + body) + HEADER;
        &self.bytes[start..start + body]
    }
}

impl AsRef<[u8]> for Supervisor {
    fn as_ref(&self) -> &[u8] {
        &self.bytes
    }
}

/// A guard table: for each guard state and input the output and the next state. Every value is a
/// table that a board loads.
#[derive(Clone, Debug, PartialEq, Eq, Hash)]
pub struct Guard {
    bytes: Vec<u8>,
}

impl Guard {
    /// The length of the longest table.
    pub const BYTES_MOST: usize =
        Guard::HEAD + STATES_MOST * (HEADER + RowKind::Wide.entry_bytes() * INPUTS_MOST);
    /// No listing is longer: at most 41 bytes for its first line, and 101 for the line of a state.
    pub const LISTING_BYTES_MOST: usize = 41 + 101 * STATES_MOST;
    const HEAD: usize = HEADER + 6;

    /// Makes the table of a sheet.
    pub fn make(sheet: &[u8], work: &mut Work) -> Result<Guard, Refusal> {
        let mut bytes = vec![0; Guard::BYTES_MOST];
        let made = Guard::make_into(sheet, &mut bytes, work)?;
        bytes.truncate(made.length);
        Ok(Guard { bytes })
    }

    /// Makes the table of a sheet in the caller's memory; a refusal leaves it as it was.
    pub fn make_into(sheet: &[u8], result: &mut [u8], work: &mut Work) -> Result<Made, Refusal> {
        let mut figures = [0; FIGURES];
        made(calls::make_guard(sheet, result, work, &mut figures), figures)
    }

    /// A table by its bytes, one that was stored say. Refused exactly as an empty board refuses to
    /// load it: [`Refusal::BadTable`].
    pub fn from_bytes(bytes: impl Into<Vec<u8>>) -> Result<Guard, Refusal> {
        let bytes = bytes.into();
        Board::new().load(&bytes)?;
        Ok(Guard { bytes })
    }

    /// The table as text: a line for the head, then one for each state with output>next state by
    /// input. No guard is refused by the library that this crate was written for.
    pub fn listing(&self) -> Result<String, Refusal> {
        let mut text = vec![0; Guard::LISTING_BYTES_MOST];
        let mut figures = [0; LISTING_FIGURES];
        Refusal::check(calls::list(&self.bytes, &mut text, &mut figures))?;
        text.truncate(figures[0] as usize);
        // Each byte is a character of its own: a listing is ASCII.
        Ok(text.into_iter().map(char::from).collect())
    }

    /// The table, as a board loads it.
    pub fn as_bytes(&self) -> &[u8] {
        &self.bytes
    }

    /// Whether the guard corrects a proposal (mode 1) or decides alone (mode 0).
    pub fn is_shield(&self) -> bool {
        self.bytes[HEADER] == 1
    }

    /// The same as a mode.
    pub fn mode(&self) -> Mode {
        match self.is_shield() {
            true => Mode::Shield,
            false => Mode::Controller,
        }
    }

    /// The guard's input lines.
    pub fn inputs(&self) -> u8 {
        self.bytes[HEADER + 1]
    }

    /// The output lines.
    pub fn outputs(&self) -> u8 {
        self.bytes[HEADER + 2]
    }

    /// The horizon.
    pub fn horizon(&self) -> u8 {
        self.bytes[HEADER + 3]
    }

    /// The number of guard states.
    pub fn states(&self) -> usize {
        usize::from(u16::from_le_bytes([self.bytes[HEADER + 4], self.bytes[HEADER + 5]]))
    }

    /// The kind of its rows, which is that of the first.
    pub fn rows(&self) -> RowKind {
        let kind = [self.bytes[Guard::HEAD + 2], self.bytes[Guard::HEAD + 3]];
        match u16::from_le_bytes(kind) == RowKind::Wide.number() {
            true => RowKind::Wide,
            false => RowKind::Narrow,
        }
    }

    /// The output and the next state for a state and an input.
    ///
    /// # Panics
    /// Where the table has no such state or input.
    pub fn entry(&self, state: usize, input: u8) -> (u8, usize) {
        assert!(u32::from(input) < 1 << self.inputs(), "no such input");
        let rows = self.rows();
        let body = rows.entry_bytes() << self.inputs();
        let start = Guard::HEAD + state * (HEADER + body) + HEADER;
        rows.entry(&self.bytes[start..start + body], input)
    }
}

impl AsRef<[u8]> for Guard {
    fn as_ref(&self) -> &[u8] {
        &self.bytes
    }
}
