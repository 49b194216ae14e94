//! Where a sheet is refused 1 to 6, and by what.

use std::fmt;

use crate::Refusal;

/// A refusal 1 to 6 with its place in the sheet.
///
/// The first faulty record counts, and in it the first field at fault; a length is judged once the
/// fields are read that tell what it should be, and H after the rest of the head.
#[derive(Clone, Debug, PartialEq, Eq)]
pub struct Fault {
    pub refusal: Refusal,
    /// The record's number in the order of the bytes; 0 is where the head should be.
    pub record: usize,
    /// The offset in the sheet of the field that is wrong: in the body or, where another kind
    /// should be, the kind. It is the record's first byte, where its length is, if the length is
    /// wrong or not all there, the bytes end before the record does, a monitor is the seventh, or
    /// the sheet is empty. Too many lines are put down to lines in, which can be lowered enough
    /// whatever the other fields are.
    pub byte: usize,
    /// What is there; what may be.
    pub what: String,
}

/// One line: refusal, record, byte and words.
impl fmt::Display for Fault {
    fn fmt(&self, f: &mut fmt::Formatter<'_>) -> fmt::Result {
        let Fault { refusal, record, byte, what } = self;
        write!(f, "{refusal}: record {record}, byte {byte}: {what}")
    }
}

impl std::error::Error for Fault {}
