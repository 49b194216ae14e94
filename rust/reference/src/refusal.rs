use std::fmt;

/// Why a call was refused; the numbers are document 01's.
#[derive(Clone, Copy, Debug, PartialEq, Eq, Hash, PartialOrd, Ord)]
pub enum Refusal {
    /// 1 to 3 bytes left for a record, or its body runs past the end.
    Truncated = 1,
    /// No record, the first not a head, a second head, or an unknown kind.
    Misplaced = 2,
    /// The head's length or a field of it is wrong, H aside.
    BadHead = 3,
    /// A monitor's length or a field of it is wrong.
    BadMonitor = 4,
    /// A seventh monitor.
    SeventhMonitor = 5,
    /// H above 24, or inputs times H above 24.
    LongHorizon = 6,
    /// More than 512 product states.
    TooManyStates = 7,
    /// The start is not kept.
    Unrealizable = 8,
    /// The result memory is shorter than the table or the play.
    ShortResult = 9,
    /// The work memory is too short; never given here, where none is lent.
    ShortWork = 10,
    /// The table can't be loaded, or a step finds it unlike the board's.
    BadTable = 11,
    /// The step's input is not below 2^inputs.
    BadInput = 12,
    /// The board is empty.
    Empty = 20,
    /// The board is loaded.
    Occupied = 21,
    /// 1,000,000 steps are taken.
    Spent = 22,
    /// The start is kept: no break can be forced.
    Realizable = 23,
}

impl Refusal {
    /// Every refusal, by numbers ascending.
    pub const ALL: [Refusal; 16] = [
        Refusal::Truncated,
        Refusal::Misplaced,
        Refusal::BadHead,
        Refusal::BadMonitor,
        Refusal::SeventhMonitor,
        Refusal::LongHorizon,
        Refusal::TooManyStates,
        Refusal::Unrealizable,
        Refusal::ShortResult,
        Refusal::ShortWork,
        Refusal::BadTable,
        Refusal::BadInput,
        Refusal::Empty,
        Refusal::Occupied,
        Refusal::Spent,
        Refusal::Realizable,
    ];

    /// Document 01's number.
    pub const fn number(self) -> u32 {
        self as u32
    }
}

impl fmt::Display for Refusal {
    fn fmt(&self, f: &mut fmt::Formatter<'_>) -> fmt::Result {
        write!(f, "refused {}", self.number())
    }
}

impl std::error::Error for Refusal {}
