use std::fmt;

/// Why a call was refused: document 01's number, under the name that the proved library's source
/// has for it.
#[derive(Clone, Copy, Debug, PartialEq, Eq, Hash)]
#[non_exhaustive]
pub enum Refusal {
    /// 1: one to three bytes left for a record, or its body runs past the end.
    Truncated,
    /// 2: no record, the first not a head, a second head, or an unknown kind.
    Misplaced,
    /// 3: the head's length or a field of it is wrong, H aside.
    BadHead,
    /// 4: a monitor's length or a field of it is wrong.
    BadMonitor,
    /// 5: a seventh monitor.
    SeventhMonitor,
    /// 6: H, or inputs times H, above 24.
    LongHorizon,
    /// 7: more than 512 product states.
    TooManyStates,
    /// 8: the start is not kept.
    Unrealizable,
    /// 9: the result memory is shorter than the table or the play, or the text memory than the
    /// listing.
    ShortResult,
    /// 10: a slice of work memory is shorter than its constant.
    ShortWork,
    /// 11: not a table to load, or unlike the board's.
    BadTable,
    /// 12: the step's input is not below 2^inputs.
    BadInput,
    /// 20: the board is empty.
    Empty,
    /// 21: the board is loaded.
    Occupied,
    /// 22: 1,000,000 steps are taken. Read [`Board::rewind`](crate::Board::rewind) before rewinding.
    Spent,
    /// 23: the start is kept, so that no break can be forced.
    Realizable,
    /// Any other number. The library that this crate was written for never answers so; another
    /// one was linked, a later one say, and nothing is known of what the call did.
    Unknown(u32),
}

impl Refusal {
    /// The refusals that have a name, by their numbers ascending.
    pub const NAMED: [Refusal; 16] = [
        Refusal::Truncated,
        Refusal::Misplaced,
        Refusal::BadHead,
        Refusal::BadMonitor,
        Refusal::SeventhMonitor,
        Refusal::LongHorizon,
        Refusal::TooManyStates,
        Refusal::Unrealizable,
        Refusal::ShortResult,
        Refusal::ShortWork,
        Refusal::BadTable,
        Refusal::BadInput,
        Refusal::Empty,
        Refusal::Occupied,
        Refusal::Spent,
        Refusal::Realizable,
    ];

    /// Document 01's number.
    pub const fn number(self) -> u32 {
        match self {
            Refusal::Truncated => 1,
            Refusal::Misplaced => 2,
            Refusal::BadHead => 3,
            Refusal::BadMonitor => 4,
            Refusal::SeventhMonitor => 5,
            Refusal::LongHorizon => 6,
            Refusal::TooManyStates => 7,
            Refusal::Unrealizable => 8,
            Refusal::ShortResult => 9,
            Refusal::ShortWork => 10,
            Refusal::BadTable => 11,
            Refusal::BadInput => 12,
            Refusal::Empty => 20,
            Refusal::Occupied => 21,
            Refusal::Spent => 22,
            Refusal::Realizable => 23,
            Refusal::Unknown(number) => number,
        }
    }

    /// The named refusal of a number, if there is one.
    pub fn from_number(number: u32) -> Option<Refusal> {
        Refusal::NAMED.into_iter().find(|refusal| refusal.number() == number)
    }

    /// A call's answer: 0, or the number of a refusal.
    pub(crate) fn check(number: u32) -> Result<(), Refusal> {
        match number {
            0 => Ok(()),
            _ => Err(Refusal::from_number(number).unwrap_or(Refusal::Unknown(number))),
        }
    }
}

impl fmt::Display for Refusal {
    fn fmt(&self, f: &mut fmt::Formatter<'_>) -> fmt::Result {
        let ground = match self {
            Refusal::Truncated => "a record is cut",
            Refusal::Misplaced => "no head first, a second head, or a record of unknown kind",
            Refusal::BadHead => "the head's length or a field of it is wrong",
            Refusal::BadMonitor => "a monitor's length or a field of it is wrong",
            Refusal::SeventhMonitor => "a seventh monitor",
            Refusal::LongHorizon => "the horizon is too long",
            Refusal::TooManyStates => "more than 512 product states",
            Refusal::Unrealizable => "unrealizable: the start is not kept",
            Refusal::ShortResult => "the result memory is shorter than the table or play",
            Refusal::ShortWork => "the work memory is too short",
            Refusal::BadTable => "not a table to load, or not the board's",
            Refusal::BadInput => "no such input",
            Refusal::Empty => "the board is empty",
            Refusal::Occupied => "the board is loaded",
            Refusal::Spent => "1,000,000 steps are taken",
            Refusal::Realizable => "realizable: the start is kept",
            Refusal::Unknown(_) => "a number without a name: another library was linked",
        };
        write!(f, "refused {}: {ground}", self.number())
    }
}

impl std::error::Error for Refusal {}

#[cfg(test)]
mod tests {
    use super::*;

    #[test]
    fn numbers_ascend_and_name_their_refusals() {
        assert!(Refusal::NAMED.is_sorted_by_key(|refusal| refusal.number()));
        for refusal in Refusal::NAMED {
            assert_eq!(Refusal::from_number(refusal.number()), Some(refusal));
            assert_eq!(Refusal::check(refusal.number()), Err(refusal));
        }
    }

    #[test]
    fn a_number_without_a_name_is_an_error_of_its_own() {
        assert_eq!(Refusal::check(0), Ok(()));
        assert_eq!(Refusal::from_number(0), None);
        for number in [13, 19, 24, 0xFFFF, u32::MAX] {
            assert_eq!(Refusal::from_number(number), None);
            assert_eq!(Refusal::check(number), Err(Refusal::Unknown(number)));
            assert_eq!(Refusal::Unknown(number).number(), number);
        }
    }
}
