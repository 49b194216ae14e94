//! One call of a maker that writes into result memory, by the library and by the reference: number,
//! figures, every byte of the result memory and around it, and the work memory.

use guard::{calls, Work};
use reference::Refusal;

use crate::work::{self, Slice};
use crate::{subject, Random};

/// Bytes on either side of the result memory that is lent.
const MARGIN: usize = 32;

/// A number, and the figures.
type Answer = (u32, [u64; calls::FIGURES]);

/// What is made.
#[derive(Clone, Copy, Debug, PartialEq, Eq)]
pub enum Kind {
    Supervisor,
    Guard,
    Forced,
}

impl Kind {
    /// The work memory that it is lent.
    pub fn lent(self) -> &'static [Slice] {
        match self {
            Kind::Supervisor => work::SUPERVISOR,
            Kind::Guard => work::GUARD,
            Kind::Forced => work::FORCED,
        }
    }

    /// The reference's answer; the memory holds what it made afterwards.
    fn by_reference(self, sheet: &[u8], result: &mut [u8]) -> Answer {
        let made = match self {
            Kind::Supervisor => reference::make_supervisor(sheet, result),
            Kind::Guard => reference::make_guard(sheet, result),
            Kind::Forced => reference::make_forced(sheet, result),
        };
        let figures =
            made.map_or([0; calls::FIGURES], |made| [made.length as u64, made.states as u64]);
        (subject::number(&made), figures)
    }

    /// The library's answer.
    fn by_library(self, sheet: &[u8], result: &mut [u8], work: &mut Work) -> Answer {
        let mut figures = [u64::MAX; calls::FIGURES];
        let number = match self {
            Kind::Supervisor => calls::make_supervisor(sheet, result, work, &mut figures),
            Kind::Guard => calls::make_guard(sheet, result, work, &mut figures),
            Kind::Forced => calls::forced(sheet, result, work, &mut figures),
        };
        (number, figures)
    }

    /// The length of what the reference makes; 0 if the sheet is refused.
    fn length(self, sheet: &[u8]) -> usize {
        let (_, [length, _]) = self.by_reference(sheet, &mut [0; reference::GUARD_BYTES_MOST]);
        length as usize
    }
}

/// One call on one sheet, with result memory of a length about the answer's, and at times a slice of
/// work memory too short; answers the number.
pub fn compare(kind: Kind, sheet: &[u8], random: &mut Random) -> u32 {
    let length = kind.length(sheet);
    let room = match random.below(6) {
        0 => length,
        1 => length.saturating_sub(1),
        2 => random.below(length + 1),
        3 => 0,
        _ => length + random.below(64),
    };
    let mut work = work::any(random, 40);
    let short = random.once_in(8);
    if short {
        work::shorten(&mut work, random.pick(kind.lent()), random);
    }
    compare_in(kind, sheet, room, work, random)
}

/// One call with result memory of so many bytes and work memory that may have one slice too short;
/// answers the number.
pub fn compare_in(
    kind: Kind,
    sheet: &[u8],
    room: usize,
    mut work: Work,
    random: &mut Random,
) -> u32 {
    // The result memory lies inside a longer one, whose other bytes must stay as they are.
    let mut memory = random.bytes(room + 2 * MARGIN);
    let mut expected = memory.clone();
    let lent = MARGIN..MARGIN + room;
    let answer = match work::is_short(kind.lent(), &work) {
        true => (Refusal::ShortWork.number(), [0; calls::FIGURES]),
        false => kind.by_reference(sheet, &mut expected[lent.clone()]),
    };
    let (before, read) = (work.clone(), sheet.to_vec());
    let found = kind.by_library(&read, &mut memory[lent], &mut work);
    assert_eq!(found, answer, "{kind:?}");
    assert!(memory == expected, "{kind:?}: the result memory differs");
    assert!(read == sheet, "{kind:?}: the sheet was written");
    work::check(kind.lent(), &before, &work);
    answer.0
}
