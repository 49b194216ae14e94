use crate::calls::{self, FIGURES, NO_MONITOR};
use crate::tables::made;
use crate::work::{OUTPUTS_MOST, STATES_MOST};
use crate::{Made, Refusal, Work};

/// The bytes of an entry before its monitors: steps in two, then the input.
const FORCE: usize = 3;

/// How inputs force a break from a product state that is not kept, whatever the outputs are.
#[derive(Clone, Copy, Debug, PartialEq, Eq, Hash)]
pub struct Force {
    /// The least number of steps in which they can, the broken one counted.
    pub steps: u16,
    /// The lowest input that begins to, in so many steps. A shield's has site and proposal.
    pub input: u8,
}

/// The play that beats an unrealizable sheet: how each product state is forced, and at the last step which
/// monitor each output breaks. The states are numbered as a supervisor table's are.
#[derive(Clone, Debug, PartialEq, Eq, Hash)]
pub struct Forced {
    bytes: Vec<u8>,
    states: usize,
}

impl Forced {
    /// The length of the longest play.
    pub const BYTES_MOST: usize = STATES_MOST * (FORCE + OUTPUTS_MOST);

    /// Makes the play of a sheet. Refused as a supervisor is, but [`Refusal::Realizable`] in the place
    /// of [`Refusal::Unrealizable`].
    pub fn make(sheet: &[u8], work: &mut Work) -> Result<Forced, Refusal> {
        let mut bytes = vec![0; Forced::BYTES_MOST];
        let made = Forced::make_into(sheet, &mut bytes, work)?;
        bytes.truncate(made.length);
        Ok(Forced { bytes, states: made.states })
    }

    /// Makes the play of a sheet in the caller's memory; a refusal leaves it as it was.
    pub fn make_into(sheet: &[u8], result: &mut [u8], work: &mut Work) -> Result<Made, Refusal> {
        let mut figures = [0; FIGURES];
        made(calls::forced(sheet, result, work, &mut figures), figures)
    }

    /// The play: for each product state its steps in two bytes and its input, all 0 where it is kept;
    /// then for each output the monitor that it breaks, or [`NO_MONITOR`].
    pub fn as_bytes(&self) -> &[u8] {
        &self.bytes
    }

    /// The number of product states.
    pub fn states(&self) -> usize {
        self.states
    }

    /// How a product state is forced; nothing where it is kept, or where there is no such state.
    pub fn get(&self, state: usize) -> Option<Force> {
        let &[low, high, input, ..] = self.entry(state)? else { return None };
        let steps = u16::from_le_bytes([low, high]);
        (steps > 0).then_some(Force { steps, input })
    }

    /// How each product state is forced, in number order; nothing where it is kept.
    pub fn iter(&self) -> impl ExactSizeIterator<Item = Option<Force>> + '_ {
        (0..self.states).map(|state| self.get(state))
    }

    /// The monitor, counted from 0 in the sheet, that an output breaks at the input of a product state
    /// one step from its end: of several the first. Nothing elsewhere, or where there is no such state
    /// or output.
    pub fn broken_by(&self, state: usize, output: u8) -> Option<usize> {
        let &monitor = self.entry(state)?.get(FORCE + usize::from(output))?;
        (monitor != NO_MONITOR).then_some(usize::from(monitor))
    }

    /// The bytes of a product state: all have equally many.
    fn entry(&self, state: usize) -> Option<&[u8]> {
        let length = self.bytes.len().checked_div(self.states).filter(|_| state < self.states)?;
        Some(&self.bytes[length * state..][..length])
    }
}

impl AsRef<[u8]> for Forced {
    fn as_ref(&self) -> &[u8] {
        &self.bytes
    }
}

#[cfg(test)]
mod tests {
    use super::*;

    /// A play of four states and two outputs.
    fn forced() -> Forced {
        let rows =
            [[2, 0, 1, 255, 255], [0, 0, 0, 255, 255], [0, 1, 15, 255, 255], [1, 0, 0, 5, 0]];
        Forced { bytes: rows.concat(), states: rows.len() }
    }

    #[test]
    fn a_play_is_read_entry_by_entry() {
        let forced = forced();
        let force = |steps, input| Some(Force { steps, input });
        let expected = [force(2, 1), None, force(256, 15), force(1, 0)];
        assert!(forced.iter().eq(expected));
        assert_eq!((forced.states(), forced.iter().len()), (4, 4));
        assert_eq!([0, 1, 2, 3].map(|state| forced.get(state)), expected);
        assert_eq!(forced.get(4), None);
    }

    #[test]
    fn monitors_are_named_at_the_last_step() {
        let forced = forced();
        for state in 0..5 {
            let broken = [0, 1, 2, 255].map(|output| forced.broken_by(state, output));
            let last = [Some(5), Some(0), None, None];
            assert_eq!(broken, if state == 3 { last } else { [None; 4] }, "state {state}");
        }
    }

    /// Figures that the proved library never reports make nothing panic.
    #[test]
    fn a_play_of_any_figures_is_read() {
        for (length, states) in [(0, 0), (7, 0), (0, 3), (7, 3), (7, 100), (7, usize::MAX)] {
            let forced = Forced { bytes: vec![1; length], states };
            for state in [0, 1, 6, 99, usize::MAX - 1, usize::MAX] {
                assert_eq!((forced.get(state), forced.broken_by(state, 0)), (None, None));
            }
        }
    }
}
