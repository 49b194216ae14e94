//! How inputs force a break.

use reference::{Made, Refusal, FORCED_BYTES_MOST};

use crate::product::Product;
use crate::steps::Stepper;

/// The bytes of an entry before its monitors: steps in two, then the input.
const FORCE: usize = 3;
/// The byte that names no monitor.
const NO_MONITOR: u8 = 255;

/// The play, from the rounds: all that is dropped in a round is forced in as many steps, by the lowest
/// input that then has no answer. What the first one drops is a step from its end, and monitors are
/// sought there alone. Refused 23, 9.
pub fn make(stepper: &Stepper, product: &Product, result: &mut [u8]) -> Result<Made, Refusal> {
    let width = FORCE + stepper.sheet.output_count();
    let length = width * product.count();
    // Entries of kept states, until one is dropped.
    let mut play = [NO_MONITOR; FORCED_BYTES_MOST];
    play[..length].chunks_exact_mut(width).for_each(|entry| entry[..FORCE].fill(0));
    let kept = product.rounds(|state, round, input| {
        let (force, monitors) = play[width * state..][..width].split_at_mut(FORCE);
        let [low, high] = round.to_le_bytes();
        force.copy_from_slice(&[low, high, input as u8]);
        if round == 1 {
            stepper.name_broken(product.packed[state], input, monitors);
        }
    });
    if kept[0] {
        return Err(Refusal::Realizable);
    }
    result.get_mut(..length).ok_or(Refusal::ShortResult)?.copy_from_slice(&play[..length]);
    Ok(Made { length, states: product.count() })
}
