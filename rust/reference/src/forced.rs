//! How inputs force a break: the play that beats an unrealizable sheet.
//!
//! A state's steps are, for the best input, one more than those of the worst answer to it; a broken
//! answer has none to come. The equations are solved on these numbers, from "never" downward; rounds
//! and kept states play no part.

use crate::tables::{room, Made};
use crate::{Product, Refusal, Sheet, STATES_MOST};

/// The steps of a state from which no break can be forced.
const NEVER: u16 = u16::MAX;
/// The byte that names no monitor.
const NO_MONITOR: u8 = 255;
/// The most outputs, of three lines.
const OUTPUTS_MOST: usize = 8;

/// The length of the longest play.
pub const FORCED_BYTES_MOST: usize = forced_len(STATES_MOST, OUTPUTS_MOST);

/// A play's length: for each state its steps in two bytes, the input, and a monitor for each output.
const fn forced_len(count: usize, outputs: usize) -> usize {
    count * (3 + outputs)
}

/// How a break is forced from a product state.
#[derive(Clone, Copy, Debug, PartialEq, Eq)]
pub struct Force {
    /// The least number of steps, the broken one counted.
    pub steps: u16,
    /// The lowest input that forces a break in so many.
    pub input: u8,
}

/// In how many steps an input forces a break if it is given now.
fn steps_by(product: &Product, steps: &[u16], state: usize, input: usize) -> u16 {
    let after = |output| product.edge(state, input, output).next().map_or(0, |next| steps[next]);
    (0..product.output_count()).map(after).max().unwrap_or(NEVER).saturating_add(1)
}

/// The force of each product state; nothing where it is kept.
fn forces(product: &Product) -> Vec<Option<Force>> {
    let mut steps = vec![NEVER; product.count()];
    let mut changed = true;
    while changed {
        changed = false;
        for state in 0..product.count() {
            let by = |input| steps_by(product, &steps, state, input);
            let least = (0..product.input_count()).map(by).min().unwrap_or(NEVER);
            changed |= least != steps[state];
            steps[state] = least;
        }
    }
    let force = |(state, &least): (usize, &u16)| {
        let forces = |&input: &usize| steps_by(product, &steps, state, input) == least;
        let input = (0..product.input_count()).find(forces)?;
        (least != NEVER).then_some(Force { steps: least, input: input as u8 })
    };
    steps.iter().enumerate().map(force).collect()
}

/// The product of a sheet and the force of each of its states. Refused 23 where the start is kept.
fn solve(sheet: &[u8]) -> Result<(Product, Vec<Option<Force>>), Refusal> {
    let product = Product::explore(&Sheet::parse(sheet)?)?;
    let forces = forces(&product);
    match forces[0] {
        Some(_) => Ok((product, forces)),
        None => Err(Refusal::Realizable),
    }
}

/// How a break is forced from each product state, in number order; nothing where the state is kept.
/// Refused 23 where the start is.
pub fn forced(sheet: &[u8]) -> Result<Vec<Option<Force>>, Refusal> {
    Ok(solve(sheet)?.1)
}

/// The monitor that an output breaks at the input of a state one step from its end; elsewhere none is
/// named.
fn monitor(product: &Product, state: usize, force: Option<Force>, output: usize) -> Option<usize> {
    let last = force.filter(|force| force.steps == 1)?;
    product.edge(state, last.input.into(), output).broken_by()
}

/// Writes the play of a sheet at the start of the result memory: for each product state the steps and
/// the input, 0 where it is kept, then by output the monitors, counted from 0 in the sheet.
///
/// A refusal leaves the result memory as it was, and bytes past the play are never touched.
pub fn make_forced(sheet: &[u8], result: &mut [u8]) -> Result<Made, Refusal> {
    let (product, forces) = solve(sheet)?;
    let length = forced_len(product.count(), product.output_count());
    let mut out = room(result, length)?;
    for (state, &force) in forces.iter().enumerate() {
        let (steps, input) = force.map_or((0, 0), |force| (force.steps, force.input));
        out.number(steps);
        out.byte(input);
        for output in 0..product.output_count() {
            out.byte(monitor(&product, state, force, output).map_or(NO_MONITOR, |j| j as u8));
        }
    }
    Ok(Made { length, states: product.count() })
}

/// The play of a sheet.
pub fn forced_bytes(sheet: &[u8]) -> Result<Vec<u8>, Refusal> {
    let mut result = vec![0; FORCED_BYTES_MOST];
    let made = make_forced(sheet, &mut result)?;
    result.truncate(made.length);
    Ok(result)
}
