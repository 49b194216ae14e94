//! The forecast card: how well each product state can still do.

use crate::solved::Solved;
use crate::Refusal;

/// What the card says of a product state.
#[derive(Clone, Copy, Debug, PartialEq)]
pub enum Prospect {
    /// It is not kept.
    Lost,
    /// It is, and so much can still be earned.
    Worth(Averages),
}

/// Average rewards over H steps: a sum over all words of H inputs, divided by their number. Both
/// are exact.
#[derive(Clone, Copy, Debug, PartialEq)]
pub struct Averages {
    /// The largest over allowed outputs at every step.
    pub best: f64,
    /// The smallest.
    pub least: f64,
}

/// The sums behind the averages.
#[derive(Clone, Copy, Default)]
struct Sums {
    best: u64,
    least: u64,
}

/// The prospect of each product state, in number order.
pub fn forecast(sheet: &[u8]) -> Result<Vec<Prospect>, Refusal> {
    let solved = Solved::from_bytes(sheet)?;
    let inputs = u32::from(solved.sheet.inputs);
    let horizon = u32::from(solved.sheet.horizon);
    let mut sums = vec![Sums::default(); solved.product.count()];
    for p in 1..=horizon {
        let following = 1 << (inputs * (p - 1));
        sums =
            (0..sums.len()).map(|state| one_step_more(&solved, state, following, &sums)).collect();
    }
    let words = (1u64 << (inputs * horizon)) as f64;
    let prospect = |(state, sums): (usize, &Sums)| match solved.kept.is_kept(state) {
        false => Prospect::Lost,
        true => Prospect::Worth(Averages {
            best: sums.best as f64 / words,
            least: sums.least as f64 / words,
        }),
    };
    Ok(sums.iter().enumerate().map(prospect).collect())
}

/// The sums of a state over a step and what comes after it; the step's reward counts for each of
/// the words that may follow. A state that is not kept has none.
fn one_step_more(solved: &Solved, state: usize, following: u64, after: &[Sums]) -> Sums {
    let Solved { product, kept, .. } = solved;
    let mut sums = Sums::default();
    for input in (0..product.input_count()).filter(|_| kept.is_kept(state)) {
        // A kept state has an allowed output for each input.
        let (mut best, mut least) = (0, u64::MAX);
        for output in 0..product.output_count() {
            if let Some((next, reward)) = kept.allowed(product, state, input, output) {
                best = best.max(reward * following + after[next].best);
                least = least.min(reward * following + after[next].least);
            }
        }
        sums.best += best;
        sums.least += least;
    }
    sums
}
