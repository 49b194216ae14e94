//! How well each state can still do.
//!
//! Averages are worked out as such: a step's reward counts once, and a state's average is the mean over
//! its inputs. They are multiples of 2^-24 and below 2^16, so that floats add and divide them exactly.

use reference::{Averages, Prospect, Sheet};

use crate::plan::{arriving, matching};
use crate::product::{Product, CELLS};
use crate::steps::LETTERS_MOST;

/// The best average, and the least with its sign turned: the largest is sought of both.
type Pair = [f64; 2];

/// What isn't allowed: below every other, whatever is added.
const NEVER: Pair = [f64::NEG_INFINITY; 2];

/// The prospects of all product states.
pub fn forecast(sheet: &Sheet, product: &Product, kept: &[bool; CELLS]) -> Vec<Prospect> {
    let pairs = match sheet.outputs {
        1 => pairs::<2>(sheet, product, kept),
        2 => pairs::<4>(sheet, product, kept),
        _ => pairs::<8>(sheet, product, kept),
    };
    let prospect = |(&[best, turned], &kept): (&Pair, &bool)| match kept {
        false => Prospect::Lost,
        // 0 - x is never a negative 0.
        true => Prospect::Worth(Averages { best, least: 0.0 - turned }),
    };
    pairs.iter().zip(kept).map(prospect).collect()
}

/// The averages where there are so many outputs.
fn pairs<const OUTS: usize>(sheet: &Sheet, product: &Product, kept: &[bool; CELLS]) -> Vec<Pair> {
    let rewards: Vec<Pair> =
        product.packed.iter().map(|&tuple| both(arriving(sheet, tuple))).collect();
    let mut bonus = [[0.0; 2]; LETTERS_MOST];
    for (at, bonus) in bonus.iter_mut().enumerate() {
        *bonus = both(matching::<OUTS>(sheet, at));
    }
    let each_input = 1.0 / sheet.input_count() as f64;
    let mut pairs = vec![[0.0; 2]; product.count()];
    // What a step is worth with all that follows is this of the state after it and of its letter.
    let mut worth = [NEVER; CELLS];
    for _ in 0..sheet.horizon {
        for (state, (reward, pair)) in rewards.iter().zip(&pairs).enumerate() {
            worth[state] = if kept[state] { add(*reward, *pair) } else { NEVER };
        }
        for (state, pair) in pairs.iter_mut().enumerate().filter(|(state, _)| kept[*state]) {
            let by_input = product.by_input(state).zip(bonus.chunks_exact(OUTS));
            let sum = by_input.map(|(next, bonus)| largest::<OUTS>(next, bonus, &worth));
            *pair = sum.fold([0.0; 2], add).map(|sum| sum * each_input);
        }
    }
    pairs
}

/// A reward as it counts for both.
fn both(reward: i64) -> Pair {
    [reward as f64, -(reward as f64)]
}

fn add([a, b]: Pair, [c, d]: Pair) -> Pair {
    [a + c, b + d]
}

/// The larger of each; no number here is none.
fn larger([a, b]: Pair, [c, d]: Pair) -> Pair {
    [if a > c { a } else { c }, if b > d { b } else { d }]
}

/// The largest of both over the outputs for an input.
fn largest<const OUTS: usize>(next: &[u16], bonus: &[Pair], worth: &[Pair; CELLS]) -> Pair {
    let score = |o: usize| add(worth[usize::from(next[o]) % CELLS], bonus[o]);
    (1..OUTS).fold(score(0), |most, o| larger(most, score(o)))
}
