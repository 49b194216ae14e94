//! Rewards over the horizon, and the choice they lead to.

use crate::{Kept, Product, Sheet};

/// The most guard inputs, of four lines.
const INPUTS_MOST: usize = 16;

/// The best that each kept state can still earn in H steps, added over all input words.
#[derive(Clone, Debug)]
pub struct Values {
    best: Vec<u64>,
    /// inputs x H: a step's reward counts once for each word that may follow.
    shift: u32,
    order: Vec<u8>,
}

impl Values {
    /// Best(s, H) for each kept state.
    pub fn over_horizon(sheet: &Sheet, product: &Product, kept: &Kept) -> Values {
        let inputs = u32::from(sheet.inputs);
        let mut best = vec![0u64; product.count()];
        let mut before = best.clone();
        for p in 1..=u32::from(sheet.horizon) {
            std::mem::swap(&mut best, &mut before);
            for (state, value) in best.iter_mut().enumerate().filter(|(s, _)| kept.is_kept(*s)) {
                // The largest by input; a kept state has an allowed output for each.
                let mut largest = [0; INPUTS_MOST];
                for edges in product.edges_of(state).chunks_exact(product.input_count()) {
                    for (most, edge) in largest.iter_mut().zip(edges) {
                        if let Some(next) = edge.next().filter(|&next| kept.is_kept(next)) {
                            let score = (edge.reward() << (inputs * (p - 1))) + before[next];
                            *most = score.max(*most);
                        }
                    }
                }
                *value = largest.iter().sum();
            }
        }
        let shift = inputs * u32::from(sheet.horizon);
        Values { best, shift, order: sheet.output_order() }
    }

    /// Best(s, H); 0 for a state that is not kept.
    pub fn best(&self, state: usize) -> u64 {
        self.best[state]
    }

    /// What the best plans that begin with the output earn; nothing if it is not allowed.
    pub fn score(
        &self,
        product: &Product,
        kept: &Kept,
        state: usize,
        input: usize,
        output: usize,
    ) -> Option<u64> {
        let (next, reward) = kept.allowed(product, state, input, output)?;
        Some((reward << self.shift) + self.best[next])
    }

    /// The output with the largest score, the highest of them in the sheet's order, and the
    /// state after it.
    pub fn choice(
        &self,
        product: &Product,
        kept: &Kept,
        state: usize,
        input: usize,
    ) -> Option<(u8, usize)> {
        let mut found = None;
        for &output in &self.order {
            let o = usize::from(output);
            if let Some((next, reward)) = kept.allowed(product, state, input, o) {
                let score = (reward << self.shift) + self.best[next];
                if found.is_none_or(|(most, _)| score > most) {
                    found = Some((score, (output, next)));
                }
            }
        }
        found.map(|(_, choice)| choice)
    }
}
