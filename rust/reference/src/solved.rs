//! A sheet solved: what every table and the forecast are made from.

use crate::{Kept, Product, Refusal, Sheet};

/// A sheet with its product and rounds, none of the refusals 1 to 8 applying.
pub(crate) struct Solved {
    pub sheet: Sheet,
    pub product: Product,
    pub kept: Kept,
}

impl Solved {
    pub fn from_bytes(sheet: &[u8]) -> Result<Solved, Refusal> {
        let sheet = Sheet::parse(sheet)?;
        let product = Product::explore(&sheet)?;
        let kept = Kept::by_rounds(&product);
        if !kept.is_kept(0) {
            return Err(Refusal::Unrealizable);
        }
        Ok(Solved { sheet, product, kept })
    }
}
