//! The makers in safe Rust, written for speed.
//!
//! Sheets are read by the crate `reference`, and refusals and figures are its; everything after
//! the reading is made anew. A product state is one number, a step out of it is found for all
//! letters at once, and each phase reads the steps in the order in which they lie.

#![forbid(unsafe_code)]

mod forced;
mod forecast;
mod plan;
mod product;
mod steps;

use reference::{Made, Prospect, Refusal, Sheet};

use crate::plan::Entry;
use crate::product::{Product, CELLS};
use crate::steps::Stepper;

/// A sheet's product and which of its states are kept; refused 1 to 8.
fn solve(bytes: &[u8]) -> Result<(Sheet, Product, [bool; CELLS]), Refusal> {
    let sheet = Sheet::parse(bytes)?;
    let product = Product::explore(&Stepper::new(&sheet))?;
    let kept = product.kept();
    if !kept[0] {
        return Err(Refusal::Unrealizable);
    }
    Ok((sheet, product, kept))
}

/// The table's head, written, and the memory for its rows of so many bytes; 9 if they don't fit.
fn open<'a>(
    result: &'a mut [u8],
    head: &[u8],
    row: usize,
    states: usize,
) -> Result<(Made, std::slice::ChunksExactMut<'a, u8>), Refusal> {
    let length = head.len() + 2 + row * states;
    let table = result.get_mut(..length).ok_or(Refusal::ShortResult)?;
    let (start, rows) = table.split_at_mut(head.len() + 2);
    start[..head.len()].copy_from_slice(head);
    start[head.len()..].copy_from_slice(&(states as u16).to_le_bytes());
    Ok((Made { length, states }, rows.chunks_exact_mut(row)))
}

/// Makes the supervisor table of a sheet at the start of the result memory, as the reference does.
pub fn make_supervisor(sheet: &[u8], result: &mut [u8]) -> Result<Made, Refusal> {
    let (sheet, product, kept) = solve(sheet)?;
    let ins = sheet.input_count();
    let head = [5, 0, 19, 0, sheet.mode as u8, sheet.inputs, sheet.outputs];
    let (made, rows) = open(result, &head, 5 + ins, product.count())?;
    for (state, row) in rows.enumerate() {
        row[..5].copy_from_slice(&[1 + ins as u8, 0, 18, 0, u8::from(kept[state])]);
        row[5..].fill(0);
        if kept[state] {
            for (mask, next) in row[5..].iter_mut().zip(product.by_input(state)) {
                let bits = next.iter().rev().map(|&n| u8::from(kept[usize::from(n) % CELLS]));
                *mask = bits.fold(0, |mask, bit| mask << 1 | bit);
            }
        }
    }
    Ok(made)
}

/// The most states of a guard whose rows have a byte for the next state.
const NARROW_STATES_MOST: usize = 256;

/// Makes the guard table of a sheet at the start of the result memory, as the reference does.
pub fn make_guard(sheet: &[u8], result: &mut [u8]) -> Result<Made, Refusal> {
    let (sheet, product, kept) = solve(sheet)?;
    let entries = plan::plan(&sheet, &product, &kept);
    let narrow = |(output, next): Entry| [output, next as u8];
    let wide = |(output, next): Entry| [output, next as u8, (next >> 8) as u8];
    match entries.len() / sheet.input_count() <= NARROW_STATES_MOST {
        true => write_guard(&sheet, &entries, 17, narrow, result),
        false => write_guard(&sheet, &entries, 20, wide, result),
    }
}

/// Writes the guard table with rows of a kind, an entry of which has so many bytes.
fn write_guard<const BYTES: usize>(
    sheet: &Sheet,
    entries: &[Entry],
    kind: u8,
    bytes_of: impl Fn(Entry) -> [u8; BYTES],
    result: &mut [u8],
) -> Result<Made, Refusal> {
    let ins = sheet.input_count();
    let head = [6, 0, 16, 0, sheet.mode as u8, sheet.inputs, sheet.outputs, sheet.horizon];
    let (made, rows) = open(result, &head, 4 + BYTES * ins, entries.len() / ins)?;
    for (row, entries) in rows.zip(entries.chunks_exact(ins)) {
        row[..4].copy_from_slice(&[(BYTES * ins) as u8, 0, kind, 0]);
        for (bytes, &entry) in row[4..].chunks_exact_mut(BYTES).zip(entries) {
            bytes.copy_from_slice(&bytes_of(entry));
        }
    }
    Ok(made)
}

/// Writes the play that beats a sheet at the start of the result memory, as the reference does.
pub fn make_forced(sheet: &[u8], result: &mut [u8]) -> Result<Made, Refusal> {
    let sheet = Sheet::parse(sheet)?;
    let stepper = Stepper::new(&sheet);
    forced::make(&stepper, &Product::explore(&stepper)?, result)
}

/// The prospect of each product state of a sheet, as the reference tells it.
pub fn forecast(sheet: &[u8]) -> Result<Vec<Prospect>, Refusal> {
    let (sheet, product, kept) = solve(sheet)?;
    Ok(forecast::forecast(&sheet, &product, &kept))
}
