//! The library's calls as they are: one function each, with the numbers of document 01.
//!
//! This is the only module with unsafe code, and the only place that knows the signatures, which
//! are those of crates/hundlezoqa_c/src/lib.rt. For each, 0 is "not refused". A slice crosses as a pointer
//! and a length in elements, an array as a pointer alone, and the symbol ends in its size; the library
//! reads through `*const`, reads and writes through `*mut`, and keeps no pointer when it returns.

use crate::work::STATES_MOST;
use crate::Work;

/// The bytes of a board: loaded (true only for the byte 1), mode, inputs, outputs, then count and
/// place in two bytes each, steps and deviations in four bytes each, little-endian.
pub const BOARD_BYTES: usize = 16;

/// The figures that a maker reports: its result's length and number of states, or zeros.
pub const FIGURES: usize = 2;

/// The figures that a listing reports: the text's length, or zero.
pub const LISTING_FIGURES: usize = 1;

/// The words of a forecast card: the number of product states, then for each of as many as there
/// may be the bits of its best average and of its least, [`LOST`] where there are none.
pub const CARD_WORDS: usize = 1 + 2 * STATES_MOST;

/// Both words of a card's entry for a state that is lost, or that there isn't. No average has these
/// bits.
pub const LOST: u64 = u64::MAX;

/// The byte of a play that names no monitor: a sheet has at most six.
pub const NO_MONITOR: u8 = u8::MAX;

/// Declares the library's functions, and where the library was not found their stand-ins.
macro_rules! library {
    ($(fn $name:ident($($argument:ident: $type:ty),* $(,)?) -> $answer:ty;)*) => {
        #[cfg(guard_library)]
        extern "C" {
            $(fn $name($($argument: $type),*) -> $answer;)*
        }
        $(
            #[cfg(not(guard_library))]
            #[allow(clippy::too_many_arguments)]
            unsafe fn $name($(_: $type),*) -> $answer {
                panic!("built without the library: run `tools/library` and build again")
            }
        )*
    };
}

library! {
    fn hz_make_supervisor_2(
        sheet: *const u8, sheet_len: usize,
        result: *mut u8, result_len: usize,
        tuples: *mut u64, tuples_len: usize,
        cells: *mut u16, cells_len: usize,
        dropped: *mut u16, dropped_len: usize,
        figures: *mut [u64; FIGURES],
    ) -> u32;
    fn hz_make_guard_2(
        sheet: *const u8, sheet_len: usize,
        result: *mut u8, result_len: usize,
        tuples: *mut u64, tuples_len: usize,
        cells: *mut u16, cells_len: usize,
        dropped: *mut u16, dropped_len: usize,
        gains: *mut u16, gains_len: usize,
        bonuses: *mut u16, bonuses_len: usize,
        values: *mut u64, values_len: usize,
        arrivals: *mut u64, arrivals_len: usize,
        order: *mut u16, order_len: usize,
        numbers: *mut u16, numbers_len: usize,
        figures: *mut [u64; FIGURES],
    ) -> u32;
    fn hz_forecast_1025(
        sheet: *const u8, sheet_len: usize,
        tuples: *mut u64, tuples_len: usize,
        cells: *mut u16, cells_len: usize,
        dropped: *mut u16, dropped_len: usize,
        gains: *mut u16, gains_len: usize,
        bonuses: *mut u16, bonuses_len: usize,
        bests: *mut u64, bests_len: usize,
        leasts: *mut u64, leasts_len: usize,
        highs: *mut u64, highs_len: usize,
        lows: *mut u64, lows_len: usize,
        card: *mut [u64; CARD_WORDS],
    ) -> u32;
    fn hz_forced_2(
        sheet: *const u8, sheet_len: usize,
        result: *mut u8, result_len: usize,
        tuples: *mut u64, tuples_len: usize,
        cells: *mut u16, cells_len: usize,
        dropped: *mut u16, dropped_len: usize,
        figures: *mut [u64; FIGURES],
    ) -> u32;
    fn hz_load_16(board: *mut [u8; BOARD_BYTES], table: *const u8, table_len: usize) -> u32;
    fn hz_step_16(
        board: *mut [u8; BOARD_BYTES],
        table: *const u8, table_len: usize,
        input: u8,
    ) -> u32;
    fn hz_rewind_16(board: *mut [u8; BOARD_BYTES]) -> u32;
    fn hz_unload_16(board: *mut [u8; BOARD_BYTES]) -> u32;
    fn hz_list_1(
        table: *const u8, table_len: usize,
        text: *mut u8, text_len: usize,
        figures: *mut [u64; LISTING_FIGURES],
    ) -> u32;
}

/// Makes a supervisor table; `work` lends tuples, cells and dropped.
pub fn make_supervisor(
    sheet: &[u8],
    result: &mut [u8],
    work: &mut Work,
    figures: &mut [u64; FIGURES],
) -> u32 {
    // SAFETY: `sheet` is valid for reads of its length. `result`, `figures` and the vectors tuples,
    // cells and dropped are each valid for reads and writes of their own length; each is borrowed
    // by `&mut` or owned by what is, so that no two of the six overlap. The figures are the two
    // that the symbol names, by their type; any other length may be, and what is too short is refused.
    unsafe {
        hz_make_supervisor_2(
            sheet.as_ptr(),
            sheet.len(),
            result.as_mut_ptr(),
            result.len(),
            work.tuples.as_mut_ptr(),
            work.tuples.len(),
            work.cells.as_mut_ptr(),
            work.cells.len(),
            work.dropped.as_mut_ptr(),
            work.dropped.len(),
            figures,
        )
    }
}

/// Makes a guard table; `work` lends those and gains, bonuses, values, arrivals, order and numbers.
pub fn make_guard(
    sheet: &[u8],
    result: &mut [u8],
    work: &mut Work,
    figures: &mut [u64; FIGURES],
) -> u32 {
    // SAFETY: `sheet` is valid for reads of its length. `result`, `figures` and the nine vectors
    // that `work` lends are each valid for reads and writes of their own length; each is borrowed by
    // `&mut` or owned by what is, so that no two of the twelve overlap. The figures are the two
    // that the symbol names, by their type; any other length may be, and what is too short is refused.
    unsafe {
        hz_make_guard_2(
            sheet.as_ptr(),
            sheet.len(),
            result.as_mut_ptr(),
            result.len(),
            work.tuples.as_mut_ptr(),
            work.tuples.len(),
            work.cells.as_mut_ptr(),
            work.cells.len(),
            work.dropped.as_mut_ptr(),
            work.dropped.len(),
            work.gains.as_mut_ptr(),
            work.gains.len(),
            work.bonuses.as_mut_ptr(),
            work.bonuses.len(),
            work.values.as_mut_ptr(),
            work.values.len(),
            work.arrivals.as_mut_ptr(),
            work.arrivals.len(),
            work.order.as_mut_ptr(),
            work.order.len(),
            work.numbers.as_mut_ptr(),
            work.numbers.len(),
            figures,
        )
    }
}

/// Makes a forecast card at the start of the memory for it, which may be longer; `work` lends
/// tuples, cells, dropped, gains, bonuses, bests, leasts and both arrivals.
pub fn forecast<const WORDS: usize>(sheet: &[u8], work: &mut Work, card: &mut [u64; WORDS]) -> u32 {
    const { assert!(WORDS >= CARD_WORDS, "a card is longer") }
    // SAFETY: `sheet` is valid for reads of its length. `card` and the nine vectors that `work` lends
    // are each valid for reads and writes of their own length; each is borrowed by `&mut` or owned by
    // what is, so that no two of the eleven overlap. The card has the 1025 words that the symbol names:
    // `WORDS` was held against `CARD_WORDS`. Any other length may be, and what is too short is refused.
    unsafe {
        hz_forecast_1025(
            sheet.as_ptr(),
            sheet.len(),
            work.tuples.as_mut_ptr(),
            work.tuples.len(),
            work.cells.as_mut_ptr(),
            work.cells.len(),
            work.dropped.as_mut_ptr(),
            work.dropped.len(),
            work.gains.as_mut_ptr(),
            work.gains.len(),
            work.bonuses.as_mut_ptr(),
            work.bonuses.len(),
            work.bests.as_mut_ptr(),
            work.bests.len(),
            work.leasts.as_mut_ptr(),
            work.leasts.len(),
            work.highs.as_mut_ptr(),
            work.highs.len(),
            work.lows.as_mut_ptr(),
            work.lows.len(),
            card.as_mut_ptr().cast(),
        )
    }
}

/// Makes the play that beats an unrealizable sheet; `work` lends tuples, cells and dropped.
pub fn forced(
    sheet: &[u8],
    result: &mut [u8],
    work: &mut Work,
    figures: &mut [u64; FIGURES],
) -> u32 {
    // SAFETY: `sheet` is valid for reads of its length. `result`, `figures` and the vectors tuples,
    // cells and dropped are each valid for reads and writes of their own length; each is borrowed
    // by `&mut` or owned by what is, so that no two of the six overlap. The figures are the two
    // that the symbol names, by their type; any other length may be, and what is too short is refused.
    unsafe {
        hz_forced_2(
            sheet.as_ptr(),
            sheet.len(),
            result.as_mut_ptr(),
            result.len(),
            work.tuples.as_mut_ptr(),
            work.tuples.len(),
            work.cells.as_mut_ptr(),
            work.cells.len(),
            work.dropped.as_mut_ptr(),
            work.dropped.len(),
            figures,
        )
    }
}

/// Loads a table; [`Board::load`](crate::Board::load) says when.
pub fn load(board: &mut [u8; BOARD_BYTES], table: &[u8]) -> u32 {
    // SAFETY: `table` is valid for reads of its length, which may be any. `board` is valid for reads
    // and writes of the 16 bytes that the symbol names, by its type, and exclusive, so that it does
    // not overlap the table.
    unsafe { hz_load_16(board, table.as_ptr(), table.len()) }
}

/// Steps, and answers the number and the output. On a refusal there is no output to drive
/// ([`Board::step`](crate::Board::step)).
#[inline]
pub fn step(board: &mut [u8; BOARD_BYTES], table: &[u8], input: u8) -> (u32, u32) {
    // SAFETY: `table` is valid for reads of its length, which may be any. `board` is valid for reads
    // and writes of the 16 bytes that the symbol names, by its type, and exclusive, so that it does
    // not overlap the table. Any input may be given.
    let answer = unsafe { hz_step_16(board, table.as_ptr(), table.len(), input) };
    (answer & 0xFFFF, answer >> 16)
}

/// Rewinds; [`Board::rewind`](crate::Board::rewind) says when.
pub fn rewind(board: &mut [u8; BOARD_BYTES]) -> u32 {
    // SAFETY: `board` is exclusive, and valid for reads and writes of the 16 bytes that the symbol
    // names, by its type. Any values may stand in them.
    unsafe { hz_rewind_16(board) }
}

/// Unloads; the next load begins anew ([`Board::load`](crate::Board::load)).
pub fn unload(board: &mut [u8; BOARD_BYTES]) -> u32 {
    // SAFETY: `board` is exclusive, and valid for reads and writes of the 16 bytes that the symbol
    // names, by its type. Any values may stand in them.
    unsafe { hz_unload_16(board) }
}

/// Lists a guard table at the start of the text memory.
pub fn list(table: &[u8], text: &mut [u8], figures: &mut [u64; LISTING_FIGURES]) -> u32 {
    // SAFETY: `table` is valid for reads of its length. `text` and `figures` are each valid for reads
    // and writes of their own length, and exclusive, so that no two of the three overlap. The one
    // figure is what the symbol names, by its type; any other length may be.
    unsafe { hz_list_1(table.as_ptr(), table.len(), text.as_mut_ptr(), text.len(), figures) }
}
