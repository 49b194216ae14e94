//! Outputs that are equally good: every order of preference of 1 to 3 lines, with every set of outputs
//! that may be given, or that earn the same; the guard's output is the one that the literals ask for, one
//! after the other.

use conformance::orders::{allowing, earning, orders, preferred, sets};
use guard::sheet::{Literal, Sheet};
use guard::{Guard, Work};

/// A sheet in which these outputs are equally good, and better than all others.
type Tied = fn(&[Literal], &[u8]) -> Sheet;

/// Both kinds of such sheets.
const KINDS: [Tied; 2] = [allowing, earning];

/// Holds the output that a guard gives, by the sheet's bytes, to the order; answers how many sheets there
/// were.
fn hold(given: impl Fn(&[u8]) -> u8) -> usize {
    let mut count = 0;
    for lines in 1..=Sheet::LINES_OUT_MOST as u8 {
        for order in orders(lines) {
            for outputs in sets(lines) {
                for kind in KINDS {
                    let sheet = kind(&order, &outputs).to_bytes();
                    let expected = preferred(&order, &outputs);
                    assert_eq!(given(&sheet), expected, "{order:?} of {outputs:?}");
                    count += 1;
                }
            }
        }
    }
    count
}

/// What stands before the first entry's output in a guard table: the head's record, and the first row's
/// header.
const HEAD: usize = 4 + 6;
const HEADER: usize = 4;

fn first_output(table: Result<Vec<u8>, reference::Refusal>) -> u8 {
    table.expect("accepted")[HEAD + HEADER]
}

/// 2, 8 and 48 orders, each with 3, 15 and 255 sets, in two kinds of sheets.
const SHEETS: usize = 2 * (2 * 3 + 8 * 15 + 48 * 255);

#[test]
#[cfg_attr(not(guard_library), ignore = "needs the library: tools/library")]
fn the_library_keeps_every_order() {
    let count = hold(|sheet| Guard::make(sheet, &mut Work::new()).expect("accepted").entry(0, 0).0);
    assert_eq!(count, SHEETS);
}

#[test]
fn the_reference_keeps_every_order() {
    assert_eq!(hold(|sheet| first_output(reference::guard_table(sheet))), SHEETS);
}

#[test]
fn tuned_keeps_every_order() {
    let count = hold(|sheet| {
        let mut result = vec![0; reference::GUARD_BYTES_MOST];
        let made = tuned::make_guard(sheet, &mut result);
        first_output(made.map(|made| result[..made.length].to_vec()))
    });
    assert_eq!(count, SHEETS);
}
