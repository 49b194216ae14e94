//! `guard order` against the preferences themselves: every order of 1 to 3 lines, in sheets of both modes.

mod common;

use common::{guard, hexadecimal, setting};
use conformance::orders::{holds, orders, sequence};
use conformance::{cases, generate, seed, Random};
use guard::sheet::{Literal, Sheet};

/// The whole text, by made-up names.
fn expected(order: &[Literal]) -> String {
    let lines = order.len() as u8;
    let sign = |on| if on { "" } else { "!" };
    let names = order.iter().map(|literal| format!("{}out{}", sign(literal.on), literal.line));
    let mut text = format!("prefer {}\n", names.collect::<Vec<_>>().join(", "));
    for (place, output) in sequence(order).into_iter().enumerate() {
        // A digit for each preference: 1 if the output has the line as preferred.
        let digits = order.iter().map(|&literal| if holds(literal, output) { '1' } else { '0' });
        let (rank, digits) = ((1 << lines) - 1 - place, digits.collect::<String>());
        let setting = setting("out", lines, output);
        text += &format!("rank {rank}  {digits}  output {output}  {setting}\n");
    }
    text
}

#[test]
#[cfg_attr(not(guard_library), ignore = "needs the library: tools/library")]
fn every_order_is_told() {
    for lines in 1..=Sheet::LINES_OUT_MOST as u8 {
        for order in orders(lines) {
            for new in [Sheet::controller, Sheet::shield] {
                let bytes = new(0, lines).prefer(&order[..]).to_bytes();
                let done = guard(&["order", "-"], hexadecimal(&bytes).as_bytes());
                assert_eq!((done.status, done.err.as_str()), (0, ""), "{order:?}");
                assert_eq!(done.text(), expected(&order));
            }
        }
    }
}

/// The order is the head's alone: it is told of every sheet that none of 1 to 6 is due of, and of no other.
#[test]
#[cfg_attr(not(guard_library), ignore = "needs the library: tools/library")]
fn every_sheet_in_bounds_has_its_order() {
    let (mut told, mut refused) = ([0; 2], 0);
    for case in 0..cases(2_000) {
        let bytes = generate::any_sheet(&mut Random::new(seed(), case));
        let done = guard(&["order", "-"], hexadecimal(&bytes).as_bytes());
        let Ok(read) = reference::Sheet::parse(&bytes) else {
            assert_eq!((done.status, done.out.len()), (1, 0), "case {case}: {}", done.err);
            refused += 1;
            continue;
        };
        let order = read.literals.iter();
        let order: Vec<Literal> =
            order.map(|literal| Literal { line: literal.line, on: literal.on }).collect();
        assert_eq!((done.status, done.err.as_str()), (0, ""), "case {case}");
        assert_eq!(done.text(), expected(&order), "case {case}");
        told[usize::from(reference::guard_table(&bytes).is_err())] += 1;
    }
    assert!(told.iter().all(|&count| count > 100) && refused > 100, "{told:?}, {refused}");
}
