//! Every order of preference, sheets in which several outputs are equally good, and which of these an
//! order asks for: literal by literal, without ranks.

use guard::sheet::{Literal, Sheet};

/// Every order of so many output lines: each line once, on or off.
pub fn orders(lines: u8) -> Vec<Vec<Literal>> {
    let none = vec![Vec::new()];
    (0..lines).fold(none, |orders, _| {
        orders.into_iter().flat_map(|order| with_one_more(&order, lines)).collect()
    })
}

/// The order with one literal more, in every way.
fn with_one_more(order: &[Literal], lines: u8) -> Vec<Vec<Literal>> {
    let left = (0..lines).filter(|&line| order.iter().all(|literal| literal.line != line));
    left.flat_map(|line| [true, false].map(|on| Literal { line, on }))
        .map(|literal| [order, &[literal]].concat())
        .collect()
}

/// Every set of outputs of so many lines but the empty one.
pub fn sets(lines: u8) -> impl Iterator<Item = Vec<u8>> {
    let count = 1u32 << lines;
    (1..1u32 << count).map(move |set| (0..count as u8).filter(|o| set >> o & 1 == 1).collect())
}

/// A controller without lines in that may give these outputs and no other.
pub fn allowing(order: &[Literal], outputs: &[u8]) -> Sheet {
    let next = |_, output| u8::from(!outputs.contains(&output));
    Sheet::controller(0, order.len() as u8).prefer(order).hard(2, |state| state == 0, next)
}

/// Such a controller that may give every output and earns by these alone.
pub fn earning(order: &[Literal], outputs: &[u8]) -> Sheet {
    let next = |_, output| u8::from(outputs.contains(&output));
    Sheet::controller(0, order.len() as u8).prefer(order).soft(1, 2, |state| state == 1, next)
}

/// Whether the output has the line as preferred.
pub fn holds(literal: Literal, output: u8) -> bool {
    (output >> literal.line & 1 == 1) == literal.on
}

/// The output that the order asks for: of those left, the ones that have the first line as preferred, if
/// there are any; of these the ones that have the second; and so on.
pub fn preferred(order: &[Literal], outputs: &[u8]) -> u8 {
    let mut left = outputs.to_vec();
    for &literal in order {
        if left.iter().any(|&output| holds(literal, output)) {
            left.retain(|&output| holds(literal, output));
        }
    }
    assert_eq!(left.len(), 1, "each line once leaves one output");
    left[0]
}

/// All outputs, the preferred first.
pub fn sequence(order: &[Literal]) -> Vec<u8> {
    let mut left: Vec<u8> = (0..1 << order.len()).collect();
    let mut sequence = Vec::with_capacity(left.len());
    while !left.is_empty() {
        let output = preferred(order, &left);
        left.retain(|&other| other != output);
        sequence.push(output);
    }
    sequence
}
