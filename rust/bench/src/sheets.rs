//! The sheets that are timed.
//!
//! Where a counter isn't the point of a sheet it makes the sheet as large as it shall be.

use guard::sheet::{Literal, Sheet};

/// The parts that several sheets have.
trait Parts {
    /// A soft monitor that a line moves on, wrapping round, and that likes its start.
    fn counter(self, states: u8, line: u8) -> Self;
    /// Such a monitor that is moved on where the line is on (1) or off (0).
    fn counter_at(self, states: u8, line: u8, level: u8) -> Self;
    /// A hard monitor: the output line is never on twice running.
    fn never_twice(self, output: u8) -> Self;
}

impl Parts for Sheet {
    fn counter(self, states: u8, line: u8) -> Sheet {
        self.counter_at(states, line, 1)
    }

    fn counter_at(self, states: u8, line: u8, level: u8) -> Sheet {
        let next =
            move |state, letter: u8| (state + u8::from(letter >> line & 1 == level)) % states;
        self.soft(1 + line, states, |state| state == 0, next)
    }

    fn never_twice(self, output: u8) -> Sheet {
        let line = self.lines_in + output;
        let next = move |state: u8, letter: u8| match letter >> line & 1 {
            1 => (state + 1).min(2),
            _ => state / 2 * 2,
        };
        self.hard(3, |state| state < 2, next)
    }
}

/// A controller with lines in and out.
fn controller(lines_in: u8, outputs: u8, horizon: u8) -> Sheet {
    Sheet::controller(lines_in, outputs).horizon(horizon)
}

/// A controller without lines in and without monitors, with this order of preference.
pub fn tied(order: &[Literal]) -> Vec<u8> {
    controller(0, order.len() as u8, 0).prefer(order).to_bytes()
}

/// Sheet A of the notebook.
pub fn small() -> Vec<u8> {
    let equal = |_, letter: u8| u8::from(letter == 0 || letter == 3);
    let sheet = controller(1, 1, 1).never_twice(0);
    sheet.soft(3, 2, |state| state == 1, equal).to_bytes()
}

/// 60 product states, two lines each way.
pub fn middle() -> Vec<u8> {
    controller(2, 2, 4).never_twice(0).counter(5, 3).counter(6, 0).to_bytes()
}

/// Two counters with as many states as their product: moved by the first two output lines, or by
/// the one that there is, on or off.
pub fn counters((lines_in, outputs): (u8, u8), horizon: u8, (first, second): (u8, u8)) -> Vec<u8> {
    let sheet = controller(lines_in, outputs, horizon).counter(first, lines_in);
    match outputs {
        1 => sheet.counter_at(second, lines_in, 0).to_bytes(),
        _ => sheet.counter(second, lines_in + 1).to_bytes(),
    }
}

/// Such counters of so many states together: a power of two from 8 to 1024.
pub fn counters_of(lines: (u8, u8), horizon: u8, states: usize) -> Vec<u8> {
    let second = (states / 32).max(8);
    counters(lines, horizon, ((states / second) as u8, second as u8))
}

/// Two counters moved by the first two of four lines in: a guard comes to all their states.
pub fn counters_by_lines_in(horizon: u8, (first, second): (u8, u8)) -> Vec<u8> {
    controller(4, 2, horizon).counter(first, 0).counter(second, 1).to_bytes()
}

/// Six counters, each moved by a line of its own: 64 new states from the first one alone.
pub fn six_counters() -> Vec<u8> {
    (0..6).fold(controller(4, 2, 6), |sheet, line| sheet.counter(32, line)).to_bytes()
}

/// The bytes of a file of `sheets/` in hexadecimal.
pub fn from_text(text: &str) -> Vec<u8> {
    workbench::hexadecimal::bytes(text).expect("a sheet of the repository")
}

/// 256 product states of six monitors, four lines in and two out.
pub fn six_monitors() -> Vec<u8> {
    let sheet = controller(4, 2, 6).counter(4, 0).counter(4, 1).counter(2, 2).counter(2, 3);
    sheet.never_twice(0).never_twice(1).to_bytes()
}

/// The product states of a shield with one hard monitor, by the counter's states: as many times so
/// many as this.
const SHIELD_STATES: [usize; 4] = [0, 9, 13, 13];

/// A shield of about so many product states: one hard monitor with its copy, and a limit.
pub fn shield_of(site_lines: u8, outputs: u8, horizon: u8, states: usize) -> Vec<u8> {
    let each = SHIELD_STATES[usize::from(outputs)];
    let counter = ((states + each / 2) / each).max(1);
    shield_with(site_lines, outputs, horizon, 1, 2, counter as u8)
}

/// A shield: hard monitors of so many outputs, each with its copy; a limit of so many deviations
/// in a row; a counter moved by line 0.
pub fn shield_with(
    site_lines: u8,
    outputs: u8,
    horizon: u8,
    copies: u8,
    in_a_row: u8,
    counter: u8,
) -> Vec<u8> {
    let head = Sheet::shield(site_lines, outputs).horizon(horizon).match_weight(1);
    let sheet = (0..copies).fold(head, Sheet::never_twice);
    let next = |state: u8, letter: u8| match letter & 2 {
        2 => (state + 1).min(in_a_row + 1),
        _ => 0,
    };
    let sheet = sheet.limit(in_a_row + 2, |state| state <= in_a_row, next);
    sheet.counter(counter, 0).to_bytes()
}

/// 256 product states of two counters, and a monitor that the last input breaks at once.
pub fn lost_at_once() -> Vec<u8> {
    let sheet = controller(4, 2, 6).counter(32, 4).counter(8, 5);
    sheet.hard(2, |state| state == 0, |_, letter| u8::from(letter % 16 == 15)).to_bytes()
}

/// 128 product states: a shield that may never deviate, whatever the controller proposes.
pub fn lost_shield() -> Vec<u8> {
    shield_with(2, 2, 6, 2, 0, 32)
}

/// Some 240 rounds. Output 0 on spends one of the first monitor's states and refills the second;
/// output 0 off spends one of the second's. At the start alone, output 1 on leads to safety.
pub fn chain() -> Vec<u8> {
    const SAFE: u8 = 30;
    const SPENT: u8 = 31;
    let budget = |state: u8, letter: u8| match (state, letter >> 4 & 1, letter >> 5 & 1) {
        (0, _, 1) | (SAFE, _, _) => SAFE,
        (SPENT, _, _) => SPENT,
        (29, 1, _) => SPENT,
        (_, spends, _) => state + spends,
    };
    let refilled = |state: u8, letter: u8| match letter >> 4 & 1 {
        1 if state < 8 => 0,
        _ => (state + 1).min(8),
    };
    let sheet = controller(4, 2, 6).hard(32, |state| state != SPENT, budget);
    sheet.hard(9, |state| state != 8, refilled).to_bytes()
}

/// The library's number of buckets: a tuple lies in that of its packed number (the sum over places
/// j of state x 32^j) modulo this.
const LIBRARY_BUCKETS: usize = 521;
/// The monitors of a group that moves in lock step.
const GROUP: usize = 3;

/// Triples of monitor states, so many of them, that differ from each other in every place and add
/// nothing to a bucket wherever the three places lie together (the modulus is prime).
fn labels(count: usize) -> Vec<[u8; GROUP]> {
    let all = (0..1usize << (5 * GROUP)).filter(|packed| packed % LIBRARY_BUCKETS == 0);
    let triples: Vec<[u8; GROUP]> =
        all.map(|packed| [0, 1, 2].map(|place| (packed >> (5 * place)) as u8 % 32)).collect();
    let mut chosen = Vec::new();
    assert!(choose(&triples, count, &mut chosen), "no {count} labels for one bucket");
    chosen
}

/// Chooses so many triples more, the first that can be.
fn choose(triples: &[[u8; GROUP]], count: usize, chosen: &mut Vec<[u8; GROUP]>) -> bool {
    if chosen.len() == count {
        return true;
    }
    (0..triples.len()).any(|first| {
        let fits = chosen.iter().all(|c| c.iter().zip(&triples[first]).all(|(a, b)| a != b));
        if fits {
            chosen.push(triples[first]);
            if choose(&triples[first + 1..], count, chosen) {
                return true;
            }
            chosen.pop();
        }
        false
    })
}

/// 64 letters, and product states that all lie in one bucket of the library's: two groups of three
/// monitors, each group in lock step through so many hidden states, moved by an output line.
pub fn one_hash(hidden: usize, lines: [u8; 2]) -> Vec<u8> {
    let labels = labels(hidden);
    let mut sheet = controller(4, 2, 6);
    for line in lines {
        for place in 0..GROUP {
            let at = |state: u8| labels.iter().position(|label| label[place] == state);
            let next = |state: u8, letter: u8| match at(state) {
                Some(hidden) if letter >> line & 1 == 1 => {
                    labels[(hidden + 1) % labels.len()][place]
                }
                _ => state,
            };
            sheet = sheet.soft(1 + place as u8, 32, |state| state == 0, next);
        }
    }
    sheet.to_bytes()
}

#[cfg(test)]
mod tests {
    use super::*;
    use reference::{Product, Sheet};

    fn product(sheet: &[u8]) -> Product {
        Product::explore(&Sheet::parse(sheet).unwrap()).unwrap()
    }

    #[test]
    fn one_hash_is_one_bucket() {
        for (hidden, lines) in [(8, [4, 5]), (16, [4, 5]), (16, [0, 4]), (22, [4, 5])] {
            let product = product(&one_hash(hidden, lines));
            assert_eq!(product.count(), hidden * hidden);
            for state in 0..product.count() {
                let places = product.tuple(state).iter().rev();
                let packed = places.fold(0, |packed, &state| packed << 5 | usize::from(state));
                assert_eq!(packed % LIBRARY_BUCKETS, 0);
            }
        }
    }

    #[test]
    fn sizes_are_as_asked_for() {
        for states in [8, 16, 32, 64, 128, 256, 512] {
            for lines in [(0, 1), (0, 3), (1, 2), (4, 2)] {
                assert_eq!(product(&counters_of(lines, 0, states)).count(), states);
            }
        }
        for states in [8usize, 60, 120, 240] {
            for (site_lines, outputs) in [(0, 1), (2, 1), (0, 2), (2, 2), (0, 3)] {
                let found = product(&shield_of(site_lines, outputs, 0, states)).count();
                assert!(found.abs_diff(states) <= 6, "{found} for {states}");
            }
        }
    }
}
