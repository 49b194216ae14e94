//! Sheets, tables and boards for the property tests: sound ones of every shape, and damaged ones.

mod tables;

pub use guard::sheet::record;
use guard::sheet::{Literal, Mode, Monitor, Role, Sheet};
use reference::Refusal;

pub use self::tables::{any_board, any_input, any_lent, any_table, table, table_of};
use crate::Random;

/// The mode and lines of a sheet's head.
#[derive(Clone, Copy, Debug, PartialEq, Eq)]
pub struct Shape {
    pub mode: Mode,
    pub lines_in: u8,
    pub outputs: u8,
}

impl Shape {
    /// Every shape that a sheet may have.
    pub fn all() -> Vec<Shape> {
        let mut shapes = Vec::new();
        for outputs in 1..=3 {
            for lines_in in 0..=4 {
                if lines_in + outputs <= 6 {
                    shapes.push(Shape { mode: Mode::Controller, lines_in, outputs });
                }
                if lines_in + outputs <= 4 && lines_in + 2 * outputs <= 6 {
                    shapes.push(Shape { mode: Mode::Shield, lines_in, outputs });
                }
            }
        }
        shapes
    }

    /// A sheet of this shape without monitors.
    fn blank(self) -> Sheet {
        match self.mode {
            Mode::Controller => Sheet::controller(self.lines_in, self.outputs),
            Mode::Shield => Sheet::shield(self.lines_in, self.outputs),
        }
    }

    /// The guard's input lines.
    pub fn inputs(self) -> u8 {
        self.blank().inputs()
    }

    /// The longest horizon.
    pub fn horizon_most(self) -> u8 {
        24 / self.inputs().max(1)
    }

    /// The letters of a monitor's rows.
    pub fn letters(self, role: Role) -> usize {
        self.blank().letters(role)
    }
}

/// A sheet's head in bounds.
pub fn head(random: &mut Random, shape: Shape) -> Vec<u8> {
    let most = shape.horizon_most();
    let horizon = match random.below(6) {
        0 => 0,
        1 => 1,
        2 => most,
        _ => random.byte_below(most + 1),
    };
    let match_weight = match (shape.mode, random.below(3)) {
        (Mode::Controller, _) | (_, 0) => 0,
        (_, 1) => random.byte_below(4),
        _ => random.byte(),
    };
    let mut lines: Vec<u8> = (0..shape.outputs).collect();
    for place in (1..lines.len()).rev() {
        lines.swap(place, random.below(place + 1));
    }
    let prefer: Vec<Literal> =
        lines.into_iter().map(|line| Literal { line, on: random.byte_below(2) == 0 }).collect();
    shape.blank().horizon(horizon).match_weight(match_weight).prefer(prefer).head()
}

/// How the next states of a monitor come about.
#[derive(Clone, Copy, Debug)]
enum Style {
    /// Anywhere.
    Wild,
    /// Stays, or now and then goes anywhere.
    Slow,
    /// Each state reads one line.
    Lines,
    /// One letter bit moves on, wrapping round.
    Counter,
    /// Some letters move on and the others stay; the last state holds.
    Budget,
    /// Some letters move on and the others go back to the start; the last state holds.
    Streak,
}

/// A monitor in bounds, with at most so many states.
pub fn monitor(random: &mut Random, shape: Shape, role: Role, most: usize) -> Vec<u8> {
    let states = 1 + random.below(most.clamp(1, 32));
    let letters = shape.letters(role);
    let bits = letters.trailing_zeros() as usize;
    let styles = [
        Style::Wild,
        Style::Slow,
        Style::Lines,
        Style::Counter,
        Style::Budget,
        Style::Streak,
        Style::Streak,
    ];
    let style = random.pick(&styles);
    let line = random.below(bits);
    let moving = random.number() & random.number();
    let start = if random.once_in(3) { random.below(states) } else { 0 };
    let mut rows = Vec::with_capacity(states * letters);
    for state in 0..states {
        let reads = random.below(bits);
        let ways = [random.below(states), random.below(states)];
        for letter in 0..letters {
            let on = (state + 1).min(states - 1);
            let moves =
                if role == Role::Limit { letter & 2 != 0 } else { moving >> letter & 1 == 1 };
            let next = match style {
                Style::Wild => random.below(states),
                Style::Slow if random.once_in(4) => random.below(states),
                Style::Slow => state,
                Style::Lines => ways[letter >> reads & 1],
                Style::Counter => (state + (letter >> line & 1)) % states,
                Style::Budget | Style::Streak if moves => on,
                Style::Budget => state,
                Style::Streak if state + 1 == states && random.once_in(2) => state,
                Style::Streak => start,
            };
            rows.push(next as u8);
        }
    }
    let accepts = (0..states)
        .map(|state| match (role, style) {
            (Role::Soft, _) => random.byte_below(2) == 1,
            (_, Style::Budget | Style::Streak) => state + 1 < states || random.once_in(4),
            _ => !random.once_in(6),
        })
        .collect();
    let weight = match (role, random.below(3)) {
        (Role::Soft, 0) => 1 + random.byte_below(4),
        (Role::Soft, 1) => 255 - random.byte_below(4),
        (Role::Soft, _) => 1 + random.byte_below(255),
        _ => 0,
    };
    Monitor { role, weight, start: start as u8, accepts, next: rows }.record()
}

/// A hard monitor that can be lost slowly: from each safe state some output keeps it safe, from a
/// state of rank r some input forces it down to a lower rank, and rank 0 is broken.
pub fn game(random: &mut Random, shape: Shape, most: usize) -> Vec<u8> {
    let safe = 1 + random.below(most.clamp(2, 12) / 2);
    let ranks = 1 + random.below(most.clamp(2, 20) - 1);
    let states = safe + ranks + 1;
    // Places 0 to safe - 1 are safe, then come the ranks from 0 up; the names are shuffled.
    let mut names: Vec<u8> = (0..states as u8).collect();
    for place in (1..states).rev() {
        names.swap(place, random.below(place + 1));
    }
    let inputs = 1 << shape.lines_in;
    let outputs = 1 << shape.outputs;
    let mut next = vec![vec![0; inputs * outputs]; states];
    let mut accepts = vec![true; states];
    for place in 0..states {
        let forced = random.below(inputs);
        for input in 0..inputs {
            let kept = random.below(outputs);
            for output in 0..outputs {
                let to = match place.checked_sub(safe) {
                    None if output == kept => random.below(safe),
                    Some(0) => place,
                    Some(rank) if input == forced && output == kept => safe + rank - 1,
                    Some(rank) if input == forced => safe + random.below(rank),
                    _ => random.below(states),
                };
                next[usize::from(names[place])][output * inputs + input] = names[to];
            }
        }
    }
    accepts[usize::from(names[safe])] = false;
    let start = if random.once_in(8) { random.below(states) } else { random.below(safe) };
    let start = names[start];
    Monitor { role: Role::Hard, weight: 0, start, accepts, next: next.concat() }.record()
}

/// A sheet that none of 1 to 6 applies to; 7 and 8 may.
pub fn sheet(random: &mut Random) -> Vec<u8> {
    match random.below(20) {
        0 | 1 => return trusting_shield(random),
        2 | 3 => return large_sheet(random),
        _ => {}
    }
    let shapes = Shape::all();
    let mode = random.pick(&[Mode::Controller, Mode::Shield]);
    let shape = loop {
        let shape = random.pick(&shapes);
        if shape.mode == mode {
            break shape;
        }
    };
    let mut bytes = head(random, shape);
    // How many product states there may be at most: above 512 some sheets are refused 7.
    let mut room: usize = random.pick(&[1, 8, 60, 200, 256, 256, 512, 1000, 5000]);
    let monitors = random.pick(&[0, 1, 2, 2, 3, 3, 4, 5, 6]);
    for _ in 0..monitors {
        let role = match shape.mode {
            Mode::Shield => {
                random.pick(&[Role::Hard, Role::Hard, Role::Soft, Role::Soft, Role::Limit])
            }
            _ => random.pick(&[Role::Hard, Role::Soft]),
        };
        let most = match (random.below(8), shape.mode, role) {
            (0, _, _) => room,
            (_, Mode::Shield, Role::Hard) => room.isqrt().min(4),
            _ => room.min(5),
        };
        let record = match role {
            Role::Hard if random.once_in(2) => game(random, shape, most.max(room.min(20))),
            _ => monitor(random, shape, role, most),
        };
        let states = usize::from(record[6]);
        let copies = if shape.mode == Mode::Shield && role == Role::Hard { states } else { 1 };
        room = (room / (states * copies)).max(1);
        bytes.extend(record);
    }
    bytes
}

/// A shield whose limit looks at sound proposals, and most of whose hard monitors never accept again
/// after a break: what it allows hangs on when the copies agree with their monitors again.
pub fn trusting_shield(random: &mut Random) -> Vec<u8> {
    let shapes = Shape::all().into_iter().filter(|shape| shape.mode == Mode::Shield);
    let shape = random.pick(&shapes.collect::<Vec<Shape>>());
    let mut bytes = head(random, shape);
    for _ in 0..1 + random.below(2) {
        bytes.extend(last_breaks(random, shape));
    }
    bytes.extend(counted_leaves(1 + random.byte_below(3), random.once_in(3)));
    bytes
}

/// A hard monitor whose last state breaks, most often for good.
fn last_breaks(random: &mut Random, shape: Shape) -> Vec<u8> {
    let (last, for_good) = (1 + random.below(3), !random.once_in(4));
    let letters = shape.letters(Role::Hard);
    let mut next: Vec<u8> =
        (0..(last + 1) * letters).map(|_| random.below(last + 1) as u8).collect();
    if for_good {
        next[last * letters..].fill(last as u8);
    }
    let accepts = (0..=last).map(|state| state < last).collect();
    Monitor { role: Role::Hard, weight: 0, start: 0, accepts, next }.record()
}

/// A limit on deviations running from sound proposals, or from all; one proposal that passes begins anew.
fn counted_leaves(most: u8, from_all: bool) -> Vec<u8> {
    let counted = |letter: u8| letter == 3 || letter == 2 && from_all;
    let next = |state: u8, letter| match (state == most, counted(letter)) {
        (true, _) => most,
        (false, true) => state + 1,
        (false, false) => 0,
    };
    let rows = (0..=most).flat_map(|state| (0..4).map(move |letter| next(state, letter)));
    let accepts = (0..=most).map(|state| state < most).collect();
    Monitor { role: Role::Limit, weight: 0, start: 0, accepts, next: rows.collect() }.record()
}

/// The states of two counters, by their product: about 256, where rows of kind 17 end, and about 512,
/// where 7 begins.
const LARGE: [(u8, u8); 14] = [
    (17, 15), // 255
    (16, 16), // 256
    (32, 8),
    (20, 13), // 260
    (32, 9),  // 288
    (30, 10), // 300
    (20, 20), // 400
    (31, 16), // 496
    (30, 17), // 510
    (32, 16), // 512
    (16, 32),
    (27, 19), // 513
    (32, 17), // 544
    (24, 25), // 600
];

/// A sheet of two counters that together have many states, at times one more, and at times a monitor that
/// can be lost. A line in leads the guard to all states of the counter that it moves, an output line to the states
/// of the outputs chosen: so guards have up to as many states as the product, or few.
pub fn large_sheet(random: &mut Random) -> Vec<u8> {
    let shape = random.pick(&Shape::all());
    let mut bytes = head(random, shape);
    let sizes = random.pick(&LARGE);
    let lines = shape.lines_in + shape.outputs;
    let first = random.byte_below(lines);
    // Another line, or where there is but one that line off.
    let second = (first + 1 + random.byte_below(lines.max(2) - 1)) % lines;
    // Both leave a start of their own at the first step, whatever the letter.
    let led_in = sizes.0.max(sizes.1) < 32 && random.once_in(3);
    bytes.extend(counter(random, shape, sizes.0, led_in, (first, true)));
    bytes.extend(counter(random, shape, sizes.1, led_in, (second, second != first)));
    match random.below(6) {
        0 => bytes.extend(game(random, shape, 2)),
        1 => bytes.extend(last_breaks(random, shape)),
        _ => {}
    }
    bytes
}

/// A monitor that never breaks, moved on round by a line that is on, or off; if it is led in, it begins in
/// one state more, which it leaves for good.
fn counter(
    random: &mut Random,
    shape: Shape,
    round: u8,
    led_in: bool,
    (line, on): (u8, bool),
) -> Vec<u8> {
    let next = |state: u8, letter: usize| match state == round {
        true => 0,
        false => (state + u8::from((letter >> line & 1 == 1) == on)) % round,
    };
    let (states, letters) = (round + u8::from(led_in), shape.letters(Role::Soft));
    let rows = (0..states).flat_map(|state| (0..letters).map(move |letter| next(state, letter)));
    // A hard one of a shield would come twice, by its copy.
    let soft = shape.mode == Mode::Shield || random.once_in(2);
    let (role, weight) =
        if soft { (Role::Soft, 1 + random.byte_below(3)) } else { (Role::Hard, 0) };
    let accepts = (0..states).map(|_| role == Role::Hard || random.once_in(4)).collect();
    let start = if led_in { round } else { random.byte_below(round) };
    Monitor { role, weight, start, accepts, next: rows.collect() }.record()
}

/// A sheet that is refused 8.
pub fn lost_sheet(random: &mut Random) -> Vec<u8> {
    loop {
        let bytes = sheet(random);
        if reference::supervisor_table(&bytes) == Err(Refusal::Unrealizable) {
            return bytes;
        }
    }
}

/// The longest play that a sheet can have, 512 product states and as many steps: each answer spends
/// something. Output line 0 on spends one of the first monitor's 17 states and brings the second back
/// to its state 2, off spends one of the second's 30 from there on; at its start the second has two
/// more, and then has spent all when it comes to its start, which does not accept. With lines in,
/// input line 0 off brings the second back for nothing.
pub fn longest_play(lines_in: u8, outputs: u8) -> Vec<u8> {
    let spends = move |letter: u8| lines_in == 0 || letter & 1 == 1;
    let on = move |letter: u8| letter >> lines_in & 1 == 1;
    let first = |state: u8, letter| (state + u8::from(spends(letter) && on(letter))).min(17);
    let second = |state: u8, letter| match (spends(letter), on(letter)) {
        (true, false) => (state + 1) % 32,
        (true, true) => 2,
        (false, _) => state.clamp(1, 2),
    };
    let sheet = Sheet::controller(lines_in, outputs).hard(18, |state| state < 17, first);
    sheet.hard(32, |state| state > 0, second).to_bytes()
}

/// Where the records of a sheet begin, as far as they can be followed.
fn starts(bytes: &[u8]) -> Vec<usize> {
    let mut starts = Vec::new();
    let mut at = 0;
    while at + 4 <= bytes.len() {
        starts.push(at);
        at += 4 + usize::from(u16::from_le_bytes([bytes[at], bytes[at + 1]]));
    }
    starts
}

/// Damages bytes that are read as records, in one way of many.
pub fn damage(random: &mut Random, bytes: &mut Vec<u8>) {
    let length = bytes.len();
    let starts = starts(bytes);
    match random.below(10) {
        0 => bytes.truncate(random.below(length + 1)),
        1 => {
            let more = 1 + random.below(5);
            bytes.extend(vec![0; more]);
        }
        2 => {
            let more = 1 + random.below(8);
            bytes.extend(random.bytes(more));
        }
        3 | 4 if length > 0 => {
            let at = random.below(length);
            bytes[at] ^= 1 << random.below(8);
        }
        5 if length > 0 => {
            let at = random.below(length.min(24));
            bytes[at] = random.pick(&[0, 1, 2, 3, 4, 5, 7, 8, 16, 25, 31, 32, 33, 128, 255]);
        }
        6 if !starts.is_empty() => {
            // A field of one record: its length, its kind, or one of the first of its body.
            let at = random.pick(&starts) + random.below(10);
            if at < length {
                bytes[at] = match random.below(3) {
                    0 => bytes[at].wrapping_add(1),
                    1 => bytes[at].wrapping_sub(1),
                    _ => random.byte(),
                };
            }
        }
        7 if !starts.is_empty() => {
            // A record once more, at the end.
            let from = random.pick(&starts);
            let to = starts.iter().copied().find(|&start| start > from).unwrap_or(length);
            let again = bytes[from..to].to_vec();
            bytes.extend(again);
        }
        8 if starts.len() > 1 => {
            // A record left out.
            let place = random.below(starts.len());
            let to = starts.get(place + 1).copied().unwrap_or(length);
            bytes.drain(starts[place]..to);
        }
        9 if length > 0 => {
            let at = random.below(length);
            if random.once_in(2) {
                bytes.remove(at);
            } else {
                bytes.insert(at, random.byte());
            }
        }
        _ => {
            let count = random.below(40);
            *bytes = random.bytes(count);
        }
    }
}

/// A head with fields about their bounds, its length most times as it should be.
fn head_about_bounds(random: &mut Random) -> Vec<u8> {
    let outputs = random.pick(&[1, 1, 2, 2, 3, 3, 0, 4]);
    let mut body = vec![
        random.pick(&[0, 0, 0, 1, 1, 1, 2]),
        random.pick(&[0, 1, 2, 2, 3, 4, 5]),
        outputs,
        random.pick(&[0, 1, 4, 6, 7, 8, 9, 12, 13, 24, 25, 255]),
        random.pick(&[0, 0, 0, 1, 255]),
    ];
    for line in 0..outputs {
        body.push(match random.below(12) {
            0 => random.pick(&[0, 3, 7, 11, 15, 16, 17, 255]),
            _ => line + 8 * random.byte_below(2),
        });
    }
    match random.below(12) {
        0 => drop(body.pop()),
        1 => body.push(0),
        _ => {}
    }
    record(random.pick(&[1, 1, 1, 1, 1, 1, 1, 2, 257]), &body)
}

/// A monitor with a field or the length about its bounds.
fn monitor_about_bounds(random: &mut Random, shape: Shape) -> Vec<u8> {
    let role = random.pick(&[Role::Hard, Role::Soft, Role::Limit]);
    let mut bytes = monitor(random, shape, role, 4);
    let states = bytes[6];
    match random.below(10) {
        0 => bytes[4] = random.pick(&[0, 1, 2, 3, 255]),
        1 => bytes[5] = random.pick(&[0, 1, 255]),
        2 => bytes[6] = random.pick(&[0, 1, 32, 33, 255]),
        3 => bytes[7] = random.pick(&[states - 1, states, 255]),
        4 => {
            let at = 8 + random.below(usize::from(states));
            bytes[at] = random.pick(&[1, 2, 255]);
        }
        5 => {
            let last = bytes.len() - 1;
            bytes[last] = random.pick(&[states - 1, states, 255]);
        }
        6 => {
            bytes.pop();
            let length = (bytes.len() - 4) as u16;
            bytes[..2].copy_from_slice(&length.to_le_bytes());
        }
        7 => {
            bytes.push(0);
            let length = (bytes.len() - 4) as u16;
            bytes[..2].copy_from_slice(&length.to_le_bytes());
        }
        8 => bytes[3] = random.pick(&[0, 1]),
        _ => {}
    }
    bytes
}

/// Any bytes for a sheet: sound ones most times.
pub fn any_sheet(random: &mut Random) -> Vec<u8> {
    match random.below(12) {
        0..=6 => sheet(random),
        7 | 8 => {
            let mut bytes = sheet(random);
            for _ in 0..=random.below(2) {
                damage(random, &mut bytes);
            }
            bytes
        }
        9 => {
            let mut bytes = head_about_bounds(random);
            let shape = random.pick(&Shape::all());
            for _ in 0..random.below(3) {
                let role = random.pick(&[Role::Hard, Role::Soft, Role::Limit]);
                bytes.extend(monitor(random, shape, role, 3));
            }
            bytes
        }
        10 => {
            let shape = random.pick(&Shape::all());
            let mut bytes = head(random, shape);
            for _ in 0..random.below(8) {
                bytes.extend(if random.once_in(4) {
                    monitor_about_bounds(random, shape)
                } else {
                    monitor(random, shape, Role::Soft, 2)
                });
            }
            if random.once_in(4) {
                let more = random.below(5);
                bytes.extend(random.bytes(more));
            }
            bytes
        }
        _ if random.once_in(3) => long_sheet(random),
        _ => {
            let count = random.pick(&[0, 1, 2, 3, 4, 5, 30, 300]);
            random.bytes(count)
        }
    }
}

/// A sheet with monitors of the most states, or with a record as long as one can be.
fn long_sheet(random: &mut Random) -> Vec<u8> {
    let shape = random.pick(&Shape::all());
    let mut bytes = head(random, shape);
    for _ in 0..random.below(8) {
        let mut states = 0;
        let mut record = Vec::new();
        while states < 30 {
            record = monitor(random, shape, Role::Soft, 32);
            states = record[6];
        }
        bytes.extend(record);
    }
    if random.once_in(2) {
        let length = random.pick(&[2_085, 20_000, 65_534, 65_535]);
        let body = random.bytes(length);
        bytes.extend(record(random.pick(&[1, 2, 3, 16, 258]), &body));
    }
    bytes
}
