//! Guard tables and boards.

use guard::sheet::record;
use guard::RowKind;
use reference::{Board, STEPS_MOST};

use super::{damage, Shape};
use crate::Random;

/// Where the rows of a table begin.
const HEAD: usize = 10;
/// The bytes of a record before its body.
const HEADER: usize = 4;

/// The kinds of rows.
const KINDS: [RowKind; 2] = [RowKind::Narrow, RowKind::Wide];

/// A loadable guard table with any entries.
pub fn table(random: &mut Random) -> Vec<u8> {
    let shape = random.pick(&Shape::all());
    let kind = random.pick(&KINDS);
    let most = kind.states_most();
    let count = match random.below(7) {
        0 => 1,
        1 => most,
        2 => most - 1,
        3 => 1 + random.below(most),
        _ => 1 + random.below(12),
    };
    let horizon = random.byte_below(shape.horizon_most() + 1);
    table_of(random, kind, [shape.mode as u8, shape.inputs(), shape.outputs, horizon], count)
}

/// A table with any entries by the kind of its rows and its head: mode, inputs, outputs, H, count, in
/// bounds or not. Next states are below the count as far as an entry can say them.
pub fn table_of(random: &mut Random, kind: RowKind, fields: [u8; 4], count: usize) -> Vec<u8> {
    let [mode, inputs, outputs, horizon] = fields;
    let [low, high] = (count as u16).to_le_bytes();
    let mut bytes = record(16, &[mode, inputs, outputs, horizon, low, high]);
    for _ in 0..count {
        let mut row = Vec::with_capacity(kind.entry_bytes() << inputs);
        for _ in 0..1 << inputs {
            row.push(random.byte_below(1 << outputs));
            let next = (random.below(count) as u16).to_le_bytes();
            row.extend(&next[..kind.entry_bytes() - 1]);
        }
        bytes.extend(record(kind.number(), &row));
    }
    bytes
}

/// A table that is whole but for its head, about the bounds: of more than 256 states also with rows of
/// kind 17.
fn table_about_bounds(random: &mut Random) -> Vec<u8> {
    let fields = [
        random.pick(&[0, 0, 1, 1, 2]),
        random.byte_below(6),
        random.byte_below(5),
        random.pick(&[0, 0, 0, 6, 7, 8, 9, 12, 13, 24, 25]),
    ];
    let count = random.pick(&[0, 1, 2, 3, 3, 255, 256, 257, 300, 512, 513, 600]);
    let kind = random.pick(&KINDS);
    table_of(random, kind, fields, count)
}

/// A table of the shape of another, loadable or not, with so many rows of a kind.
fn table_like(random: &mut Random, table: &[u8], kind: RowKind, count: usize) -> Vec<u8> {
    table_of(random, kind, [table[4], table[5], table[6], table[7]], count)
}

/// The number of states, by the head of a table.
fn count_of(table: &[u8]) -> usize {
    usize::from(u16::from_le_bytes([table[8], table[9]]))
}

/// The kind of a table's rows, if its first row is there and has one.
fn kind_of(table: &[u8]) -> Option<RowKind> {
    KINDS.into_iter().find(|kind| table.get(12..14) == Some(&kind.number().to_le_bytes()))
}

/// The other kind.
fn another(kind: RowKind) -> RowKind {
    match kind {
        RowKind::Narrow => RowKind::Wide,
        RowKind::Wide => RowKind::Narrow,
    }
}

/// The length of a row with its header.
fn row_len(kind: RowKind, inputs: u8) -> usize {
    HEADER + (kind.entry_bytes() << inputs)
}

/// Any bytes for a table: a loadable one, or one of them damaged.
pub fn any_table(random: &mut Random) -> Vec<u8> {
    let mut bytes = table(random);
    match random.below(8) {
        0 | 1 => {}
        2 => damage(random, &mut bytes),
        3 => {
            // The head about its bounds.
            let at = random.below(HEAD);
            bytes[at] = random.pick(&[0, 1, 2, 3, 4, 5, 6, 7, 16, 17, 18, 20, 24, 25, 255]);
        }
        4 => damage_entry(random, &mut bytes),
        5 => damage_kind(random, &mut bytes),
        6 => {
            let count = count_of(&bytes);
            let kind = random.pick(&KINDS);
            bytes = match random.below(3) {
                // Cut about the first row's kind.
                0 => bytes[..HEAD + random.below(5)].to_vec(),
                1 => table_like(random, &bytes, kind, count),
                _ => mixed(random, &bytes),
            };
        }
        _ => bytes = table_about_bounds(random),
    }
    bytes
}

/// One byte of a row about the bounds of an entry, the high one of a next state too.
fn damage_entry(random: &mut Random, bytes: &mut [u8]) {
    let Some(kind) = kind_of(bytes) else { return };
    let (outputs, [low, high]) = (bytes[6], [bytes[8], bytes[9]]);
    let row = HEAD + random.below(count_of(bytes)) * row_len(kind, bytes[5]);
    let entry = row + HEADER + random.below(1 << bytes[5]) * kind.entry_bytes();
    match random.below(4) {
        0 => bytes[row + random.below(HEADER)] = random.pick(&[0, 1, 2, 17, 20, 48, 255]),
        1 => bytes[entry] = random.pick(&[(1 << outputs) - 1, 1 << outputs, 255]),
        2 if kind == RowKind::Wide => {
            // The count itself, or a state that only the high byte puts out of range.
            bytes[entry + 1] = random.pick(&[low, low.wrapping_sub(1), 0]);
            bytes[entry + 2] = random.pick(&[high, high + 1, 255]);
        }
        _ => bytes[entry + 1] = random.pick(&[0, low, 255]),
    }
}

/// The kind of the first row, or of any, made another.
fn damage_kind(random: &mut Random, bytes: &mut [u8]) {
    let Some(kind) = kind_of(bytes) else { return };
    let place = if random.once_in(2) { 0 } else { random.below(count_of(bytes)) };
    let at = HEAD + place * row_len(kind, bytes[5]) + 2;
    match random.below(3) {
        0 => bytes[at] = another(kind).number() as u8,
        1 => bytes[at] = random.pick(&[0, 16, 18, 19, 21, 255]),
        _ => bytes[at + 1] = random.pick(&[1, 17, 20, 255]),
    }
}

/// The same rows but for one, which is of the other kind.
fn mixed(random: &mut Random, table: &[u8]) -> Vec<u8> {
    let Some(kind) = kind_of(table) else { return table.to_vec() };
    let other = table_like(random, table, another(kind), count_of(table));
    let (own, others) = (row_len(kind, table[5]), row_len(another(kind), table[5]));
    let place = random.below(count_of(table));
    let at = HEAD + place * own;
    let row = &other[HEAD + place * others..][..others];
    [&table[..at], row, &table[at + own..]].concat()
}

/// What a board may be lent in the place of a table: any other; of one that is loadable also another
/// with rows of the other kind, and as many states or as many bytes.
pub fn any_lent(random: &mut Random, table: &[u8]) -> Vec<u8> {
    let kind = kind_of(table).filter(|_| reference::loadable(table).is_some());
    let Some(other) = kind.map(another).filter(|_| !random.once_in(4)) else {
        return any_table(random);
    };
    let (length, each) = (table.len() - HEAD, row_len(other, table[5]));
    let count = match length % each == 0 && random.once_in(2) {
        true => length / each,
        false => count_of(table),
    };
    table_like(random, table, other, count)
}

/// A board record: of a table's shape, with any field out of range at times, or of any bytes.
pub fn any_board(random: &mut Random, table: &[u8]) -> Board {
    if random.once_in(8) || table.len() < 10 {
        return Board {
            loaded: random.once_in(2),
            mode: random.byte_below(3),
            inputs: random.byte_below(6),
            outputs: random.byte_below(5),
            count: random.number() as u16 % 600,
            place: random.number() as u16 % 600,
            steps: random.number() as u32,
            deviations: random.number() as u32,
        };
    }
    let count = u16::from_le_bytes([table[8], table[9]]);
    let steps = match random.below(4) {
        0 => random.number() as u32 % 4,
        1 => STEPS_MOST - random.number() as u32 % 3,
        _ => random.number() as u32 % (STEPS_MOST + 1),
    };
    let mut board = Board {
        loaded: true,
        mode: table[4],
        inputs: table[5],
        outputs: table[6],
        count,
        place: random.number() as u16 % count.max(1),
        steps,
        deviations: if table[4] == 1 { random.number() as u32 % (steps + 1) } else { 0 },
    };
    if random.once_in(2) {
        put_about_bounds(random, &mut board);
    }
    board
}

/// One field of a board about its bounds.
fn put_about_bounds(random: &mut Random, board: &mut Board) {
    let Board { count, steps, .. } = *board;
    let about = [count.wrapping_sub(1), count, count.wrapping_add(1), 65_535];
    match random.below(9) {
        0 => board.loaded = false,
        1 => board.mode = random.pick(&[0, 1, 2, 255]),
        2 => board.inputs = random.pick(&[0, 1, 2, 3, 4, 5, 255]),
        3 => board.outputs = random.pick(&[0, 1, 2, 3, 4, 255]),
        4 => board.count = random.pick(&[0, 1, about[2], 256, 257, 512, 513, 65_535]),
        5 => board.place = random.pick(&about),
        6 => board.steps = random.pick(&[0, STEPS_MOST, STEPS_MOST + 1, u32::MAX]),
        7 => board.deviations = random.pick(&[0, 1, steps, steps + 1, u32::MAX]),
        _ => {}
    }
}

/// An input about a board's bounds.
pub fn any_input(random: &mut Random, board: &Board) -> u8 {
    let bound = 1u8 << board.inputs.min(7);
    match random.below(8) {
        0 => bound,
        1 => bound.wrapping_sub(1),
        2 => random.byte(),
        _ => random.byte_below(bound),
    }
}
