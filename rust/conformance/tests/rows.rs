//! The two kinds of a guard table's rows: which of them a guard is made with, byte by byte as writers of
//! this file's own have it, and how a board takes them.

use conformance::{cases, generate, seed, Library, Random, Reference, Subject};
use guard::RowKind;
use reference::{Board, Kept, Product, Sheet, Values, GUARD_BYTES_MOST, STATES_MOST};

const KINDS: [RowKind; 2] = [RowKind::Narrow, RowKind::Wide];
const TOO_MANY_STATES: u32 = 7;
const BAD_TABLE: u32 = 11;
const BAD_INPUT: u32 = 12;
const EMPTY: u32 = 20;

/// The most states of a table that can be loaded, by the kind of its rows.
fn most(kind: RowKind) -> usize {
    match kind {
        RowKind::Narrow => 256,
        RowKind::Wide => STATES_MOST,
    }
}

/// The rows of a guard, states as first met: for each input output and next state.
fn rows(sheet: &Sheet, product: &Product) -> Vec<Vec<(u8, usize)>> {
    let kept = Kept::by_rounds(product);
    let values = Values::over_horizon(sheet, product, &kept);
    let mut met = vec![0];
    let mut rows = Vec::new();
    while let Some(&state) = met.get(rows.len()) {
        let entry = |input| {
            let (output, next) = values.choice(product, &kept, state, input).expect("kept");
            let number = met.iter().position(|&state| state == next).unwrap_or(met.len());
            if number == met.len() {
                met.push(next);
            }
            (output, number)
        };
        rows.push((0..sheet.input_count()).map(entry).collect());
    }
    rows
}

/// A guard table with rows of kind 17, which all guards had that there were before kind 20.
fn narrow_table(sheet: &Sheet, rows: &[Vec<(u8, usize)>]) -> Vec<u8> {
    let mut bytes = head(sheet, rows.len());
    for row in rows {
        let entries = row.iter().map(|&(output, next)| [output, next.try_into().expect("a byte")]);
        bytes.extend(generate::record(17, entries.collect::<Vec<_>>().as_flattened()));
    }
    bytes
}

/// The same with rows of kind 20.
fn wide_table(sheet: &Sheet, rows: &[Vec<(u8, usize)>]) -> Vec<u8> {
    let mut bytes = head(sheet, rows.len());
    for row in rows {
        let entries = row.iter().map(|&(output, next)| [output, next as u8, (next / 256) as u8]);
        bytes.extend(generate::record(20, entries.collect::<Vec<_>>().as_flattened()));
    }
    bytes
}

fn head(sheet: &Sheet, states: usize) -> Vec<u8> {
    let [low, high] = (states as u16).to_le_bytes();
    let body = [sheet.mode as u8, sheet.inputs, sheet.outputs, sheet.horizon, low, high];
    generate::record(16, &body)
}

/// Guards of sheets of every size, many of them about the bounds. The number of product states plays no
/// part but by the guard's.
fn check_makers(subject: &mut dyn Subject) {
    let (mut small, mut few_of_many, mut many) = (0, 0, 0);
    for case in 0..cases(3_000) {
        let mut random = Random::new(seed(), case);
        let bytes = match random.below(3) {
            0 => generate::sheet(&mut random),
            _ => generate::large_sheet(&mut random),
        };
        let mut table = vec![0; GUARD_BYTES_MOST];
        let (0, length) = subject.make_guard(&bytes, &mut table) else { continue };
        let sheet = Sheet::parse(&bytes).expect("accepted");
        let product = Product::explore(&sheet).expect("accepted");
        let rows = rows(&sheet, &product);
        let expected = match rows.len() {
            ..=256 => narrow_table(&sheet, &rows),
            _ => wide_table(&sheet, &rows),
        };
        assert!(table[..length as usize] == expected, "case {case} of seed {}", seed());
        small += u64::from(product.count() <= 256);
        few_of_many += u64::from(product.count() > 256 && rows.len() <= 256);
        many += u64::from(rows.len() > 256);
    }
    println!("{small} of few product states, {few_of_many} of many, {many} of many guard states");
    assert!(cases(3_000) < 3_000 || small.min(few_of_many).min(many) > 100, "too few of a sort");
}

/// Two counters that a line in moves each, so that a guard comes to all their states; if they are led in,
/// both leave a start of their own at the first step.
fn counters(sizes: [u8; 2], led_in: bool) -> Vec<u8> {
    let first = u8::from(led_in);
    let mut sheet = guard::sheet::Sheet::controller(2, 1);
    for (round, line) in sizes.into_iter().zip(0..) {
        let next = |state: u8, letter: u8| match state < first {
            true => first,
            false => first + (state - first + (letter >> line & 1)) % round,
        };
        sheet = sheet.soft(1, first + round, |_| true, next);
    }
    sheet.to_bytes()
}

/// Guards of so many states as the bounds are, and of one more.
fn check_bounds(subject: &mut dyn Subject) {
    for (sizes, led_in, states) in [
        ([17, 15], false, 255),
        ([16, 16], false, 256),
        ([16, 16], true, 257),
        ([30, 17], true, 511),
        ([32, 16], false, 512),
    ] {
        let bytes = counters(sizes, led_in);
        let sheet = Sheet::parse(&bytes).expect("in bounds");
        let rows = rows(&sheet, &Product::explore(&sheet).expect("few enough"));
        assert_eq!(rows.len(), states);
        let expected = match states {
            ..=256 => narrow_table(&sheet, &rows),
            _ => wide_table(&sheet, &rows),
        };
        let mut table = vec![0; expected.len()];
        let made = subject.make_guard(&bytes, &mut table);
        assert_eq!(
            (made, table == expected),
            ((0, expected.len() as u64), true),
            "{states} states"
        );
        assert_eq!(subject.load(&mut Board::default(), &table), 0, "{states} states");
    }
    let too_many = counters([27, 19], false);
    assert_eq!(subject.make_guard(&too_many, &mut [0; GUARD_BYTES_MOST]), (TOO_MANY_STATES, 0));
}

#[test]
fn guards_of_the_reference_have_the_rows_of_their_states() {
    check_bounds(&mut Reference);
    check_makers(&mut Reference);
}

#[test]
#[cfg_attr(not(guard_library), ignore = "needs the library: tools/library")]
fn guards_of_the_library_have_the_rows_of_their_states() {
    check_bounds(&mut Library::new(None));
    check_makers(&mut Library::new(None));
}

/// A table with any entries: two outputs, so many lines in and states.
fn table_of(random: &mut Random, kind: RowKind, inputs: u8, count: usize) -> Vec<u8> {
    generate::table_of(random, kind, [0, inputs, 1, 1], count)
}

/// A board in such a table's last state, loaded or not.
fn board_of(table: &[u8]) -> Board {
    let count = u16::from_le_bytes([table[8], table[9]]);
    let place = count - 1;
    Board { loaded: true, inputs: table[5], outputs: 1, count, place, ..Board::default() }
}

/// What a step from there must come to by the table's last bytes, which are the last input's entry.
fn last_entry(kind: RowKind, table: &[u8]) -> (u32, u32, u16) {
    match (kind, table) {
        (RowKind::Narrow, [.., output, next]) => (0, (*output).into(), (*next).into()),
        (_, [.., output, low, high]) => (0, (*output).into(), u16::from_le_bytes([*low, *high])),
        _ => unreachable!("a table has an entry"),
    }
}

/// A step by the last input: number, output and place.
fn step(subject: &mut dyn Subject, board: &Board, table: &[u8]) -> (u32, u32, u16) {
    let mut after = *board;
    let (number, output) = subject.step(&mut after, table, (1 << board.inputs) - 1);
    (number, output, after.place)
}

/// Load holds the kind against the count, a step does not; a board has at most 512 states.
fn check_counts(subject: &mut dyn Subject) {
    let mut random = Random::new(seed(), 0);
    for kind in KINDS {
        for count in [1, 2, 255, 256, 257, 300, 511, 512, 513, 600] {
            for inputs in [0, 1, 4] {
                let table = table_of(&mut random, kind, inputs, count);
                let mut loaded = Board::default();
                let number = if count <= most(kind) { 0 } else { BAD_TABLE };
                assert_eq!(subject.load(&mut loaded, &table), number, "{kind:?}, {count} states");
                let board = board_of(&table);
                let expected = match count <= STATES_MOST {
                    true => last_entry(kind, &table),
                    false => (EMPTY, 0, board.place),
                };
                let found = step(subject, &board, &table);
                assert_eq!(found, expected, "{kind:?}, {count} states");
                let at_start = Board { place: 0, ..board };
                assert_eq!(loaded, if number == 0 { at_start } else { Board::default() });
            }
        }
    }
}

/// Of each row of a table the kind made another, alone or with the row: no such table can be loaded. A
/// step looks at the first row's kind alone, and at the length by it.
fn check_kinds(subject: &mut dyn Subject) {
    let mut random = Random::new(seed(), 1);
    for (kind, own, another) in [(RowKind::Narrow, 17, 20), (RowKind::Wide, 20, 17)] {
        let table = table_of(&mut random, kind, 1, 4);
        let row = 4 + 2 * kind.entry_bytes();
        let board = board_of(&table);
        for place in 0..4 {
            let at = 10 + place * row + 2;
            for field in
                [[another, 0], [own, 1], [own, 20], [another, 1], [0, own], [0, 0], [16, 0]]
            {
                let mut damaged = table.clone();
                damaged[at..at + 2].copy_from_slice(&field);
                assert_eq!(subject.load(&mut Board::default(), &damaged), BAD_TABLE);
                let expected = match place {
                    0 => (BAD_TABLE, 0, board.place),
                    _ => last_entry(kind, &table),
                };
                assert_eq!(step(subject, &board, &damaged), expected, "row {place}, {field:?}");
            }
            let other = KINDS[usize::from(kind == RowKind::Narrow)];
            let others = table_of(&mut random, other, 1, 1);
            let mixed = [&table[..at - 2], &others[10..], &table[at - 2 + row..]].concat();
            assert_eq!(subject.load(&mut Board::default(), &mixed), BAD_TABLE, "row {place}");
            assert_eq!(step(subject, &board, &mixed), (BAD_TABLE, 0, board.place), "row {place}");
        }
    }
}

/// A table too short to show its rows' kind is refused at a step, but not before a wrong input is.
fn check_cut(subject: &mut dyn Subject) {
    let mut random = Random::new(seed(), 2);
    for kind in KINDS {
        let table = table_of(&mut random, kind, 1, 3);
        let board = board_of(&table);
        for length in 0..table.len() {
            let cut = &table[..length];
            assert_eq!(step(subject, &board, cut), (BAD_TABLE, 0, board.place), "{length} bytes");
            assert_eq!(subject.step(&mut { board }, cut, 2), (BAD_INPUT, 0), "{length} bytes");
            assert_eq!(subject.load(&mut Board::default(), cut), BAD_TABLE, "{length} bytes");
        }
    }
}

/// Tables with as many bytes, or as many states, and rows of the other kind: by its own kind the length
/// is another board's, or this one's.
fn check_other_rows(subject: &mut dyn Subject) {
    let mut random = Random::new(seed(), 3);
    for (inputs, narrow, wide) in [(0, 7, 6), (1, 5, 4), (2, 4, 3), (3, 7, 5), (4, 13, 9)] {
        let tables = [(RowKind::Narrow, narrow), (RowKind::Wide, wide)]
            .map(|(kind, count)| table_of(&mut random, kind, inputs, count));
        assert_eq!(tables[0].len(), tables[1].len());
        for (own, other) in [(0, 1), (1, 0)] {
            let board = board_of(&tables[own]);
            let refused = (BAD_TABLE, 0, board.place);
            assert_eq!(step(subject, &board, &tables[other]), refused, "{inputs} inputs");
            let alike = table_of(&mut random, KINDS[other], inputs, board.count.into());
            let expected = last_entry(KINDS[other], &alike);
            assert_eq!(step(subject, &board, &alike), expected, "{inputs} inputs");
        }
    }
}

fn check_boards(subject: &mut dyn Subject) {
    check_counts(subject);
    check_kinds(subject);
    check_cut(subject);
    check_other_rows(subject);
}

#[test]
fn boards_of_the_reference_take_rows_by_their_kind() {
    check_boards(&mut Reference);
}

#[test]
#[cfg_attr(not(guard_library), ignore = "needs the library: tools/library")]
fn boards_of_the_library_take_rows_by_their_kind() {
    check_boards(&mut Library::new(None));
}

/// What a step reads of a table: output and next state; nothing where it is refused 11.
type Reading = fn(&Board, &[u8], u8) -> Option<(u8, u16)>;

/// The entry with so many bytes, in range or not; nothing where the length is another.
fn bare_entry(board: &Board, table: &[u8], input: u8, bytes: usize) -> Option<(u8, u16)> {
    let row = 4 + (bytes << board.inputs);
    if table.len() != 10 + usize::from(board.count) * row {
        return None;
    }
    let at = 10 + usize::from(board.place) * row + 4 + bytes * usize::from(input);
    match table[at..at + bytes] {
        [output, low, high] => Some((output, u16::from_le_bytes([low, high]))),
        _ => Some((table[at], table[at + 1].into())),
    }
}

fn in_range(board: &Board, (output, next): (u8, u16)) -> bool {
    output >> board.outputs == 0 && next < board.count
}

/// The entry with so many bytes, if it is in range.
fn entry(board: &Board, table: &[u8], input: u8, bytes: usize) -> Option<(u8, u16)> {
    bare_entry(board, table, input, bytes).filter(|&entry| in_range(board, entry))
}

/// The bytes of an entry by the first row's kind.
fn entry_bytes(table: &[u8]) -> Option<usize> {
    match table.get(12..14)? {
        [17, 0] => Some(2),
        [20, 0] => Some(3),
        _ => None,
    }
}

/// As the request has it.
fn right(board: &Board, table: &[u8], input: u8) -> Option<(u8, u16)> {
    entry(board, table, input, entry_bytes(table)?)
}

const WRONG: [(&str, Reading); 8] = [
    ("the kind by the count", |board, table, input| {
        entry(board, table, input, if board.count <= 256 { 2 } else { 3 })
    }),
    ("the kind by the length", |board, table, input| {
        entry(board, table, input, 2).or_else(|| entry(board, table, input, 3))
    }),
    ("one byte of the kind", |board, table, input| {
        let kind = [*table.get(12)?, 0];
        entry(board, table, input, entry_bytes(&[&[0; 12], &kind[..]].concat())?)
    }),
    ("every other kind taken for 17", |board, table, input| {
        entry(board, table, input, entry_bytes(table).unwrap_or(2))
    }),
    ("every other kind taken for 20", |board, table, input| {
        entry(board, table, input, entry_bytes(table).unwrap_or(3))
    }),
    ("kind 17 held against the count", |board, table, input| {
        right(board, table, input).filter(|_| board.count <= 256 || table[12] == 20)
    }),
    ("kind 20 of few states refused", |board, table, input| {
        right(board, table, input).filter(|_| board.count > 256 || table[12] == 17)
    }),
    ("one byte of the next state", |board, table, input| {
        let (output, next) = bare_entry(board, table, input, entry_bytes(table)?)?;
        Some((output, next % 256)).filter(|&entry| in_range(board, entry))
    }),
];

/// Wrong ways of reading a table at a step show on generated boards and tables.
#[test]
fn wrong_readings_of_rows_show() {
    let mut told = [0u64; WRONG.len()];
    let count = 40_000;
    for case in 0..count {
        let mut random = Random::new(seed(), case);
        let table = generate::any_table(&mut random);
        let board = generate::any_board(&mut random, &table);
        let input = generate::any_input(&mut random, &board);
        let table = match random.below(4) {
            0 => generate::any_lent(&mut random, &table),
            _ => table,
        };
        let mut after = board;
        let answer = after.step(&table, input);
        let number = conformance::subject::number(&answer);
        if number != 0 && number != BAD_TABLE {
            continue;
        }
        let read = answer.ok().map(|output| (output, after.place));
        assert_eq!(right(&board, &table, input), read, "case {case} of seed {}", seed());
        for ((_, wrong), told) in WRONG.iter().zip(&mut told) {
            *told += u64::from(wrong(&board, &table, input) != read);
        }
    }
    let told: Vec<(&str, u64)> = WRONG.iter().map(|(how, _)| *how).zip(told).collect();
    println!("{told:?}");
    assert!(told.iter().all(|&(_, n)| n >= 50), "too few of a sort");
}
