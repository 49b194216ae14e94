//! Load, step, rewind and unload against the reference, on any boards and any tables, byte by
//! byte; and whole runs against the run book, which knows neither tables nor boards.

use std::collections::BTreeMap;

use conformance::{cases, generate, seed, subject, Random};
use guard::calls;
use reference::{Board, Kept, Mode, Product, Sheet, Values, STEPS_MOST};

/// A board's bytes, the first of them at times a byte that is neither 0 nor 1.
fn bytes_of(random: &mut Random, board: &Board) -> [u8; calls::BOARD_BYTES] {
    let mut bytes = subject::to_bytes(board);
    if !board.loaded && random.once_in(2) {
        bytes[0] = 2 + random.byte_below(254);
    }
    bytes
}

/// What the library's board must be after a call: untouched on a refusal.
fn expected(
    before: [u8; calls::BOARD_BYTES],
    number: u32,
    after: &Board,
) -> [u8; calls::BOARD_BYTES] {
    if number == 0 {
        subject::to_bytes(after)
    } else {
        before
    }
}

#[test]
#[cfg_attr(not(guard_library), ignore = "needs the library: tools/library")]
fn single_calls_agree() {
    let mut seen: BTreeMap<(&str, u32), u64> = BTreeMap::new();
    for case in 0..cases(100_000) {
        let mut random = Random::new(seed(), case);
        let table = generate::any_table(&mut random);
        let mut board = generate::any_board(&mut random, &table);
        let table = match random.below(4) {
            0 => generate::any_lent(&mut random, &table),
            _ => table,
        };
        let input = generate::any_input(&mut random, &board);
        let before = bytes_of(&mut random, &board);
        let mut bytes = before;
        let say = || format!("case {case} of seed {}: {before:?}, {input}, {table:02x?}", seed());
        let (call, answer, found) = match random.below(4) {
            0 => (
                "load",
                (subject::number(&board.load(&table)), 0),
                (calls::load(&mut bytes, &table), 0),
            ),
            1 => {
                let answer = board.step(&table, input);
                let answer = (subject::number(&answer), answer.map_or(0, u32::from));
                ("step", answer, calls::step(&mut bytes, &table, input))
            }
            2 => ("rewind", (subject::number(&board.rewind()), 0), (calls::rewind(&mut bytes), 0)),
            _ => ("unload", (subject::number(&board.unload()), 0), (calls::unload(&mut bytes), 0)),
        };
        assert_eq!(found, answer, "{call}: {}", say());
        assert_eq!(bytes, expected(before, answer.0, &board), "{call}: {}", say());
        *seen.entry((call, answer.0)).or_default() += 1;
    }
    println!("answers seen: {seen:?}");
}

/// Document 01's run book.
struct Book<'a> {
    sheet: &'a Sheet,
    product: &'a Product,
    kept: &'a Kept,
    values: &'a Values,
    run: Option<Run>,
}

/// The run that a book holds: how many inputs, at how many the output was not the proposal, and
/// the product state they lead to.
#[derive(Clone, Copy, Default)]
struct Run {
    inputs: u32,
    deviations: u32,
    state: usize,
}

impl Book<'_> {
    fn load(&mut self) -> u32 {
        if self.run.is_some() {
            return 21;
        }
        self.run = Some(Run::default());
        0
    }

    fn rewind(&mut self) -> u32 {
        match &mut self.run {
            None => 20,
            Some(run) => {
                *run = Run::default();
                0
            }
        }
    }

    fn unload(&mut self) -> u32 {
        self.run.take().map_or(20, |_| 0)
    }

    fn step(&mut self, input: u8) -> (u32, u32) {
        let Some(run) = &mut self.run else { return (20, 0) };
        if run.inputs == STEPS_MOST {
            return (22, 0);
        }
        if usize::from(input) >= self.sheet.input_count() {
            return (12, 0);
        }
        let (output, next) = self
            .values
            .choice(self.product, self.kept, run.state, usize::from(input))
            .expect("a kept state has an allowed output for each input");
        let proposal = input >> self.sheet.site_lines;
        run.inputs += 1;
        run.deviations += u32::from(self.sheet.mode == Mode::Shield && output != proposal);
        run.state = next;
        (0, u32::from(output))
    }
}

/// A board that counts as empty, in one way of many.
fn empty_board(random: &mut Random, table: &[u8]) -> [u8; calls::BOARD_BYTES] {
    loop {
        let board = generate::any_board(random, table);
        if !board.is_live() {
            return bytes_of(random, &board);
        }
    }
}

#[test]
#[cfg_attr(not(guard_library), ignore = "needs the library: tools/library")]
fn runs_follow_the_book() {
    let mut runs = 0;
    for case in 0..cases(4_000) {
        let mut random = Random::new(seed(), case);
        let bytes = generate::sheet(&mut random);
        let mut work = guard::Work::new();
        let Ok(table) = guard::Guard::make(&bytes, &mut work) else {
            assert!(reference::guard_table(&bytes).is_err());
            continue;
        };
        runs += 1;
        let sheet = Sheet::parse(&bytes).unwrap();
        let product = Product::explore(&sheet).unwrap();
        let kept = Kept::by_rounds(&product);
        let values = Values::over_horizon(&sheet, &product, &kept);
        let mut book =
            Book { sheet: &sheet, product: &product, kept: &kept, values: &values, run: None };
        let mut board = empty_board(&mut random, table.as_bytes());
        for call in 0..300 {
            let say = || format!("call {call} of case {case} of seed {}: {bytes:02x?}", seed());
            match random.below(40) {
                0 => assert_eq!(calls::rewind(&mut board), book.rewind(), "{}", say()),
                1 => assert_eq!(calls::unload(&mut board), book.unload(), "{}", say()),
                2 | 3 if book.run.is_some() => {
                    // Refused 21 whatever the slice.
                    let slice = generate::any_table(&mut random);
                    assert_eq!(calls::load(&mut board, &slice), book.load(), "{}", say());
                }
                2..=4 => {
                    assert_eq!(calls::load(&mut board, table.as_bytes()), book.load(), "{}", say())
                }
                _ => {
                    let input = match random.below(30) {
                        0 => random.byte(),
                        _ => random.byte_below(1 << sheet.inputs),
                    };
                    let found = calls::step(&mut board, table.as_bytes(), input);
                    assert_eq!(found, book.step(input), "{}", say());
                }
            }
            let shown = subject::from_bytes(board);
            assert_eq!(shown.is_live(), book.run.is_some(), "{}", say());
            if let Some(run) = &book.run {
                let lines = (sheet.mode as u8, sheet.inputs, sheet.outputs);
                assert_eq!((shown.mode, shown.inputs, shown.outputs), lines, "{}", say());
                assert_eq!(
                    (shown.steps, shown.deviations),
                    (run.inputs, run.deviations),
                    "{}",
                    say()
                );
            }
        }
    }
    println!("{runs} runs");
    assert!(runs * 4 > cases(4_000), "too few sheets accepted");
}

#[test]
#[cfg_attr(not(guard_library), ignore = "needs the library: tools/library")]
fn the_millionth_step_is_the_last() {
    let never_on_twice = [0, 0, 3, 0, 1, 1, 0, 0, 1, 0, 2, 2, 2];
    let sheet =
        [generate::record(1, &[1, 0, 1, 0, 1, 0]), generate::record(2, &never_on_twice)].concat();
    let table = guard::Guard::make(&sheet, &mut guard::Work::new()).unwrap();
    let mut board = guard::Board::new();
    board.load(&table).unwrap();
    for step in 0..STEPS_MOST {
        assert_eq!(board.step(&table, 1), Ok((step + 1) as u8 % 2));
    }
    assert_eq!(board.step(&table, 1), Err(guard::Refusal::Spent));
    assert_eq!(board.step(&table, 2), Err(guard::Refusal::Spent));
    assert_eq!((board.steps(), board.deviations()), (STEPS_MOST, STEPS_MOST / 2));
    board.rewind().unwrap();
    assert_eq!((board.steps(), board.deviations()), (0, 0));
}

/// The generator reaches every answer of the calls on boards.
#[test]
fn generated_boards_are_of_every_sort() {
    let mut seen: BTreeMap<(&str, u32), u64> = BTreeMap::new();
    for case in 0..20_000 {
        let mut random = Random::new(seed(), case);
        let table = generate::any_table(&mut random);
        let board = generate::any_board(&mut random, &table);
        let input = generate::any_input(&mut random, &board);
        let load = subject::number(&{ board }.load(&table));
        let step = subject::number(&{ board }.step(&table, input));
        let rewind = subject::number(&{ board }.rewind());
        for key in [("load", load), ("step", step), ("rewind", rewind)] {
            *seen.entry(key).or_default() += 1;
        }
    }
    println!("{seen:?}");
    for (call, numbers) in
        [("load", &[0, 11, 21][..]), ("step", &[0, 11, 12, 20, 22]), ("rewind", &[0, 20])]
    {
        for number in numbers {
            let count = seen.get(&(call, *number)).copied().unwrap_or(0);
            assert!(count > 100, "{call} {number}: {count}");
        }
    }
}
