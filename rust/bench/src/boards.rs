//! Load and step. There is no tuned board: the plain one is as short as it can be.

use std::hint::black_box;

use conformance::{generate, Random};
use guard::{calls, RowKind};
use reference::{Board, Refusal, STEPS_MOST};

use crate::timing::{compare, sample, Effort, Runs, Times};

/// The tuned call where there is none.
const NONE: Option<fn()> = None;

/// The mode, the lines and the horizon of the tables: four lines in, two out.
const FIELDS: [u8; 4] = [0, 4, 2, 0];

/// A step by the reference as a call of its own, as the library's is.
#[inline(never)]
fn step_called(board: &mut Board, table: &[u8], input: u8) -> Result<u8, Refusal> {
    board.step(table, input)
}

/// A load by the reference as a call of its own.
#[inline(never)]
fn load_called(board: &mut Board, table: &[u8]) -> Result<(), Refusal> {
    board.load(table)
}

/// What is timed on boards, run by run.
pub struct Boards {
    inputs: Vec<u8>,
    tables: [Table; 2],
}

/// A table of as many states as its rows may have, with the times of load and steps.
struct Table {
    name: &'static str,
    bytes: Vec<u8>,
    load: Runs,
    called: Runs,
    inlined: Runs,
}

impl Table {
    fn new(name: &'static str, kind: RowKind, states: usize) -> Table {
        let bytes = generate::table_of(&mut Random::new(1, 1), kind, FIELDS, states);
        let [load, called, inlined] = [(); 3].map(|()| Runs::default());
        Table { name, bytes, load, called, inlined }
    }

    fn run(&mut self, effort: Effort, inputs: &[u8]) {
        let table = &self.bytes;
        self.load.add(compare(
            effort,
            || calls::load(&mut [0; calls::BOARD_BYTES], black_box(table)),
            || load_called(&mut Board::default(), black_box(table)),
            NONE,
        ));
        self.called.add(stepping(effort, table, inputs, step_called));
        self.inlined.add(stepping(effort, table, inputs, Board::step));
    }

    fn print(&self, width: usize) {
        let length = self.bytes.len();
        for (what, runs) in [
            (format!("load of {length} bytes"), &self.load),
            ("1,000,000 steps, each a call".to_string(), &self.called),
            ("1,000,000 steps, the plain ones inlined".to_string(), &self.inlined),
        ] {
            println!("{:<width$} {runs}", format!("{}: {what}", self.name));
        }
    }
}

impl Boards {
    pub fn new() -> Boards {
        let mut random = Random::new(1, 2);
        Boards {
            inputs: (0..STEPS_MOST).map(|_| random.byte_below(16)).collect(),
            tables: [
                Table::new("256 states", RowKind::Narrow, 256),
                Table::new("512 states", RowKind::Wide, 512),
            ],
        }
    }

    pub fn run(&mut self, effort: Effort) {
        self.tables.iter_mut().for_each(|table| table.run(effort, &self.inputs));
    }

    pub fn print(&self, width: usize) {
        self.tables.iter().for_each(|table| table.print(width));
    }
}

/// Steps through all the inputs, block by block, and adds up the best times of the blocks.
fn stepping(
    effort: Effort,
    table: &[u8],
    inputs: &[u8],
    step: impl Fn(&mut Board, &[u8], u8) -> Result<u8, Refusal>,
) -> Times {
    const BLOCK: usize = 10_000;
    let mut loaded = Board::default();
    loaded.load(table).expect("the table is loadable");
    let mut best = vec![[f64::MAX; 2]; inputs.len().div_ceil(BLOCK)];
    for _ in 0..(effort.samples / 8).max(2) {
        let mut board = loaded;
        let mut bytes = conformance::subject::to_bytes(&board);
        let (mut outputs, mut expected) = (0, 0);
        for ([rattle, plain], inputs) in best.iter_mut().zip(inputs.chunks(BLOCK)) {
            if guard::LINKED {
                *rattle = rattle.min(sample(1, &mut || {
                    for &input in inputs {
                        outputs += calls::step(&mut bytes, table, input).1;
                    }
                }));
            }
            *plain = plain.min(sample(1, &mut || {
                for &input in inputs {
                    expected += u32::from(step(&mut board, table, input).expect("not refused"));
                }
            }));
        }
        assert!(!guard::LINKED || outputs == expected, "the outputs differ");
        assert_eq!(black_box(board).steps, STEPS_MOST);
    }
    let sum = |of: usize| best.iter().map(|times| times[of]).sum();
    Times { rattle: guard::LINKED.then(|| sum(0)), plain: sum(1), tuned: None }
}
