//! The safe interface against the reference: the tables, the forecast and the play read entry by entry,
//! the refusals by their numbers, and a board's run.

use conformance::{cases, generate, seed, subject, Random};
use guard::{Board, Forced, Forecast, Guard, Refusal, Supervisor, Work};
use reference::{Kept, Mode, Product, Sheet, Values};

/// Where the reference refuses a sheet, the wrapper gives the same number.
fn refused<T>(made: Result<T, Refusal>, number: u32) {
    assert_eq!(made.err().map(Refusal::number), Some(number));
}

fn check_supervisor(made: &Supervisor, sheet: &Sheet, product: &Product, kept: &Kept) {
    assert_eq!((made.inputs(), made.outputs()), (sheet.inputs, sheet.outputs));
    assert_eq!(made.states(), product.count());
    for state in 0..made.states() {
        assert_eq!(made.is_kept(state), kept.is_kept(state));
        for input in 0..1 << sheet.inputs {
            for output in 0..=u8::MAX {
                let allowed = usize::from(output) < product.output_count()
                    && kept.allowed(product, state, input.into(), output.into()).is_some();
                assert_eq!(made.allows(state, input, output), allowed);
            }
        }
    }
}

/// Walks the guard from its start beside the product: an entry's state is the product's.
fn check_guard(made: &Guard, sheet: &Sheet, product: &Product, kept: &Kept, values: &Values) {
    assert_eq!((made.inputs(), made.outputs()), (sheet.inputs, sheet.outputs));
    assert_eq!(made.horizon(), sheet.horizon);
    assert_eq!(made.is_shield(), sheet.mode == Mode::Shield);
    let mut places = vec![None; made.states()];
    places[0] = Some(0);
    for state in 0..made.states() {
        let place: usize = places[state].expect("states are numbered as first met");
        for input in 0..1 << sheet.inputs {
            let (output, next) = made.entry(state, input);
            let chosen = values.choice(product, kept, place, input.into());
            assert_eq!(chosen, Some((output, *places[next].get_or_insert(chosen.unwrap().1))));
        }
    }
}

/// The averages of an entry, by bits; nothing where it is lost.
fn bits(prospect: reference::Prospect) -> Option<[u64; 2]> {
    match prospect {
        reference::Prospect::Lost => None,
        reference::Prospect::Worth(averages) => {
            Some([averages.best, averages.least].map(f64::to_bits))
        }
    }
}

fn check_forecast(made: &Forecast, found: &[reference::Prospect]) {
    assert_eq!((made.count(), made.get(made.count())), (found.len(), None));
    assert!(made.iter().eq(made));
    for (state, (prospect, &found)) in made.iter().zip(found).enumerate() {
        let averages = prospect.averages();
        assert_eq!(averages.map(|a| [a.best, a.least].map(f64::to_bits)), bits(found));
        assert_eq!(made.get(state), Some(*prospect));
    }
}

#[test]
#[cfg_attr(not(guard_library), ignore = "needs the library: tools/library")]
fn forecasts_are_read_as_they_are_meant() {
    let mut work = Work::new();
    for case in 0..cases(2_000) {
        let bytes = generate::any_sheet(&mut Random::new(seed(), case));
        let made = Forecast::make(&bytes, &mut work);
        match reference::forecast(&bytes) {
            Ok(found) => check_forecast(&made.expect("accepted"), &found),
            Err(refusal) => refused(made, refusal.number()),
        }
    }
}

fn check_forced(made: &Forced, product: &Product, found: &[Option<reference::Force>]) {
    assert_eq!((made.states(), made.get(made.states())), (found.len(), None));
    assert_eq!(made.iter().len(), found.len());
    for (state, (force, &found)) in made.iter().zip(found).enumerate() {
        assert_eq!(force.map(|f| (f.steps, f.input)), found.map(|f| (f.steps, f.input)));
        assert_eq!(made.get(state), force);
        for output in 0..=u8::MAX {
            let last =
                found.filter(|f| f.steps == 1 && usize::from(output) < product.output_count());
            let edge = last.map(|f| product.edge(state, f.input.into(), output.into()));
            assert_eq!(made.broken_by(state, output), edge.and_then(|edge| edge.broken_by()));
        }
    }
    assert_eq!(made.broken_by(made.states(), 0), None);
}

#[test]
#[cfg_attr(not(guard_library), ignore = "needs the library: tools/library")]
fn plays_are_read_as_they_are_meant() {
    let mut work = Work::new();
    for case in 0..cases(2_000) {
        let bytes = generate::any_sheet(&mut Random::new(seed(), case));
        let made = Forced::make(&bytes, &mut work);
        match reference::forced(&bytes) {
            Ok(found) => {
                let made = made.expect("lost");
                let sheet = Sheet::parse(&bytes).expect("lost");
                check_forced(&made, &Product::explore(&sheet).expect("lost"), &found);
                assert_eq!(Ok(made.as_bytes()), reference::forced_bytes(&bytes).as_deref());
            }
            Err(refusal) => refused(made, refusal.number()),
        }
    }
}

#[test]
#[cfg_attr(not(guard_library), ignore = "needs the library: tools/library")]
fn tables_are_read_as_they_are_meant() {
    let mut work = Work::new();
    let mut made = 0;
    for case in 0..cases(2_000) {
        let mut random = Random::new(seed(), case);
        let bytes = generate::any_sheet(&mut random);
        let found = (reference::supervisor_table(&bytes), reference::guard_table(&bytes));
        let supervisor = Supervisor::make(&bytes, &mut work);
        let guard = Guard::make(&bytes, &mut work);
        if found.0.is_err() {
            refused(supervisor, subject::number(&found.0));
            refused(guard, subject::number(&found.1));
            continue;
        }
        made += 1;
        let (supervisor, guard) = (supervisor.expect("accepted"), guard.expect("accepted"));
        assert_eq!(Ok(supervisor.as_bytes()), found.0.as_deref());
        assert_eq!(Ok(guard.as_bytes()), found.1.as_deref());
        let sheet = Sheet::parse(&bytes).expect("accepted");
        let product = Product::explore(&sheet).expect("accepted");
        let kept = Kept::by_rounds(&product);
        let values = Values::over_horizon(&sheet, &product, &kept);
        check_supervisor(&supervisor, &sheet, &product, &kept);
        check_guard(&guard, &sheet, &product, &kept, &values);
    }
    assert!(made * 4 > cases(2_000), "too few sheets accepted");
}

/// Each call of a board in turn, with its fields.
#[test]
#[cfg_attr(not(guard_library), ignore = "needs the library: tools/library")]
fn a_board_runs() {
    let never_on_twice = [0, 0, 3, 0, 1, 1, 0, 0, 1, 0, 2, 2, 2];
    let sheet =
        [generate::record(1, &[1, 0, 1, 0, 1, 0]), generate::record(2, &never_on_twice)].concat();
    let table = Guard::make(&sheet, &mut Work::new()).unwrap();
    let mut board = Board::new();
    assert_eq!(board.step(&table, 0), Err(Refusal::Empty));
    assert_eq!(board.load([0; 3]), Err(Refusal::BadTable));
    assert_eq!(board, Board::new());
    assert_eq!(board.load(&table), Ok(()));
    assert_eq!(board.load(&table), Err(Refusal::Occupied));
    let outputs = [1, 1, 1, 1].map(|proposal| board.step(&table, proposal).unwrap());
    assert_eq!(outputs, [1, 0, 1, 0]);
    assert_eq!((board.steps(), board.deviations()), (4, 2));
    assert_eq!(board.step(&table, 2), Err(Refusal::BadInput));
    assert_eq!(board.step(&table.as_bytes()[1..], 0), Err(Refusal::BadTable));
    assert_eq!((board.steps(), board.deviations()), (4, 2));
    let fields = board.fields();
    assert_eq!((fields.loaded, fields.mode, fields.inputs, fields.outputs), (true, 1, 1, 1));
    assert_eq!(board.rewind(), Ok(()));
    assert_eq!((board.steps(), board.deviations(), board.fields().place), (0, 0, 0));
    assert_eq!(board.unload(), Ok(()));
    assert_eq!(board.to_bytes(), [0; guard::calls::BOARD_BYTES]);
    assert_eq!(board.unload(), Err(Refusal::Empty));
    assert_eq!(board.rewind(), Err(Refusal::Empty));
}
