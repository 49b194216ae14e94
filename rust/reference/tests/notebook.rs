//! Document 01's notebook: sheet A and its listing, P1 to P10, the two counters; some forecasts and
//! plays.

use reference::*;

fn record(kind: u16, body: &[u8]) -> Vec<u8> {
    let mut bytes = (body.len() as u16).to_le_bytes().to_vec();
    bytes.extend(kind.to_le_bytes());
    bytes.extend(body);
    bytes
}

fn head(mode: u8, lines_in: u8, horizon: u8, match_weight: u8, literals: &[u8]) -> Vec<u8> {
    let mut body = vec![mode, lines_in, literals.len() as u8, horizon, match_weight];
    body.extend(literals);
    record(1, &body)
}

fn monitor(role: u8, weight: u8, start: u8, accept: &[u8], rows: &[&[u8]]) -> Vec<u8> {
    let mut body = vec![role, weight, accept.len() as u8, start];
    body.extend(accept);
    rows.iter().for_each(|row| body.extend(*row));
    record(2, &body)
}

/// A hard monitor, one line each way: the output is never on twice running.
fn never_on_twice() -> Vec<u8> {
    monitor(0, 0, 0, &[1, 1, 0], &[&[0, 0, 1, 1], &[0, 0, 2, 2], &[2, 2, 2, 2]])
}

/// A monitor that accepts after the letters whose bit is set.
fn on_letters(role: u8, weight: u8, letters: u8, set: u64) -> Vec<u8> {
    let row: Vec<u8> = (0..letters).map(|l| (set >> l & 1) as u8).collect();
    monitor(role, weight, 0, &[0, 1], &[&row, &row])
}

/// A soft counter that the output line moves on, wrapping round.
fn counter(states: u8, lines_in: u8, outputs: u8, line: u8) -> Vec<u8> {
    let rows: Vec<Vec<u8>> = (0..states)
        .map(|s| {
            let moves = |letter: u32| (letter >> (lines_in + line) & 1) as u8;
            (0..1u32 << (lines_in + outputs)).map(|l| (s + moves(l)) % states).collect()
        })
        .collect();
    let rows: Vec<&[u8]> = rows.iter().map(Vec::as_slice).collect();
    monitor(1, 1, 0, &vec![1; usize::from(states)], &rows)
}

fn sheet_a() -> Vec<u8> {
    [head(0, 1, 1, 0, &[0]), never_on_twice(), on_letters(1, 3, 4, 0b1001)].concat()
}

/// The masks of each state of a supervisor table, and whether it is kept.
fn masks(table: &[u8]) -> Vec<(bool, Vec<u8>)> {
    let inputs = 1usize << table[5];
    table[9..].chunks_exact(5 + inputs).map(|row| (row[4] == 1, row[5..].to_vec())).collect()
}

#[test]
fn sheet_a_has_the_bytes_of_the_paper() {
    let bytes = [
        &[0x06u8, 0x00, 0x01, 0x00, 0x00, 0x01, 0x01, 0x01, 0x00, 0x00][..],
        &[0x13, 0x00, 0x02, 0x00, 0x00, 0x00, 0x03, 0x00, 0x01, 0x01, 0x00],
        &[0x00, 0x00, 0x01, 0x01, 0x00, 0x00, 0x02, 0x02, 0x02, 0x02, 0x02, 0x02],
        &[0x0E, 0x00, 0x02, 0x00, 0x01, 0x03, 0x02, 0x00, 0x00, 0x01],
        &[0x01, 0x00, 0x00, 0x01, 0x01, 0x00, 0x00, 0x01],
    ];
    assert_eq!(sheet_a(), bytes.concat());
}

#[test]
fn listing_of_a() {
    let text = "states 3 inputs 1 outputs 1 horizon 1\n0: 0>1 1>2\n1: 0>1 1>2\n2: 0>1 0>0\n";
    assert_eq!(list(&sheet_a()), text);
}

#[test]
fn listing_of_what_is_refused_or_too_long() {
    assert_eq!(list(&[]), "refused 2\n");
    assert_eq!(list(&[0; SHEET_BYTES_MOST]), "refused 2\n");
    assert_eq!(list(&[0; SHEET_BYTES_MOST + 1]), "too long\n");
}

#[test]
fn p1_states_and_masks_of_a() {
    let table = supervisor_table(&sheet_a()).unwrap();
    let both = (true, vec![3, 3]);
    let off = (true, vec![1, 1]);
    assert_eq!(masks(&table), [both.clone(), both, off.clone(), off]);
}

#[test]
fn p2_scores_of_a() {
    let sheet = Sheet::parse(&sheet_a()).unwrap();
    let product = Product::explore(&sheet).unwrap();
    let kept = Kept::by_rounds(&product);
    let values = Values::over_horizon(&sheet, &product, &kept);
    let score = |input, output| values.score(&product, &kept, 0, input, output);
    assert_eq!([score(0, 0), score(0, 1)], [Some(12), Some(3)]);
    assert_eq!([score(1, 0), score(1, 1)], [Some(6), Some(9)]);
}

#[test]
fn p3_input_on_so_output_on_is_unrealizable() {
    // Letters 0, 2 and 3: input off, or both on.
    let sheet = [sheet_a(), on_letters(0, 0, 4, 0b1101)].concat();
    assert_eq!(supervisor_table(&sheet), Err(Refusal::Unrealizable));
    assert_eq!(guard_table(&sheet), Err(Refusal::Unrealizable));
}

#[test]
fn p4_a_head_alone() {
    let sheet = head(0, 1, 0, 0, &[0]);
    assert_eq!(masks(&supervisor_table(&sheet).unwrap()), [(true, vec![3, 3])]);
    assert_eq!(list(&sheet), "states 1 inputs 1 outputs 1 horizon 0\n0: 1>0 1>0\n");
}

#[test]
fn p5_the_start_need_not_accept() {
    let sheet = [head(0, 1, 0, 0, &[0]), monitor(0, 0, 0, &[0, 1], &[&[1; 4], &[1; 4]])].concat();
    assert!(supervisor_table(&sheet).is_ok());
    assert!(guard_table(&sheet).is_ok());
}

#[test]
fn p6_the_horizon_changes_the_choice() {
    let sheet = |horizon| {
        let four = on_letters(1, 4, 4, 0b0100);
        let three = on_letters(1, 3, 4, 0b1000);
        [head(0, 1, horizon, 0, &[0]), never_on_twice(), four, three].concat()
    };
    for (horizon, output) in [(0, 1), (1, 0)] {
        let table = guard_table(&sheet(horizon)).unwrap();
        let mut board = Board::default();
        board.load(&table).unwrap();
        assert_eq!(board.step(&table, 1), Ok(output));
    }
    let parsed = Sheet::parse(&sheet(1)).unwrap();
    let product = Product::explore(&parsed).unwrap();
    let kept = Kept::by_rounds(&product);
    let values = Values::over_horizon(&parsed, &product, &kept);
    assert_eq!(values.score(&product, &kept, 0, 1, 0), Some(7));
    assert_eq!(values.score(&product, &kept, 0, 1, 1), Some(6));
}

#[test]
fn p7_a_shield_counts_its_deviations() {
    let never = monitor(0, 0, 0, &[1, 1, 0], &[&[0, 1], &[0, 2], &[2, 2]]);
    let table = guard_table(&[head(1, 0, 0, 1, &[0]), never].concat()).unwrap();
    let mut board = Board::default();
    board.load(&table).unwrap();
    assert_eq!([1; 4].map(|proposal| board.step(&table, proposal)), [Ok(1), Ok(0), Ok(1), Ok(0)]);
    assert_eq!((board.steps, board.deviations), (4, 2));
}

#[test]
fn p8_output_order() {
    let sheet = Sheet::parse(&head(0, 1, 0, 0, &[0, 9])).unwrap();
    assert_eq!(sheet.output_order(), [1, 3, 0, 2]);
}

#[test]
fn p9_bounds_on_the_horizon() {
    let made = |lines_in, horizon| guard_table(&head(0, lines_in, horizon, 0, &[0]));
    assert!(made(4, 6).is_ok());
    assert_eq!(made(4, 7), Err(Refusal::LongHorizon));
    assert!(made(0, 24).is_ok());
    assert_eq!(made(0, 25), Err(Refusal::LongHorizon));
}

#[test]
fn p10_a_seventh_monitor_of_bad_weight() {
    let good = on_letters(1, 1, 4, 0);
    let bad = on_letters(1, 0, 4, 0);
    let six = [head(0, 1, 0, 0, &[0]), good.repeat(6)].concat();
    assert!(guard_table(&six).is_ok());
    assert_eq!(guard_table(&[six.clone(), good].concat()), Err(Refusal::SeventhMonitor));
    assert_eq!(guard_table(&[six, bad.clone()].concat()), Err(Refusal::SeventhMonitor));
    let early = [head(0, 1, 0, 0, &[0]), bad].concat();
    assert_eq!(guard_table(&early), Err(Refusal::BadMonitor));
}

/// A card's entries: best and least, nothing where the state is lost.
fn card(sheet: &[u8]) -> Vec<Option<(f64, f64)>> {
    let pair = |prospect: &Prospect| match prospect {
        Prospect::Lost => None,
        Prospect::Worth(Averages { best, least }) => Some((*best, *least)),
    };
    forecast(sheet).unwrap().iter().map(pair).collect()
}

/// Where it may be on, all or nothing is earned; where it has just been on, 3 at input off alone.
#[test]
fn forecast_of_a() {
    let (free, bound) = (Some((3.0, 0.0)), Some((1.5, 1.5)));
    assert_eq!(card(&sheet_a()), [free, free, bound, bound]);
}

/// Over three steps of never on twice, 1 for on: on, off, on is best, always off is least.
#[test]
fn forecast_over_three_steps() {
    let sheet = [head(0, 1, 3, 0, &[0]), never_on_twice(), on_letters(1, 1, 4, 0b1100)].concat();
    assert_eq!(card(&sheet), [Some((2.0, 0.0)), Some((1.0, 0.0))]);
}

/// On leads to a state that breaks at the next step, so that off alone is allowed.
#[test]
fn forecast_with_a_lost_state() {
    let doomed = monitor(0, 0, 0, &[1, 1, 0], &[&[0, 0, 1, 1], &[2; 4], &[2; 4]]);
    let sheet = [head(0, 1, 2, 0, &[0]), doomed, on_letters(1, 5, 4, 0b1110)].concat();
    assert_eq!(card(&sheet), [Some((5.0, 5.0)), Some((5.0, 5.0)), None]);
}

#[test]
fn forecast_at_horizon_0_and_refused() {
    let sheet = [head(0, 1, 0, 0, &[0]), never_on_twice(), on_letters(1, 3, 4, 0b1001)].concat();
    for entry in card(&sheet) {
        assert_eq!(entry.map(|(best, least)| (best.to_bits(), least.to_bits())), Some((0, 0)));
    }
    let unrealizable = [sheet_a(), on_letters(0, 0, 4, 0b1101)].concat();
    assert_eq!(forecast(&unrealizable), Err(Refusal::Unrealizable));
    assert_eq!(forecast(&[]), Err(Refusal::Misplaced));
}

/// The play of a sheet: steps and input by state, nothing where it is kept.
fn play(sheet: &[u8]) -> Vec<Option<(u16, u8)>> {
    let forces = forced(sheet).unwrap();
    forces.iter().map(|force| force.map(|force| (force.steps, force.input))).collect()
}

/// Two trays running: the first may be met by opening, the second cannot be met.
#[test]
fn p3_is_forced_in_two_steps() {
    let sheet = [sheet_a(), on_letters(0, 0, 4, 0b1101)].concat();
    assert_eq!(play(&sheet), [Some((2, 1)), Some((2, 1)), Some((1, 1)), Some((1, 1))]);
    // Closed breaks the third monitor, open the first; the soft one between them is counted.
    let (first, second) = ([2, 0, 1, 255, 255], [1, 0, 1, 2, 0]);
    assert_eq!(forced_bytes(&sheet).unwrap(), [first, first, second, second].concat());
}

/// Every step breaks the hard monitor, and a deviation the limit too: off is proposed, on breaks both.
#[test]
fn of_several_monitors_the_first_is_named() {
    let hard = on_letters(0, 0, 2, 0b00);
    let limit = monitor(2, 0, 0, &[1, 0], &[&[0, 0, 1, 1], &[1; 4]]);
    let soft = on_letters(1, 1, 2, 0b00);
    let play = |monitors: [&[u8]; 3]| {
        forced_bytes(&[head(1, 0, 0, 0, &[0]), monitors.concat()].concat()).unwrap()
    };
    assert_eq!(play([&limit, &soft, &hard]), [1, 0, 0, 2, 0]);
    assert_eq!(play([&soft, &hard, &limit]), [1, 0, 0, 1, 1]);
}

/// Input 0 leads to a state that breaks at the next step, input 1 breaks at once.
#[test]
fn a_lower_input_that_takes_longer_is_not_given() {
    let hard = monitor(0, 0, 0, &[1, 1, 0], &[&[1, 2, 1, 2], &[2; 4], &[2; 4]]);
    let sheet = [head(0, 1, 0, 0, &[0]), hard].concat();
    assert_eq!(play(&sheet), [Some((1, 1)), Some((1, 0))]);
}

/// On three times running forces a break; the first off is safe for ever.
#[test]
fn a_kept_state_has_no_steps_and_no_input() {
    let rows: [&[u8]; 4] = [&[3, 1, 3, 1], &[3, 2, 3, 2], &[3, 0, 3, 0], &[3; 4]];
    let hard = monitor(0, 0, 0, &[0, 1, 1, 1], &rows);
    let sheet = [head(0, 1, 0, 0, &[0]), hard].concat();
    assert_eq!(play(&sheet), [Some((3, 1)), None, Some((2, 1)), Some((1, 1))]);
    let rows = [[3, 0, 1, 255, 255], [0, 0, 0, 255, 255], [2, 0, 1, 255, 255], [1, 0, 1, 0, 0]];
    assert_eq!(forced_bytes(&sheet).unwrap(), rows.concat());
}

#[test]
fn what_is_realizable_is_not_forced() {
    assert_eq!(forced(&sheet_a()), Err(Refusal::Realizable));
    let doomed = monitor(0, 0, 0, &[1, 1, 0], &[&[0, 0, 1, 1], &[2; 4], &[2; 4]]);
    let losing = [head(0, 1, 0, 0, &[0]), doomed].concat();
    assert_eq!(forced_bytes(&losing), Err(Refusal::Realizable));
    // 7 comes before it, and it before 9.
    assert_eq!(make_forced(&losing, &mut []), Err(Refusal::Realizable));
    let counters = [counter(32, 0, 2, 0), counter(17, 0, 2, 1)].concat();
    let many = [head(0, 0, 0, 0, &[0, 1]), counters].concat();
    assert_eq!(forced(&many), Err(Refusal::TooManyStates));
    assert_eq!(forced(&[]), Err(Refusal::Misplaced));
}

#[test]
fn result_memory_one_byte_short_of_a_play() {
    let sheet = [sheet_a(), on_letters(0, 0, 4, 0b1101)].concat();
    let mut result = [0xA5; 19];
    assert_eq!(make_forced(&sheet, &mut result), Err(Refusal::ShortResult));
    assert_eq!(result, [0xA5; 19]);
    let mut result = [0xA5; 21];
    let made = make_forced(&sheet, &mut result).unwrap();
    assert_eq!((made.length, made.states, result[20]), (20, 4, 0xA5));
}

#[test]
fn counters_moved_by_different_lines() {
    let sheet = |second| {
        let first = counter(32, 0, 2, 0);
        [head(0, 0, 0, 0, &[0, 1]), first, counter(second, 0, 2, 1)].concat()
    };
    // Both lines are preferred on, so that the guard moves both counters: where they begin together again
    // it has them all.
    for (second, product, guard, kind) in [(8, 256, 32, 17), (9, 288, 288, 20), (16, 512, 32, 17)] {
        assert_eq!(masks(&supervisor_table(&sheet(second)).unwrap()).len(), product);
        let table = guard_table(&sheet(second)).unwrap();
        assert_eq!([table[8], table[9]], u16::to_le_bytes(guard));
        assert_eq!(table[12..14], [kind, 0]);
    }
    assert_eq!(supervisor_table(&sheet(17)), Err(Refusal::TooManyStates));
    assert_eq!(guard_table(&sheet(17)), Err(Refusal::TooManyStates));
}

#[test]
fn result_memory_one_byte_short() {
    let table = guard_table(&sheet_a()).unwrap();
    let mut result = vec![0xA5; table.len() - 1];
    assert_eq!(make_guard(&sheet_a(), &mut result), Err(Refusal::ShortResult));
    assert!(result.iter().all(|&b| b == 0xA5));
    let mut result = vec![0xA5; table.len() + 1];
    let made = make_guard(&sheet_a(), &mut result).unwrap();
    assert_eq!((made.length, made.states), (table.len(), 3));
    assert_eq!(result, [table, vec![0xA5]].concat());
}

#[test]
fn a_board_takes_no_step_after_the_millionth() {
    let table = guard_table(&sheet_a()).unwrap();
    let mut board = Board::default();
    board.load(&table).unwrap();
    for _ in 0..STEPS_MOST {
        board.step(&table, 0).unwrap();
    }
    let before = board;
    assert_eq!(board.step(&table, 2), Err(Refusal::Spent));
    assert_eq!(board, before);
    assert_eq!(board.load(&table), Err(Refusal::Occupied));
    board.rewind().unwrap();
    assert_eq!(board.step(&table, 2), Err(Refusal::BadInput));
    board.unload().unwrap();
    assert_eq!(board, Board::default());
}
