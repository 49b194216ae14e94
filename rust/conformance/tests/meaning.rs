//! The reference against the paper's own words, on small sheets: which outputs are allowed by
//! ways of answering n further inputs, the guard's outputs by all plans written out, the forecast by
//! all ways of answering H inputs, each with what it earns added over all words, and the play by all
//! ways of giving n inputs, each against all answers; and which monitor breaks a step, by the monitors
//! one by one. Neither rounds nor values play a part.

use std::collections::HashMap;

use conformance::generate::{self, Shape};
use conformance::{cases, monitors, seed, Random};
use guard::sheet::{Mode, Role};
use reference::{Averages, Board, Force, Kept, Product, Prospect, Refusal, Sheet, Tuple};

/// The most product states of a sheet that is tried: after as many inputs nothing changes.
const STATES: usize = 40;

/// A point of a sheet's runs, with what is already known about surviving.
struct Game<'a> {
    sheet: &'a Sheet,
    known: HashMap<(Tuple, usize), bool>,
}

impl Game<'_> {
    fn inputs(&self) -> std::ops::Range<u8> {
        0..1 << self.sheet.inputs
    }

    fn outputs(&self) -> std::ops::Range<u8> {
        0..1 << self.sheet.outputs
    }

    /// Whether some way of answering any n further inputs, as they come, breaks nothing.
    fn survives(&mut self, at: Tuple, n: usize) -> bool {
        if n == 0 {
            return true;
        }
        if let Some(&known) = self.known.get(&(at, n)) {
            return known;
        }
        let survived = self.inputs().all(|input| {
            self.outputs().any(|output| {
                let step = self.sheet.step(&at, input, output);
                step.is_ok_and(|(next, _)| self.survives(next, n - 1))
            })
        });
        self.known.insert((at, n), survived);
        survived
    }

    /// The step of an allowed output, and its reward.
    fn allowed(&mut self, at: Tuple, input: u8, output: u8) -> Option<(Tuple, u64)> {
        let (next, reward) = self.sheet.step(&at, input, output).ok()?;
        self.survives(next, STATES).then_some((next, u64::from(reward)))
    }

    /// What a plan earns, or nothing if one of its outputs is not allowed. The plan gives an output
    /// for each string of inputs that begins with the present one, the shorter ones first.
    fn earned(&mut self, at: Tuple, present: u8, plan: &[u8]) -> Option<u64> {
        let inputs = self.inputs().len();
        let horizon = u32::from(self.sheet.horizon);
        let mut total = 0;
        for word in 0..inputs.pow(horizon) {
            let mut here = at;
            let mut input = present;
            // The strings of one length begin at `first`, and this one is `number` further on.
            let (mut first, mut number) = (0, 0);
            for step in 0..=horizon {
                let (next, reward) = self.allowed(here, input, plan[first + number])?;
                total += reward;
                here = next;
                first += inputs.pow(step);
                input = (word / inputs.pow(step) % inputs) as u8;
                number = number * inputs + usize::from(input);
            }
        }
        Some(total)
    }

    /// Of the first moves of the best plans, the highest in the sheet's order.
    fn best_first_move(&mut self, at: Tuple, present: u8) -> u8 {
        let inputs = self.inputs().len();
        let strings: usize = (0..=u32::from(self.sheet.horizon)).map(|n| inputs.pow(n)).sum();
        let outputs = self.outputs().len();
        let mut best: Option<(u64, Vec<u8>)> = None;
        for number in 0..outputs.pow(strings as u32) {
            let plan: Vec<u8> = (0..strings as u32)
                .map(|string| (number / outputs.pow(string) % outputs) as u8)
                .collect();
            let Some(earned) = self.earned(at, present, &plan) else { continue };
            match &mut best {
                Some((most, moves)) if *most == earned => moves.push(plan[0]),
                Some((most, _)) if *most > earned => {}
                _ => best = Some((earned, vec![plan[0]])),
            }
        }
        let (_, mut moves) = best.expect("a kept state has a plan");
        for literal in &self.sheet.literals {
            if moves.iter().any(|&output| literal.holds(output)) {
                moves.retain(|&output| literal.holds(output));
            }
        }
        moves.dedup();
        assert_eq!(moves.len(), 1, "the literals leave one output");
        moves[0]
    }
}

/// The most ways of answering, or of giving inputs, that are written out.
const WAYS: usize = 5_000;

/// All lists of so many numbers below the bound; nothing if they are too many.
fn lists(bound: usize, length: u32) -> Option<impl Iterator<Item = Vec<u8>>> {
    let count = bound.checked_pow(length).filter(|&count| count <= WAYS)?;
    let number = move |list: usize, place| (list / bound.pow(place) % bound) as u8;
    Some((0..count).map(move |list| (0..length).map(|place| number(list, place)).collect()))
}

/// The forecast's part.
impl Game<'_> {
    /// How many strings of 1 to H inputs there are, to each of which a way of answering gives an
    /// output.
    fn strings(&self) -> u32 {
        let inputs = self.inputs().len();
        (1..=u32::from(self.sheet.horizon)).map(|n| inputs.pow(n) as u32).sum()
    }

    /// The ways of answering H inputs, the outputs for shorter strings first; nothing if they are too
    /// many.
    fn ways(&self) -> Option<impl Iterator<Item = Vec<u8>>> {
        lists(self.outputs().len(), self.strings())
    }

    /// What a way of answering earns over all words of H inputs, or nothing if one of its outputs is
    /// not allowed.
    fn earned_by_way(&mut self, at: Tuple, way: &[u8]) -> Option<u64> {
        let inputs = self.inputs().len();
        let horizon = u32::from(self.sheet.horizon);
        let mut total = 0;
        for word in 0..inputs.pow(horizon) {
            // The strings of one length begin at `first`, and this one is `number` further on.
            let (mut here, mut first, mut number) = (at, 0, 0);
            for step in 0..horizon {
                let input = word / inputs.pow(step) % inputs;
                number = number * inputs + input;
                let (next, reward) = self.allowed(here, input as u8, way[first + number])?;
                total += reward;
                here = next;
                first += inputs.pow(step + 1);
            }
        }
        Some(total)
    }

    /// What the card must say of a point: the most and the least that a way earns, over the number of
    /// words; lost if some number of inputs is not survived.
    fn prospect(&mut self, at: Tuple, ways: &[Vec<u8>]) -> Prospect {
        if !self.survives(at, STATES) {
            return Prospect::Lost;
        }
        let earned: Vec<u64> = ways.iter().filter_map(|way| self.earned_by_way(at, way)).collect();
        let words = (self.inputs().len() as f64).powi(self.sheet.horizon.into());
        let average = |sum: Option<&u64>| *sum.expect("a kept state has a way") as f64 / words;
        let (best, least) = (average(earned.iter().max()), average(earned.iter().min()));
        Prospect::Worth(Averages { best, least })
    }
}

/// The play's part.
impl Game<'_> {
    /// The ways of giving n inputs, an input for each string of fewer answers, the shorter ones first;
    /// nothing if they are too many.
    fn ways_of_giving(&self, n: u32) -> Option<impl Iterator<Item = Vec<u8>>> {
        let strings = (0..n).map(|answers| self.outputs().len().pow(answers) as u32).sum();
        lists(self.inputs().len(), strings)
    }

    /// Whether a way of giving n inputs breaks a step, whichever n answers are given.
    fn forces(&self, at: Tuple, way: &[u8], n: u32) -> bool {
        let outputs = self.outputs().len();
        (0..outputs.pow(n)).all(|answers| {
            // The strings of one length begin at `first`, and this one is `number` further on.
            let (mut here, mut first, mut number) = (at, 0, 0);
            (0..n).any(|step| {
                let output = answers / outputs.pow(step) % outputs;
                let Ok((next, _)) = self.sheet.step(&here, way[first + number], output as u8)
                else {
                    return true;
                };
                here = next;
                first += outputs.pow(step);
                number = number * outputs + output;
                false
            })
        })
    }

    /// The lowest input that a way begins with which forces a break in n steps; nothing if none does.
    fn first_input(&self, at: Tuple, ways: &[Vec<u8>], n: u32) -> Option<u8> {
        ways.iter().filter(|way| self.forces(at, way, n)).map(|way| way[0]).min()
    }

    /// Whether a state's entry of the play is what the ways of giving n inputs come to.
    fn is_forced(&self, at: Tuple, force: Option<Force>, ways: &[Vec<u8>], n: u32) -> bool {
        let found = self.first_input(at, ways, n);
        match force.map(|force| (u32::from(force.steps), force.input)) {
            Some((steps, input)) if steps == n => found == Some(input),
            Some((steps, _)) if steps < n => found.is_some(),
            _ => found.is_none(),
        }
    }
}

/// A small sheet: at most so many input lines, so that plans and ways can be written out.
fn small_sheet(random: &mut Random, inputs: u8) -> Vec<u8> {
    let small = |shape: &Shape| shape.inputs() <= inputs && shape.outputs <= 2;
    let shapes: Vec<Shape> = Shape::all().into_iter().filter(small).collect();
    let shape = random.pick(&shapes);
    let mut bytes = generate::head(random, shape);
    // The horizon, so that there are not too many plans: some thousands, and seldom more.
    let longer = u8::from(random.once_in(12));
    bytes[7] = match (shape.inputs(), shape.outputs) {
        (0, _) => random.byte_below(5),
        (_, 1) => random.byte_below(3 + longer),
        _ => random.byte_below(2 + longer),
    };
    for _ in 0..random.below(4) {
        let role = match shape.mode {
            Mode::Shield => random.pick(&[Role::Hard, Role::Soft, Role::Limit]),
            Mode::Controller => random.pick(&[Role::Hard, Role::Soft]),
        };
        bytes.extend(match role {
            Role::Hard if random.once_in(2) => generate::game(random, shape, 4),
            _ => generate::monitor(random, shape, role, 3),
        });
    }
    bytes
}

#[test]
fn the_reference_follows_the_paper() {
    let (mut accepted, mut unrealizable, mut looking) = (0, 0, 0);
    for case in 0..cases(1_000) {
        let mut random = Random::new(seed(), case);
        let bytes = small_sheet(&mut random, 1);
        let say = || format!("case {case} of seed {}: {bytes:02x?}", seed());
        let sheet = Sheet::parse(&bytes).expect("in bounds");
        let Ok(product) = Product::explore(&sheet) else { continue };
        if product.count() > STATES {
            continue;
        }
        let kept = Kept::by_rounds(&product);
        let mut game = Game { sheet: &sheet, known: HashMap::new() };

        for state in 0..product.count() {
            let at = *product.tuple(state);
            assert_eq!(kept.is_kept(state), game.survives(at, STATES), "{}", say());
            for input in game.inputs() {
                for output in game.outputs() {
                    let by_rounds =
                        kept.allowed(&product, state, usize::from(input), usize::from(output));
                    // A state that is not kept has no allowed output.
                    let by_words = game.allowed(at, input, output).filter(|_| kept.is_kept(state));
                    let by_rounds = by_rounds.map(|(next, reward)| (*product.tuple(next), reward));
                    assert_eq!(by_rounds, by_words, "{}", say());
                }
            }
        }

        let Ok(table) = reference::guard_table(&bytes) else {
            assert!(!game.survives(sheet.first_tuple(), STATES), "{}", say());
            unrealizable += 1;
            continue;
        };
        accepted += 1;
        looking += u64::from(sheet.horizon > 0 && product.count() > 1);
        let mut board = Board::default();
        board.load(&table).expect("a guard table is loadable");
        let mut at = sheet.first_tuple();
        for _ in 0..4 {
            let input = random.byte_below(1 << sheet.inputs);
            let output = board.step(&table, input).expect("not refused");
            assert_eq!(output, game.best_first_move(at, input), "{}", say());
            at = sheet.step(&at, input, output).expect("an allowed step is unbroken").0;
        }
    }
    println!("{accepted} accepted, {looking} of them looking ahead, {unrealizable} unrealizable");
    assert!(accepted > 100 && looking > 40 && unrealizable > 40, "too few sheets of a sort");
}

/// A step is broken exactly if a hard monitor or limit does not accept after it, and says the first.
#[test]
fn a_broken_step_says_the_first_monitor_that_broke() {
    // Steps broken by none, by one and by several.
    let mut seen = [0; 3];
    for case in 0..cases(1_000) {
        let bytes = generate::sheet(&mut Random::new(seed(), case));
        let sheet = Sheet::parse(&bytes).expect("in bounds");
        let Ok(product) = Product::explore(&sheet) else { continue };
        for state in 0..product.count() {
            let at = product.tuple(state);
            for (letter, edge) in product.edges_of(state).iter().enumerate() {
                let input = (letter % sheet.input_count()) as u8;
                let output = (letter >> sheet.inputs) as u8;
                let broken = monitors::broken(&sheet, at, input, output);
                let first = broken.first().copied();
                assert_eq!(sheet.step(at, input, output).err(), first, "case {case}: {bytes:02x?}");
                assert_eq!((edge.broken_by(), edge.next().is_none()), (first, first.is_some()));
                seen[broken.len().min(2)] += 1;
            }
        }
    }
    println!("steps broken by none, by one and by several monitors: {seen:?}");
    let few = seen.iter().any(|&steps| steps < 1_000);
    assert!(cases(1_000) < 1_000 || !few, "too few of a sort");
}

#[test]
fn the_forecast_is_over_all_ways_of_answering() {
    let (mut made, mut looking, mut losing) = (0, 0, 0);
    for case in 0..cases(1_000) {
        let bytes = small_sheet(&mut Random::new(!seed(), case), 1);
        let say = || format!("case {case} of seed {}: {bytes:02x?}", seed());
        let sheet = Sheet::parse(&bytes).expect("in bounds");
        let Ok(forecast) = reference::forecast(&bytes) else { continue };
        let product = Product::explore(&sheet).expect("accepted");
        let mut game = Game { sheet: &sheet, known: HashMap::new() };
        let Some(ways) = game.ways().filter(|_| product.count() <= STATES) else { continue };
        let ways: Vec<Vec<u8>> = ways.collect();
        assert_eq!(forecast.len(), product.count(), "{}", say());
        for (state, &prospect) in forecast.iter().enumerate() {
            let expected = game.prospect(*product.tuple(state), &ways);
            assert_eq!(prospect, expected, "state {state}, {}", say());
        }
        made += 1;
        looking += u64::from(sheet.horizon > 1 && product.count() > 1);
        losing += u64::from(forecast.contains(&Prospect::Lost));
    }
    println!("{made} made, {looking} of them over two steps or more, {losing} with lost states");
    assert!(made > 300 && looking > 100 && losing > 40, "too few sheets of a sort");
}

/// The most steps over which ways of giving inputs are written out: with one input there is one way.
const STEPS: u32 = 6;

/// A small sheet that is lost, but for one in so many, which is accepted.
fn mostly_lost_sheet(random: &mut Random, but_for: usize) -> Vec<u8> {
    let (lost, inputs) = (!random.once_in(but_for), random.pick(&[1, 1, 2]));
    loop {
        let bytes = small_sheet(random, inputs);
        match reference::supervisor_table(&bytes) {
            Err(Refusal::Unrealizable) if lost => return bytes,
            Ok(_) if !lost => return bytes,
            _ => {}
        }
    }
}

#[test]
fn the_play_is_over_all_ways_of_giving_inputs() {
    let (mut made, mut realizable) = (0, 0);
    // Entries that were held against all ways of as many steps.
    let mut held = [0; STEPS as usize + 1];
    for case in 0..cases(4_000) {
        let bytes = mostly_lost_sheet(&mut Random::new(seed(), !case), 8);
        let say = || format!("case {case} of seed {}: {bytes:02x?}", seed());
        let sheet = Sheet::parse(&bytes).expect("in bounds");
        let product = Product::explore(&sheet).expect("few states");
        let game = Game { sheet: &sheet, known: HashMap::new() };
        let forces = reference::forced(&bytes);
        realizable += u64::from(forces == Err(Refusal::Realizable));
        made += u64::from(forces.is_ok());
        // Of a realizable sheet the start alone is told of.
        let forces = forces.unwrap_or(vec![None]);
        for n in 1..=STEPS {
            let Some(ways) = game.ways_of_giving(n) else { break };
            let ways: Vec<Vec<u8>> = ways.collect();
            for (state, &force) in forces.iter().enumerate().take(STATES) {
                let holds = game.is_forced(*product.tuple(state), force, &ways, n);
                assert!(holds, "state {state}, {force:?}, {n} steps, {}", say());
                held[n as usize] += u64::from(force.is_some_and(|f| u32::from(f.steps) == n));
            }
        }
    }
    println!("{made} made, {realizable} realizable, entries by their steps {held:?}");
    let few = held[1..=3].iter().any(|&n| n < 100) || made < 500 || realizable < 100;
    assert!(cases(4_000) < 4_000 || !few, "too few of a sort");
}
