//! Plays on many sheets, sound and damaged, lost and realizable, against the reference: number, figures,
//! every byte of the result memory and around it, and the work memory; and what a play says beside the
//! sheet's product, rounds and monitors.

use std::collections::BTreeMap;

use conformance::making::{compare, compare_in, Kind};
use conformance::monitors::{broken, refusing};
use conformance::work::{self, Slice};
use conformance::{cases, generate, seed, Library, Random, Reference, Subject};
use guard::calls::NO_MONITOR;
use reference::{
    Kept, Mode, Product, Refusal, Role, Sheet, Tuple, FORCED_BYTES_MOST, SUPERVISOR_BYTES_MOST,
};

const UNREALIZABLE: u32 = Refusal::Unrealizable.number();
const SHORT_RESULT: u32 = Refusal::ShortResult.number();
const SHORT_WORK: u32 = Refusal::ShortWork.number();
const REALIZABLE: u32 = Refusal::Realizable.number();

/// A case's sheet: any, or one with a play.
fn sheet_of(random: &mut Random) -> Vec<u8> {
    match random.once_in(3) {
        true => generate::lost_sheet(random),
        false => generate::any_sheet(random),
    }
}

#[test]
#[cfg_attr(not(guard_library), ignore = "needs the library: tools/library")]
fn plays_agree() {
    let mut seen: BTreeMap<u32, u64> = BTreeMap::new();
    for case in 0..cases(20_000) {
        let mut random = Random::new(seed(), case);
        let sheet = sheet_of(&mut random);
        match std::panic::catch_unwind(|| compare(Kind::Forced, &sheet, &mut random.clone())) {
            Ok(number) => *seen.entry(number).or_default() += 1,
            Err(_) => panic!("case {case} of seed {}: sheet {sheet:02x?}", seed()),
        }
    }
    println!("answers seen, by number: {seen:?}");
    let numbers: Vec<u32> = seen.into_keys().collect();
    let all = [0, 1, 2, 3, 4, 5, 6, 7, 9, SHORT_WORK, REALIZABLE];
    assert!(cases(20_000) < 20_000 || numbers == all);
}

/// A slice that the play is not lent is no ground for 10, which comes before all others.
#[test]
#[cfg_attr(not(guard_library), ignore = "needs the library: tools/library")]
fn each_work_slice_has_its_own_bound() {
    let mut random = Random::new(seed(), 0);
    let (lost, sound) = (generate::longest_play(0, 1), generate::record(1, &[0, 1, 1, 0, 0, 0]));
    for &slice in Slice::ALL {
        // As many bytes as the longest play has, and none: 9 comes last.
        for (sheet, room, otherwise) in [
            (&lost[..], FORCED_BYTES_MOST, 0),
            (&lost, 0, SHORT_RESULT),
            (&sound, 0, REALIZABLE),
            (&[], 0, Refusal::Misplaced.number()),
        ] {
            let mut work = work::any(&mut random, 0);
            work::shorten(&mut work, slice, &mut random);
            let number = compare_in(Kind::Forced, sheet, room, work, &mut random);
            let short = work::FORCED.contains(&slice);
            assert_eq!(number, if short { SHORT_WORK } else { otherwise }, "{slice:?}");
        }
    }
}

/// Every length of result memory, around a play's.
#[test]
#[cfg_attr(not(guard_library), ignore = "needs the library: tools/library")]
fn result_memory_of_every_length() {
    let mut random = Random::new(seed(), 0);
    for _ in 0..10 {
        let sheet = generate::lost_sheet(&mut random);
        let length = reference::forced_bytes(&sheet).expect("a play").len();
        for room in 0..length + 10 {
            let work = work::any(&mut random, 0);
            let number = compare_in(Kind::Forced, &sheet, room, work, &mut random);
            assert_eq!(number, if room < length { SHORT_RESULT } else { 0 });
        }
    }
}

/// A state's entry of a play.
#[derive(Clone, Debug, PartialEq, Eq)]
struct Entry {
    steps: u16,
    input: u8,
    /// A byte for each output.
    monitors: Vec<u8>,
}

/// The entries of a play, `outputs` being how many there are.
fn entries(play: &[u8], outputs: usize) -> Vec<Entry> {
    let rows = play.chunks_exact(3 + outputs);
    assert!(rows.remainder().is_empty(), "{} bytes are no whole entries", play.len());
    rows.map(|row| Entry {
        steps: u16::from_le_bytes([row[0], row[1]]),
        input: row[2],
        monitors: row[3..].to_vec(),
    })
    .collect()
}

/// A subject's number, and the bytes that it reports.
fn play(sheet: &[u8], subject: &mut dyn Subject) -> (u32, Vec<u8>) {
    let mut result = vec![0xA5; FORCED_BYTES_MOST];
    let (number, length) = subject.forced(sheet, &mut result);
    result.truncate(length as usize);
    (number, result)
}

/// The number of a play beside that of a supervisor: realizable where it is made, a play where it is
/// unrealizable, and else the same.
fn check_number(sheet: &[u8], number: u32, subject: &mut dyn Subject) {
    let expected = match subject.make_supervisor(sheet, &mut [0; SUPERVISOR_BYTES_MOST]).0 {
        0 => REALIZABLE,
        UNREALIZABLE => 0,
        other => other,
    };
    assert_eq!(number, expected);
}

/// In how many steps an input forces a break, by the play's own numbers for the states after it;
/// nothing if an answer leads to a state without any.
fn steps_by(product: &Product, play: &[Entry], state: usize, input: usize) -> Option<u16> {
    let after = |output| match product.edge(state, input, output).next() {
        None => Some(0),
        Some(next) => Some(play[next].steps).filter(|&steps| steps > 0),
    };
    let steps: Option<Vec<u16>> = (0..product.output_count()).map(after).collect();
    steps?.into_iter().max().map(|worst| worst + 1)
}

/// What was seen in the plays of some sheets.
#[derive(Debug, Default)]
struct Seen {
    made: u64,
    shields: u64,
    /// Sheets whose start is forced in five steps or more.
    long: u64,
    /// States that are kept; with a lower input that forces a break, but later; with one that forces
    /// none; with a higher one that forces as soon; where some answers break and others do not.
    kept: u64,
    slower: u64,
    helpless: u64,
    as_soon: u64,
    mixed: u64,
    /// Outputs one step from the end that break several monitors; after a soft one that does not accept
    /// either; a limit. States there where outputs break different monitors.
    several: u64,
    after_soft: u64,
    limits: u64,
    apart: u64,
}

impl Seen {
    fn add_state(&mut self, by_input: &[Option<u16>], entry: &Entry, mixed: bool) {
        let (lower, higher) = by_input.split_at(usize::from(entry.input));
        let steps = entry.steps;
        self.kept += u64::from(steps == 0);
        self.slower += u64::from(lower.iter().flatten().any(|&later| later > steps));
        self.helpless += u64::from(lower.contains(&None));
        self.as_soon += u64::from(steps > 0 && higher[1..].contains(&Some(steps)));
        self.mixed += u64::from(steps > 1 && mixed);
    }

    /// Adds a state one step from its end.
    fn add_last(&mut self, sheet: &Sheet, at: &Tuple, entry: &Entry) {
        for (output, &monitor) in (0..).zip(&entry.monitors) {
            let monitor = usize::from(monitor);
            self.several += u64::from(broken(sheet, at, entry.input, output).len() > 1);
            self.after_soft += u64::from(refusing(sheet, at, entry.input, output)[0] < monitor);
            self.limits += u64::from(sheet.monitors[monitor].role == Role::Limit);
        }
        self.apart += u64::from(entry.monitors.iter().any(|&other| other != entry.monitors[0]));
    }

    fn few(&self) -> bool {
        let Seen { made, shields, long, kept, slower, helpless, as_soon, mixed, .. } = *self;
        let Seen { several, after_soft, limits, apart, .. } = *self;
        let plays = [made, shields, long, kept, slower, helpless, as_soon, mixed];
        plays.iter().chain(&[several, after_soft, limits, apart]).any(|&n| n < 100)
    }
}

/// The monitor that a step is broken by.
fn first(sheet: &Sheet, at: &Tuple, input: u8, output: u8) -> Option<usize> {
    broken(sheet, at, input, output).first().copied()
}

/// Whether an entry's monitors are right: one step from the end each byte is the monitor that its output is
/// broken by at the input, elsewhere it is 255.
fn monitors_hold(sheet: &Sheet, at: &Tuple, entry: &Entry) -> bool {
    let named = |output| match entry.steps {
        1 => first(sheet, at, entry.input, output),
        _ => None,
    };
    let byte = |output| named(output).map_or(NO_MONITOR, |monitor| monitor as u8);
    (0..1 << sheet.outputs).map(byte).eq(entry.monitors.iter().copied())
}

/// A sheet's play beside its product, rounds and monitors: no steps and input 0 exactly where the rounds
/// keep a state; else the input forces a break in so many steps, no other in fewer, and no lower one in as
/// many.
fn check_play(sheet: &Sheet, play: &[u8], seen: &mut Seen) {
    let product = Product::explore(sheet).expect("few states");
    let kept = Kept::by_rounds(&product);
    let play = entries(play, product.output_count());
    assert_eq!(play.len(), product.count());
    for (state, entry) in play.iter().enumerate() {
        assert_eq!(entry.steps == 0, kept.is_kept(state), "state {state}");
        let by_input: Vec<Option<u16>> =
            (0..product.input_count()).map(|i| steps_by(&product, &play, state, i)).collect();
        let least = by_input.iter().flatten().min().copied();
        assert_eq!((entry.steps > 0).then_some(entry.steps), least, "state {state}");
        let lowest = by_input.iter().position(|by| *by == least && least.is_some());
        assert_eq!(usize::from(entry.input), lowest.unwrap_or(0), "state {state}");
        assert!(monitors_hold(sheet, product.tuple(state), entry), "state {state}: {entry:?}");
        let broken = (0..product.output_count())
            .filter(|&o| product.edge(state, entry.input.into(), o).next().is_none())
            .count();
        let mixed = broken > 0 && broken < product.output_count();
        seen.add_state(&by_input, entry, mixed);
        if entry.steps == 1 {
            seen.add_last(sheet, product.tuple(state), entry);
        }
    }
    // A round drops what is forced in as many steps.
    assert_eq!(play.iter().map(|entry| usize::from(entry.steps)).max(), Some(kept.rounds()));
    seen.long += u64::from(play[0].steps >= 5);
}

/// The length of a play decides whether result memory is too short.
fn check_room(sheet: &[u8], play: &[u8], subject: &mut dyn Subject) {
    let mut result = vec![0xA5; play.len()];
    let short = &mut result[1..];
    assert_eq!(subject.forced(sheet, short), (SHORT_RESULT, 0));
    assert!(short.iter().all(|&byte| byte == 0xA5));
    assert_eq!(subject.forced(sheet, &mut result), (0, play.len() as u64));
    assert_eq!(result, play);
}

/// All of this of a sheet.
fn check(bytes: &[u8], subject: &mut dyn Subject, seen: &mut Seen) {
    let (number, play) = play(bytes, subject);
    check_number(bytes, number, subject);
    if number != 0 {
        return assert!(play.is_empty());
    }
    let sheet = Sheet::parse(bytes).expect("in bounds");
    check_play(&sheet, &play, seen);
    check_room(bytes, &play, subject);
    seen.made += 1;
    seen.shields += u64::from(sheet.mode == Mode::Shield);
}

fn check_all(subject: &mut dyn Subject) {
    let mut seen = Seen::default();
    for case in 0..cases(6_000) {
        let sheet = sheet_of(&mut Random::new(!seed(), case));
        check(&sheet, subject, &mut seen);
    }
    println!("{seen:?}");
    assert!(cases(6_000) < 6_000 || !seen.few(), "too few of a sort");
}

#[test]
fn the_reference_s_plays_fit_its_product() {
    check_all(&mut Reference);
}

#[test]
#[cfg_attr(not(guard_library), ignore = "needs the library: tools/library")]
fn the_library_s_plays_fit_the_reference_s_product() {
    check_all(&mut Library::new(None));
}

/// The monitor named for an input and an output.
type Naming = fn(&Sheet, &Tuple, u8, u8) -> Option<usize>;

fn last(sheet: &Sheet, at: &Tuple, input: u8, output: u8) -> Option<usize> {
    broken(sheet, at, input, output).last().copied()
}

fn first_soft_or_not(sheet: &Sheet, at: &Tuple, input: u8, output: u8) -> Option<usize> {
    refusing(sheet, at, input, output).first().copied()
}

/// Soft monitors are left out of the count.
fn uncounted(sheet: &Sheet, at: &Tuple, input: u8, output: u8) -> Option<usize> {
    let before = &sheet.monitors[..first(sheet, at, input, output)?];
    Some(before.iter().filter(|monitor| monitor.role != Role::Soft).count())
}

/// Ways in which states with so many steps left could be named wrongly.
const WRONG: [(&str, u16, Naming); 10] = [
    ("the last of several", 1, last),
    ("soft monitors not counted", 1, uncounted),
    ("a soft monitor", 1, first_soft_or_not),
    ("counted from 1", 1, |sheet, at, i, o| Some(first(sheet, at, i, o)? + 1)),
    ("input 0 for the state's", 1, |sheet, at, _, o| first(sheet, at, 0, o)),
    ("outputs descending", 1, |sheet, at, i, o| first(sheet, at, i, !o % (1 << sheet.outputs))),
    ("none one step from the end", 1, |_, _, _, _| None),
    ("some two steps from the end", 2, first),
    ("some where the state is kept", 0, first),
    ("0 where the state is kept", 0, |_, _, _, _| Some(0)),
];

/// Each shows on generated sheets, and `monitors_hold` tells it wherever it does.
#[test]
fn wrong_monitors_are_told() {
    let mut told = [0; WRONG.len()];
    for case in 0..cases(1_000) {
        let bytes = generate::lost_sheet(&mut Random::new(seed(), case));
        let sheet = Sheet::parse(&bytes).expect("in bounds");
        let product = Product::explore(&sheet).expect("few states");
        let play = reference::forced_bytes(&bytes).expect("lost");
        for (state, right) in entries(&play, sheet.output_count()).iter().enumerate() {
            let at = product.tuple(state);
            for ((_, steps, naming), told) in WRONG.iter().zip(&mut told) {
                let byte = |o| naming(&sheet, at, right.input, o).map_or(NO_MONITOR, |m| m as u8);
                let monitors = (0..1 << sheet.outputs).map(byte).collect();
                if right.steps == *steps && right.monitors != monitors {
                    assert!(!monitors_hold(&sheet, at, &Entry { monitors, ..right.clone() }));
                    *told += 1;
                }
            }
        }
    }
    let told: Vec<(&str, u64)> = WRONG.iter().map(|(how, ..)| *how).zip(told).collect();
    println!("{told:?}");
    assert!(cases(1_000) < 1_000 || told.iter().all(|&(_, n)| n >= 50), "too few of a sort");
}

/// As many steps as there may be states: both bytes of the steps are needed. Input 0 is as good as input
/// 1 at the start alone.
fn check_longest(subject: &mut dyn Subject) {
    for (lines_in, outputs) in [(0, 1), (1, 1), (4, 2)] {
        let sheet = generate::longest_play(lines_in, outputs);
        let (number, play) = play(&sheet, subject);
        let play = entries(&play, 1 << outputs);
        assert_eq!((number, play[0].steps, play[0].input), (0, 512, 0));
        let mut steps: Vec<u16> = play.iter().map(|entry| entry.steps).collect();
        steps.sort();
        assert!(steps.into_iter().eq(1..=512));
        assert!(play[1..].iter().all(|entry| entry.input == u8::from(lines_in > 0)));
    }
}

#[test]
fn the_longest_play_of_the_reference() {
    check_longest(&mut Reference);
}

#[test]
#[cfg_attr(not(guard_library), ignore = "needs the library: tools/library")]
fn the_longest_play_of_the_library() {
    check_longest(&mut Library::new(None));
}
