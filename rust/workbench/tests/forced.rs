//! `guard forced` against the reference: every state of the play once, with its names, its steps, its
//! input, and what each output leads to; and the refusals.

mod common;

use common::{guard, hexadecimal, input_name, monitor_name, monitors, setting, sheet, steps, Play};
use conformance::{cases, generate, seed, Random};
use guard::{Forced, Work};
use reference::Mode;
use workbench::source::Source;
use workbench::states::States;

/// What is printed of a state of the play.
fn turn(play: &Play, state: usize) -> String {
    let sheet = &play.sheet;
    let left = |state: usize| {
        let force = play.force(state);
        format!("{} left, input {}", steps(force.steps), input_name(sheet, force.input))
    };
    let names = monitors(sheet, play.product.tuple(state));
    let mut text = format!("state {state}{names}\n  {}\n", left(state));
    let answers = play.answers(state);
    let outputs: Vec<String> =
        (0..answers.len()).map(|output| setting("out", sheet.outputs, output as u8)).collect();
    let width = outputs.iter().map(String::len).max().unwrap();
    for (output, answer) in outputs.iter().zip(answers) {
        let leads = match answer {
            Ok(next) => format!("state {next}: {}", left(next)),
            Err(monitor) => format!("broken by {}", monitor_name(sheet, monitor)),
        };
        text += &format!("    {output:width$}  {leads}\n");
    }
    text
}

#[test]
#[cfg_attr(not(guard_library), ignore = "needs the library: tools/library")]
fn plays_are_told_whole() {
    let (mut shields, mut long, mut parts) = (0, 0, 0);
    for case in 0..cases(1_000) {
        let bytes = generate::lost_sheet(&mut Random::new(seed(), case));
        let play = Play::of(&bytes);
        let reached = play.reached();
        let turns: String = reached.iter().map(|&state| turn(&play, state)).collect();
        let done = guard(&["forced", "-"], hexadecimal(&bytes).as_bytes());
        assert_eq!((done.status, done.err.as_str()), (0, ""), "case {case}");
        assert_eq!(done.text(), format!("{}\n{turns}", play.summary()), "case {case}");
        shields += usize::from(play.sheet.mode == Mode::Shield);
        long += usize::from(reached.len() > 3);
        parts += usize::from(reached.len() < play.product.count());
    }
    println!("{shields} shields, {long} of four states or more, {parts} that leave states out");
    assert!(shields > 20 && long > 20 && parts > 20, "too few of a sort");
}

/// A shield that may never deviate, before a controller that opens twice.
const NEVER_DEVIATES: &str = "\
mode shield
in tray
out open
horizon 0
prefer open
hard never_open_twice
  state closed start accept
    open -> once
    else -> closed
  state once accept
    open -> twice
    else -> closed
  state twice
    else -> twice
limit never_deviates
  state agreed start accept
    differ -> deviated
    else -> agreed
  state deviated
    else -> deviated
";

/// Its play.
const OPENS_TWICE: &str = "\
a break of never_open_twice or never_deviates is forced in 2 steps
state 0: never_open_twice closed, never_deviates agreed; proposal never_open_twice closed
  2 steps left, input !tray / open
    !open  broken by never_deviates
    open   state 1: 1 step left, input !tray / open
state 1: never_open_twice once, never_deviates agreed; proposal never_open_twice once
  1 step left, input !tray / open
    !open  broken by never_deviates
    open   broken by never_open_twice
";

/// Names are the text's; an input has site and proposal.
#[test]
#[cfg_attr(not(guard_library), ignore = "needs the library: tools/library")]
fn a_shield_s_play_has_site_and_proposal() {
    let done = guard(&["forced", "-"], NEVER_DEVIATES.as_bytes());
    assert_eq!((done.text().as_str(), done.status), (OPENS_TWICE, 0));
    let first = OPENS_TWICE.lines().next().expect("a line");
    let line = format!("  {first}, first input !tray / open; guard forced tells the play");
    let done = guard(&["check", "-"], NEVER_DEVIATES.as_bytes());
    assert_eq!((done.text().lines().nth(1), done.status), (Some(line.as_str()), 1));
}

/// What `forced` says of the four states that the play of sheets/arbiter_tight.sheet comes to.
const ARBITER_PLAY: [&str; 4 * 9] = [
    "2 steps left, input req1 req2 req3",
    "!ack1 !ack2 !ack3  broken by no_loss",
    "ack1 !ack2 !ack3   state 3: 1 step left, input !req1 req2 req3",
    "!ack1 ack2 !ack3   state 5: 1 step left, input req1 !req2 req3",
    "ack1 ack2 !ack3    broken by exclusion",
    "!ack1 !ack2 ack3   state 6: 1 step left, input req1 req2 !req3",
    "ack1 !ack2 ack3    broken by exclusion",
    "!ack1 ack2 ack3    broken by exclusion",
    "ack1 ack2 ack3     broken by exclusion",
    "1 step left, input !req1 req2 req3",
    "!ack1 !ack2 !ack3  broken by no_loss",
    "ack1 !ack2 !ack3   broken by no_spurious_acknowledgement",
    "!ack1 ack2 !ack3   broken by response3_within_2",
    "ack1 ack2 !ack3    broken by exclusion",
    "!ack1 !ack2 ack3   broken by response2_within_2",
    "ack1 !ack2 ack3    broken by exclusion",
    "!ack1 ack2 ack3    broken by exclusion",
    "ack1 ack2 ack3     broken by exclusion",
    "1 step left, input req1 !req2 req3",
    "!ack1 !ack2 !ack3  broken by no_loss",
    "ack1 !ack2 !ack3   broken by response3_within_2",
    "!ack1 ack2 !ack3   broken by no_spurious_acknowledgement",
    "ack1 ack2 !ack3    broken by exclusion",
    "!ack1 !ack2 ack3   broken by response1_within_2",
    "ack1 !ack2 ack3    broken by exclusion",
    "!ack1 ack2 ack3    broken by exclusion",
    "ack1 ack2 ack3     broken by exclusion",
    "1 step left, input req1 req2 !req3",
    "!ack1 !ack2 !ack3  broken by no_loss",
    "ack1 !ack2 !ack3   broken by response2_within_2",
    "!ack1 ack2 !ack3   broken by response1_within_2",
    "ack1 ack2 !ack3    broken by exclusion",
    "!ack1 !ack2 ack3   broken by no_spurious_acknowledgement",
    "ack1 !ack2 ack3    broken by exclusion",
    "!ack1 ack2 ack3    broken by exclusion",
    "ack1 ack2 ack3     broken by exclusion",
];

/// Three clients request; whichever is served, the other two do so again.
#[test]
#[cfg_attr(not(guard_library), ignore = "needs the library: tools/library")]
fn a_play_goes_on_after_each_answer() {
    let text = guard(&["forced", &sheet("arbiter_tight.sheet")], b"").text();
    let indented = |line: &&str| line.starts_with(' ');
    assert!(text.lines().filter(indented).map(str::trim).eq(ARBITER_PLAY));
}

/// What can be kept is refused 23, in words on standard error; other refusals are the sheet's.
#[test]
#[cfg_attr(not(guard_library), ignore = "needs the library: tools/library")]
fn other_sheets_are_refused() {
    for (name, words) in [
        ("A.sheet", "refused 23: realizable: the start is kept"),
        // Two of its states are lost, but not the start.
        ("limit.sheet", "refused 23: realizable: the start is kept"),
        ("counters-32-17.sheet", "refused 7: more than 512 product states"),
        ("counters-32-9.sheet", "refused 23: realizable: the start is kept"),
        ("P10.hex", "refused 5: a seventh monitor"),
    ] {
        let done = guard(&["forced", &sheet(name)], b"");
        assert_eq!((done.status, done.out.len()), (1, 0), "{name}");
        assert!(done.err.contains(words), "{name}: {}", done.err);
    }
}

/// Names are told only of the play that they are of.
#[test]
#[cfg_attr(not(guard_library), ignore = "needs the library: tools/library")]
fn another_sheet_s_play_has_no_names() {
    let source = |name: &str| {
        let bytes = guard(&["compile", &sheet(name)], b"").out;
        Source::of_bytes(name, bytes)
    };
    let (p3, tight) = (source("P3.sheet"), source("arbiter_tight.sheet"));
    let forced =
        |source: &Source| Forced::make(&source.bytes, &mut Work::new()).expect("unrealizable");
    assert!(States::of_forced(&p3, &forced(&p3)).is_some());
    assert!(States::of_forced(&tight, &forced(&tight)).is_some());
    assert!(States::of_forced(&p3, &forced(&tight)).is_none());
    assert!(States::of_forced(&source("A.sheet"), &forced(&p3)).is_none());
}
