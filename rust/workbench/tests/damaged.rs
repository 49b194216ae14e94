//! No panic, whatever stands in a file: 100,000 damaged inputs, the same each time.

mod common;

use common::{files, guard, hexadecimal, pick, repository};
use conformance::{cases, generate, seed, Random};

/// Words that a damaged text gets.
const WORDS: [&str; 40] = [
    "mode",
    "controller",
    "shield",
    "in",
    "out",
    "horizon",
    "match",
    "prefer",
    "hard",
    "soft",
    "limit",
    "weight",
    "state",
    "start",
    "accept",
    "else",
    "sound",
    "differ",
    "load",
    "->",
    "!",
    "&",
    "|",
    "(",
    ")",
    ",",
    "/",
    "#",
    "\n",
    "\n\n",
    "0",
    "1",
    "25",
    "256",
    "99999999999999999999",
    "tray",
    "open",
    "x_1",
    "\u{FEFF}",
    "\u{00E4}",
];

/// Damages a text in one way of many.
fn damage_text(random: &mut Random, text: &mut Vec<u8>) {
    let at = random.below(text.len() + 1);
    let to = (at + random.below(12)).min(text.len());
    match random.below(7) {
        0 => drop(text.drain(at..to)),
        1 => {
            let word = format!(" {} ", pick(random, &WORDS));
            text.splice(at..at, word.into_bytes());
        }
        2 => {
            let word = pick(random, &WORDS);
            text.splice(at..to, word.bytes());
        }
        3 => {
            let again = text[at..to].to_vec();
            let place = random.below(text.len() + 1);
            text.splice(place..place, again);
        }
        4 => text.truncate(at),
        5 if at < text.len() => text[at] = random.byte(),
        _ => {
            // A line more, or once less.
            let lines: Vec<&[u8]> = text.split(|&byte| byte == b'\n').collect();
            let (from, place) = (random.below(lines.len()), random.below(lines.len()));
            let mut lines: Vec<Vec<u8>> = lines.into_iter().map(<[u8]>::to_vec).collect();
            let line = lines[from].clone();
            match random.once_in(2) {
                true => lines.insert(place, line),
                false => drop(lines.remove(place)),
            }
            *text = lines.join(&b'\n');
        }
    }
}

/// What a case's file has.
fn content(random: &mut Random, texts: &[Vec<u8>]) -> Vec<u8> {
    let mut content = match random.below(10) {
        0 => return generate::any_sheet(random),
        1 => hexadecimal(&generate::any_sheet(random)).into_bytes(),
        2 => generate::any_table(random),
        3 => (0..random.below(60)).fold(Vec::new(), |mut text, _| {
            text.extend(format!("{} ", pick(random, &WORDS)).bytes());
            text
        }),
        _ => texts[random.below(texts.len())].clone(),
    };
    for _ in 0..random.below(5) {
        damage_text(random, &mut content);
    }
    content
}

#[test]
#[cfg_attr(not(guard_library), ignore = "needs the library: tools/library")]
fn no_input_makes_a_command_panic() {
    let texts: Vec<Vec<u8>> = files(repository("sheets"), "sheet")
        .into_iter()
        .map(|path| std::fs::read(path).expect("a sheet"))
        .collect();
    let commands =
        ["compile", "show", "check", "forced", "order", "list", "supervisor", "forecast", "dot"];
    let mut statuses = [0; 4];
    for case in 0..cases(100_000) {
        let mut random = Random::new(seed(), case);
        let content = content(&mut random, &texts);
        let command = pick(&mut random, &commands);
        let done = guard(&[command, "-"], &content);
        statuses[usize::from(done.status)] += 1;
        assert!(done.status < 2, "case {case}: {command} exits {}: {}", done.status, done.err);
        assert!(done.status == 0 || !done.err.is_empty() || command == "check", "case {case}");
    }
    assert!(statuses[0] * 10 > cases(100_000), "too few are accepted: {statuses:?}");
    assert!(statuses[1] * 4 > cases(100_000), "too few are refused: {statuses:?}");
}

/// Deep and long conditions, and long lines.
#[test]
#[cfg_attr(not(guard_library), ignore = "needs the library: tools/library")]
fn size_makes_nothing_overflow() {
    let head = "mode controller\nout a\nhorizon 0\nprefer a\nhard h\nstate s start accept\n";
    let long = "a & ".repeat(100_000) + "a";
    for (condition, status) in [
        ("(".repeat(100_000), 1),
        ("!".repeat(100_000) + "a", 1),
        ("(".repeat(65) + "a" + &")".repeat(65), 1),
        ("(".repeat(64) + "a" + &")".repeat(64), 0),
        (long.clone(), 0),
        (long.replace('&', "|"), 0),
    ] {
        let sheet = format!("{head}{condition} -> s\nelse -> s\n");
        assert_eq!(guard(&["compile", "-"], sheet.as_bytes()).status, status);
    }
    // Very many errors, and many on one line: the first are told, in time, and not at any length.
    for sheet in [
        format!("{head}{}", "b -> t\n".repeat(20_000)),
        format!("{head}{} -> s\n", "b & ".repeat(20_000) + "b"),
        "mode controller\n".repeat(20_000),
        head.replace("out a", &format!("out {}", "a ".repeat(20_000))),
        format!("{head}{}", "state t\nelse -> u\n".repeat(20_000)),
    ] {
        let done = guard(&["compile", "-"], sheet.as_bytes());
        assert_eq!(done.status, 1);
        assert!(done.err.len() < 1_000_000, "{} bytes of errors", done.err.len());
    }
}
