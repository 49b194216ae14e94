//! The text sheet's bounds are the format's: a text compiles exactly if its bytes are a sheet's in bounds.

mod common;

use common::{files, pick, repository};
use conformance::{cases, seed, Random};
use guard::sheet::{Mode, Role, Sheet};
use workbench::text;

fn names(word: &str, count: u8) -> String {
    (0..count).map(|line| format!(" {word}{line}")).collect()
}

/// A head as text, and by its parts.
fn head(mode: Mode, lines_in: u8, lines_out: u8, horizon: u8) -> (String, Sheet) {
    let (word, sheet) = match mode {
        Mode::Controller => ("controller", Sheet::controller(lines_in, lines_out)),
        Mode::Shield => ("shield", Sheet::shield(lines_in, lines_out)),
    };
    let mut text = format!("mode {word}\nhorizon {horizon}\n");
    if lines_in > 0 {
        text += &format!("in{}\n", names("a", lines_in));
    }
    if lines_out > 0 {
        text += &format!("out{0}\nprefer{0}\n", names("b", lines_out));
    }
    (text, sheet.horizon(horizon))
}

/// Both agree on whether it is a sheet, and on its bytes; answers whether it is one.
fn agree(text: &str, sheet: &Sheet) -> bool {
    let bytes = sheet.to_bytes();
    let read = reference::Sheet::read(&bytes);
    match text::compile(text) {
        Ok((named, _)) => {
            assert_eq!(named.sheet.to_bytes(), bytes, "{text}");
            assert!(read.is_ok(), "{read:?}\n{text}");
        }
        Err(faults) => assert!(read.is_err(), "{faults:?}\n{text}"),
    }
    read.is_ok()
}

#[test]
fn heads_are_bounded_alike() {
    let mut accepted = 0;
    for mode in [Mode::Controller, Mode::Shield] {
        for lines_in in 0..=6 {
            for lines_out in 0..=5 {
                for horizon in 0..=26 {
                    let (text, sheet) = head(mode, lines_in, lines_out, horizon);
                    accepted += usize::from(agree(&text, &sheet));
                }
            }
        }
    }
    assert!(accepted > 200, "{accepted}");
}

#[test]
fn monitors_are_bounded_alike() {
    for mode in [Mode::Controller, Mode::Shield] {
        for role in [Role::Hard, Role::Soft, Role::Limit] {
            for (monitors, states) in [(1, 1), (1, 32), (1, 33), (6, 2), (7, 2)] {
                let (mut text, mut sheet) = head(mode, 1, 1, 0);
                for number in 0..monitors {
                    let opening = match role {
                        Role::Hard => format!("hard m{number}"),
                        Role::Soft => format!("soft m{number} weight 255"),
                        Role::Limit => format!("limit m{number}"),
                    };
                    let rows = (0..states).map(|state| {
                        let start = if state == 0 { "start" } else { "" };
                        format!("state s{state} {start}\nelse -> s{}\n", (state + 1) % states)
                    });
                    text += &format!("{opening}\n{}", rows.collect::<String>());
                    let weight = if role == Role::Soft { 255 } else { 0 };
                    let next = move |state, _| (state + 1) % states;
                    sheet = sheet.monitor(role, weight, states, |_| false, next);
                }
                agree(&text, &sheet);
            }
        }
    }
}

/// Whatever is changed in a text: if it compiles it is a sheet in bounds.
#[test]
fn what_compiles_is_in_bounds() {
    let texts: Vec<String> = files(repository("sheets"), "sheet")
        .into_iter()
        .map(|path| std::fs::read_to_string(path).expect("a sheet"))
        .collect();
    let words =
        ["0", "1", "2", "25", "255", "256", "start", "accept", "shield", "else", "a, b, c, d", ""];
    let mut compiled = 0;
    for case in 0..cases(20_000) {
        let mut random = Random::new(seed(), case);
        let mut found: Vec<&str> =
            texts[random.below(texts.len())].split_inclusive([' ', '\n']).collect();
        for _ in 0..=random.below(3) {
            let at = random.below(found.len());
            let word = pick(&mut random, &words);
            match random.below(3) {
                0 => drop(found.remove(at)),
                1 => found.insert(at, found[random.below(found.len())]),
                _ => found[at] = word,
            }
        }
        let text = found.concat();
        if let Ok((named, _)) = text::compile(&text) {
            compiled += 1;
            let read = reference::Sheet::read(&named.sheet.to_bytes());
            assert!(read.is_ok(), "case {case}: {read:?}\n{text}");
        }
    }
    assert!(compiled * 20 > cases(20_000), "too few compile: {compiled}");
}
