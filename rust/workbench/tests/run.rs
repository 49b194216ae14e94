//! `guard run` against the reference, on random scripts.

mod common;

use common::{guard, hexadecimal, setting, Folder};
use conformance::{cases, generate, seed, Random};
use reference::{loadable, Board, Refusal, TableHead};

/// A line's setting by names, some lines that are off left out.
fn named(random: &mut Random, word: &str, lines: u8, bits: u8) -> String {
    let mut order: Vec<u8> = (0..lines).collect();
    if random.once_in(2) {
        order.reverse();
    }
    let mut words = Vec::new();
    for line in order {
        match bits >> line & 1 {
            1 => words.push(format!("{word}{line}")),
            _ if random.once_in(2) => words.push(format!("!{word}{line}")),
            _ => {}
        }
    }
    words.join(" ")
}

/// A line that gives an input, by number or by names.
fn input_line(random: &mut Random, head: &TableHead, input: u8) -> String {
    let site = head.inputs - if head.mode == 1 { head.outputs } else { 0 };
    if input >> head.inputs != 0 || random.once_in(3) {
        return input.to_string();
    }
    let names = named(random, "in", site, input);
    match head.mode {
        1 => format!("{names} / {}", named(random, "out", head.outputs, input >> site)),
        // A blank line is no input.
        _ if names.is_empty() => input.to_string(),
        _ => names,
    }
}

/// A call's answer as it is printed.
fn told(board: &Board, answer: Result<String, Refusal>) -> String {
    match answer {
        Err(refusal) => format!("{refusal}"),
        Ok(word) if board.loaded => format!(
            "{word} | state {} | steps {} | deviations {}",
            board.place, board.steps, board.deviations
        ),
        Ok(word) => word,
    }
}

/// A script, and its answers by the reference.
fn script(random: &mut Random, table: &[u8]) -> (String, Vec<String>, bool) {
    let head = loadable(table).expect("a table to load");
    let mut board = Board::default();
    board.load(table).expect("a table to load");
    let (mut lines, mut answers, mut refused) = (String::new(), Vec::new(), false);
    for _ in 0..random.below(40) {
        let (line, answer) = match random.below(20) {
            0 => ("rewind".to_string(), board.rewind().map(|()| "rewound".to_string())),
            1 => ("unload".to_string(), board.unload().map(|()| "unloaded".to_string())),
            2 | 3 => ("load".to_string(), board.load(table).map(|()| "loaded".to_string())),
            4 => {
                lines += pick_blank(random);
                continue;
            }
            _ => {
                let most = 1 << head.inputs;
                let beyond = random.once_in(10);
                let input = random.byte_below(if beyond { 2 * most } else { most });
                let line = input_line(random, &head, input);
                (line, board.step(table, input).map(|output| setting("out", head.outputs, output)))
            }
        };
        refused |= answer.is_err();
        lines += &format!("{line}{}\n", pick_blank(random).trim_end());
        answers.push(told(&board, answer));
    }
    (lines, answers, refused)
}

fn pick_blank(random: &mut Random) -> &'static str {
    common::pick(random, &["\n", "  \n", "# a comment\n", "  # one more\r\n"])
}

#[test]
#[cfg_attr(not(guard_library), ignore = "needs the library: tools/library")]
fn scripts_are_answered_as_the_reference_does() {
    let folder = Folder::new("run");
    let file = folder.file("it");
    let (mut boards, mut sheets) = (0, 0);
    for case in 0..cases(2_000) {
        let mut random = Random::new(seed(), case);
        // A sheet, or a table as it was stored, as bytes or as hexadecimal text.
        let (content, table) = match random.once_in(2) {
            true => {
                let table = generate::table(&mut random);
                (table.clone(), table)
            }
            false => {
                let sheet = generate::sheet(&mut random);
                let Ok(table) = reference::guard_table(&sheet) else { continue };
                sheets += 1;
                (sheet, table)
            }
        };
        let content = match random.once_in(2) {
            true => content,
            false => hexadecimal(&content).into_bytes(),
        };
        std::fs::write(&file, content).expect("written");
        let (lines, answers, refused) = script(&mut random, &table);
        let done = guard(&["run", &file], lines.as_bytes());
        // The workbench says a refusal's ground after its number.
        let found: Vec<String> = done.text().lines().map(plain).collect();
        assert_eq!(found, answers, "case {case}:\n{lines}");
        assert_eq!(done.status, u8::from(refused), "case {case}");
        assert_eq!(done.err, "", "case {case}");
        boards += 1;
    }
    assert!(boards > 1_000 || cases(2_000) < 2_000, "too few scripts");
    assert!(sheets * 5 > boards, "too few sheets");
}

/// An answer without a refusal's words.
fn plain(line: &str) -> String {
    match line.starts_with("refused") {
        true => line.split(':').next().unwrap_or("").to_string(),
        false => line.to_string(),
    }
}

/// Lines that cannot be read are told with their number, and the run goes on.
#[test]
#[cfg_attr(not(guard_library), ignore = "needs the library: tools/library")]
fn unreadable_lines_are_told() {
    let folder = Folder::new("lines");
    let file = folder.file("A.hex");
    std::fs::write(&file, include_str!("../../../sheets/A.hex")).expect("written");
    let lines = "in0,\nin1\nin0 in0\nload now\n300\n!in0 /\n1 1\n%\nin0\n";
    let done = guard(&["run", &file], lines.as_bytes());
    assert_eq!(
        done.text(),
        "out0 | state 2 | steps 1 | deviations 0\n!out0 | state 0 | steps 2 | deviations 0\n"
    );
    assert_eq!(done.status, 1);
    let told = done.err.lines().filter_map(|line| line.strip_prefix("standard input:"));
    let places: Vec<&str> = told.map(|line| line.split(": ").next().unwrap_or("")).collect();
    assert_eq!(places, ["2:1", "3:5", "4:6", "5:1", "6:6", "7:3", "8:1"]);
}
