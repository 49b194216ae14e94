//! tools/list reads hexadecimal text by itself, without cargo: its script takes a file for what the
//! workbench does, reads the same bytes, and finds the first fault at the same place.

mod common;

use std::io::Write;
use std::process::{Command, Stdio};

use common::{hexadecimal, pick, repository};
use conformance::{cases, generate, seed, Random};
use workbench::source::Taken;
use workbench::text::words::STATEMENTS;

/// What tools/hex.awk makes of a text: exit status, standard output and standard error.
fn script(text: &str) -> (i32, String, String) {
    let mut child = Command::new("awk")
        .env("LC_ALL", "C")
        .arg("-f")
        .arg(repository("tools/hex.awk"))
        .stdin(Stdio::piped())
        .stdout(Stdio::piped())
        .stderr(Stdio::piped())
        .spawn()
        .expect("awk is there");
    // The script may stop reading early.
    let _ = child.stdin.take().expect("piped").write_all(text.as_bytes());
    let done = child.wait_with_output().expect("awk's output");
    let said = |bytes: Vec<u8>| String::from_utf8_lossy(&bytes).into_owned();
    (done.status.code().expect("no signal"), said(done.stdout), said(done.stderr))
}

/// The bytes that octal escapes stand for.
fn unescaped(text: &str) -> Vec<u8> {
    let escapes = text.split(['\\', '\n']).filter(|part| !part.is_empty());
    escapes.map(|part| u8::from_str_radix(part, 8).expect("octal")).collect()
}

/// A text that is hexadecimal, or nearly.
fn text(random: &mut Random) -> String {
    let mut text = hexadecimal(&generate::any_sheet(random)[..]);
    text.truncate(600);
    let marks = ["\n", " # a note\n", "#\r\n", "  ", "\t", "\r\n", "", "0A"];
    let wrong = ["0x", ",", "G", "7", "\u{FEFF}", "\u{00E4}", "inn", "-"];
    for _ in 0..random.below(6) {
        let mut at = random.below(text.len() + 1);
        while !text.is_char_boundary(at) {
            at -= 1;
        }
        let word = match random.below(8) {
            0 => pick(random, &wrong).to_string(),
            1 => format!(
                "{0}{1}{0}",
                pick(random, &[" ", "\u{00E4}", ","]),
                pick(random, &STATEMENTS)
            ),
            _ => pick(random, &marks).to_string(),
        };
        text.insert_str(at, &word);
    }
    text
}

#[test]
fn the_script_of_tools_list_reads_the_same() {
    let mut seen = [0; 4];
    for case in 0..cases(1_000) {
        let mut random = Random::new(seed(), case);
        let text = text(&mut random);
        let (status, out, err) = script(&text);
        seen[status as usize] += 1;
        if Taken::of(text.as_bytes()) == Taken::TextSheet {
            assert_eq!(status, 3, "case {case}: {text}");
            continue;
        }
        match workbench::hexadecimal::bytes(&text) {
            Ok(bytes) => {
                assert_eq!(status, 0, "case {case}: {text}\n{err}");
                assert_eq!(unescaped(&out), bytes, "case {case}");
            }
            Err(fault) => {
                assert_eq!(status, 1, "case {case}: {text}");
                let place = format!("{}:{}: ", fault.place.line, fault.place.column);
                // The script counts bytes, the workbench characters.
                let line = text.lines().nth(fault.place.line - 1).unwrap_or("");
                assert!(!line.is_ascii() || err.starts_with(&place), "case {case}: {err}{text}");
            }
        }
    }
    assert!([0, 1, 3].iter().all(|&status| seen[status] * 40 > cases(1_000)), "{seen:?}");
}
