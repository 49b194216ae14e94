//! The repository's vectors against the reference, and the runner's exit statuses. The library's
//! turn is `tools/conform`.

use std::path::{Path, PathBuf};
use std::process::Command;

use conformance::{vectors, Reference};

#[test]
fn the_reference_agrees_with_the_repository_s_vectors() {
    let file = concat!(env!("CARGO_MANIFEST_DIR"), "/../../vectors/all.txt");
    let text = std::fs::read_to_string(file).expect("the vectors are there");
    let tally = vectors::run(&text, &mut Reference, &mut |line, how| println!("{line}: {how}"));
    println!("{tally}");
    assert!(tally.agree > 0);
    assert_eq!((tally.differ, tally.passed_over), (0, 0));
}

/// A line of a level that agrees: unloading an empty board is refused by 20, and the board is as it was.
fn agreeing(level: u32) -> String {
    format!("O {level} 0,0,0,0,0,0,0,0 unload 52 20 0,0,0,0,0,0,0,0\n")
}

/// The runner's exit status and last line on a file.
fn ran(file: &Path) -> (Option<i32>, String) {
    let runner = Command::new(env!("CARGO_BIN_EXE_vectors")).arg("reference").arg(file).output();
    let ran = runner.expect("the runner runs");
    let text = String::from_utf8(ran.stdout).expect("it prints text");
    (ran.status.code(), text.lines().last().unwrap_or_default().to_string())
}

fn ran_on(name: &str, text: &str) -> (Option<i32>, String) {
    let file = PathBuf::from(env!("CARGO_TARGET_TMPDIR")).join(name);
    std::fs::write(&file, text).expect("the folder for temporary files can be written");
    ran(&file)
}

#[test]
fn a_file_in_which_nothing_is_compared_is_told_from_one_that_agrees() {
    let (agrees, later) = (agreeing(vectors::LEVEL), agreeing(99));
    let passed_over = agrees.clone() + &later;
    let differs = agrees.replace(" 20 ", " 21 ");
    let said = |status, line: &str| (Some(status), line.to_string());
    assert_eq!(ran_on("agrees", &agrees), said(0, "1 agree, 0 differ, 0 passed over"));
    assert_eq!(ran_on("some", &passed_over), said(0, "1 agree, 0 differ, 1 passed over"));
    assert_eq!(ran_on("differs", &differs), said(1, "0 agree, 1 differ, 0 passed over"));
    assert_eq!(ran_on("empty", ""), said(2, "0 agree, 0 differ, 0 passed over"));
    assert_eq!(ran_on("later", &later), said(2, "0 agree, 0 differ, 1 passed over"));
    assert_eq!(ran(Path::new("no such file")), said(3, ""));
}
