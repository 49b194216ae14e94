//! The program itself: its exit status, its streams, and files that are no plain files.

mod common;

use std::ffi::OsStr;
use std::io::{BufRead, BufReader, Write};
use std::os::unix::ffi::OsStrExt;
use std::os::unix::fs::{symlink, FileTypeExt, MetadataExt, PermissionsExt};
use std::process::{Command, Output, Stdio};
use std::sync::mpsc;
use std::thread;
use std::time::Duration;

use common::{sheet, Folder};

fn program(words: &[&str]) -> Command {
    let mut program = Command::new(env!("CARGO_BIN_EXE_workbench"));
    program.args(words);
    program
}

fn run(words: &[&str]) -> Output {
    program(words).stdin(Stdio::null()).output().expect("the program runs")
}

#[test]
#[cfg_attr(not(guard_library), ignore = "needs the library: tools/library")]
fn exit_statuses_are_as_documented() {
    let (a, p3) = (sheet("A.sheet"), sheet("P3.sheet"));
    let uses: [(&[&str], i32); 7] = [
        (&["check", &a], 0),
        (&["--help"], 0),
        (&["check", &p3], 1),
        (&["list", "-"], 1),
        (&["list"], 2),
        (&[], 2),
        (&["list", "/no/such/file"], 3),
    ];
    for (words, status) in uses {
        let done = run(words);
        assert_eq!(done.status.code(), Some(status), "{words:?}");
        let quiet = status == 0 || words.first() == Some(&"check");
        assert_eq!(done.stderr.is_empty(), quiet, "{words:?}");
        assert_eq!(done.stdout.is_empty(), status >= 2, "{words:?}");
    }
}

/// Each answer comes before the next call is asked for.
#[test]
#[cfg_attr(not(guard_library), ignore = "needs the library: tools/library")]
fn run_answers_at_once() {
    let mut child = program(&["run", &sheet("A.sheet")])
        .stdin(Stdio::piped())
        .stdout(Stdio::piped())
        .spawn()
        .expect("the program runs");
    let mut calls = child.stdin.take().expect("piped");
    let answers = BufReader::new(child.stdout.take().expect("piped")).lines();
    let (told, heard) = mpsc::channel();
    thread::spawn(move || answers.map_while(Result::ok).try_for_each(|answer| told.send(answer)));
    for (call, answer) in [
        ("tray", "open | state 2 | steps 1 | deviations 0"),
        ("!tray", "!open | state 1 | steps 2 | deviations 0"),
        ("unload", "unloaded"),
    ] {
        writeln!(calls, "{call}").expect("taken");
        assert_eq!(heard.recv_timeout(Duration::from_secs(20)).as_deref(), Ok(answer));
    }
    drop(calls);
    assert!(child.wait().expect("it ends").success());
}

/// Where nobody reads the answers the program ends in silence.
#[test]
#[cfg_attr(not(guard_library), ignore = "needs the library: tools/library")]
fn a_closed_pipe_is_no_panic() {
    let mut child = program(&["run", &sheet("A.sheet")])
        .stdin(Stdio::piped())
        .stdout(Stdio::piped())
        .stderr(Stdio::piped())
        .spawn()
        .expect("the program runs");
    drop(child.stdout.take());
    let _ = child.stdin.take().expect("piped").write_all("tray\n".repeat(100_000).as_bytes());
    let done = child.wait_with_output().expect("it ends");
    assert_eq!((done.status.code(), done.stderr.len()), (Some(3), 0));
}

/// A new file takes the old one's place at once; its permissions and a link to it stay.
#[test]
#[cfg_attr(not(guard_library), ignore = "needs the library: tools/library")]
fn files_are_replaced_in_one_step() {
    let folder = Folder::new("replaced");
    let (file, link) = (folder.file("it"), folder.file("link"));
    std::fs::write(&file, "before").expect("written");
    std::fs::set_permissions(&file, std::fs::Permissions::from_mode(0o640)).expect("set");
    symlink(&file, &link).expect("a link");
    let kept = folder.file("kept");
    std::fs::hard_link(&file, &kept).expect("a second name");
    assert_eq!(run(&["compile", &sheet("A.sheet"), "-o", &link]).status.code(), Some(0));
    let after = std::fs::metadata(&file).expect("there");
    assert!(std::fs::symlink_metadata(&link).expect("there").is_symlink());
    assert_eq!(std::fs::read(&kept).expect("there"), b"before", "written in place");
    assert_eq!((after.len(), after.mode() & 0o777), (51, 0o640));
    // A link to nothing yet: its target appears.
    let (target, dangling) = (folder.file("new"), folder.file("dangling"));
    symlink("new", &dangling).expect("a link");
    assert_eq!(run(&["compile", &sheet("A.sheet"), "-o", &dangling]).status.code(), Some(0));
    assert_eq!(std::fs::metadata(&target).expect("there").len(), 51);
    assert_eq!(std::fs::read_dir(&folder.0).expect("there").count(), 5, "something is left");
}

/// A name that is no text works as any other.
#[test]
#[cfg_attr(not(guard_library), ignore = "needs the library: tools/library")]
fn names_may_be_any_bytes() {
    let folder = Folder::new("names");
    let name = folder.0.join(OsStr::from_bytes(b"o\xE4.bytes"));
    let made = program(&["compile", &sheet("A.sheet"), "-o"]).arg(&name).output().expect("runs");
    assert_eq!(made.status.code(), Some(0));
    assert_eq!(std::fs::metadata(&name).expect("there").len(), 51);
    let checked = program(&["check"]).arg(&name).output().expect("runs");
    assert_eq!(checked.status.code(), Some(0));
}

/// An answer that could not be written is told, even where it was a refusal.
#[test]
#[cfg_attr(not(guard_library), ignore = "needs the library: tools/library")]
fn a_full_disk_is_told() {
    for name in ["A.sheet", "P3.sheet"] {
        let full = std::fs::OpenOptions::new().write(true).open("/dev/full").expect("there");
        let done = program(&["list", &sheet(name)]).stdout(full).output().expect("runs");
        assert_eq!(done.status.code(), Some(3), "{name}");
        assert!(String::from_utf8_lossy(&done.stderr).contains("standard output"), "{name}");
    }
}

/// A line without an end takes no memory without an end.
#[test]
#[cfg_attr(not(guard_library), ignore = "needs the library: tools/library")]
fn a_line_has_a_bound() {
    let zero = std::fs::File::open("/dev/zero").expect("there");
    let done = program(&["run", &sheet("A.sheet")]).stdin(zero).output().expect("runs");
    assert_eq!(done.status.code(), Some(3));
}

/// What is no file is written to, and stays what it is.
#[test]
#[cfg_attr(not(guard_library), ignore = "needs the library: tools/library")]
fn a_device_stays_a_device() {
    let done = run(&["compile", &sheet("A.sheet"), "-o", "/dev/null"]);
    assert_eq!(done.status.code(), Some(0));
    assert!(std::fs::metadata("/dev/null").expect("there").file_type().is_char_device());
    let done = run(&["compile", &sheet("A.sheet"), "-o", "/dev/full"]);
    assert_eq!(done.status.code(), Some(3));
}
