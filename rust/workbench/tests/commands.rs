//! Each command as a person uses it: exit status, what goes where, files that appear whole or not at all.

mod common;

use common::{files, guard, repository, sheet, Folder};

#[test]
fn help_is_an_answer() {
    let all = guard(&["--help"], b"");
    assert_eq!((all.status, all.err.as_str()), (0, ""));
    for command in [
        "compile",
        "show",
        "check",
        "forced",
        "order",
        "list",
        "supervisor",
        "forecast",
        "make",
        "dot",
        "run",
    ] {
        assert!(all.text().contains(&format!("guard {command} FILE")), "{command}");
        let one = guard(&[command, "--help"], b"");
        assert_eq!((one.status, one.err.as_str()), (0, ""));
        assert!(one.text().starts_with(&format!("guard {command} FILE")), "{command}");
    }
}

#[test]
#[cfg_attr(not(guard_library), ignore = "needs the library: tools/library")]
fn wrong_use_is_2() {
    let a = sheet("A.hex");
    let uses: [&[&str]; 16] = [
        &[],
        &["lists", &a],
        &["list"],
        &["list", &a, &a],
        &["list", &a, "--supervisor"],
        &["list", "-o", &a],
        &["compile", &a, "-o"],
        &["compile", &a, "-o", "x", "-o", "y"],
        &["make", &a],
        &["dot", &a, "--supervisr"],
        &["run", "-"],
        &["check", "--", "--help", "more"],
        &["check", "-x"],
        &["check", ""],
        &["compile", &a, "-o", ""],
        &["compile", &a, "-o", &a],
    ];
    for words in uses {
        let done = guard(words, b"");
        assert_eq!((done.status, done.out.len()), (2, 0), "{words:?}: {}", done.err);
        assert!(done.err.starts_with("guard: "), "{words:?}: {}", done.err);
    }
}

#[test]
#[cfg_attr(not(guard_library), ignore = "needs the library: tools/library")]
fn a_file_that_cannot_be_read_or_written_is_3() {
    let folder = Folder::new("unreadable");
    let (a, missing) = (sheet("A.hex"), folder.file("missing/it"));
    let inside = folder.0.to_str().expect("letters");
    let uses: [&[&str]; 5] = [
        &["check", &missing],
        &["check", inside],
        &["check", "--", "--help"],
        &["compile", &a, "-o", &missing],
        &["compile", &a, "-o", inside],
    ];
    for words in uses {
        let done = guard(words, b"");
        assert_eq!((done.status, done.out.len()), (3, 0), "{words:?}: {}", done.err);
    }
    assert_eq!(std::fs::read_dir(&folder.0).expect("there").count(), 0, "something is left");
}

/// A faulty sheet leaves the file that was there; a sound one replaces it, nothing is left beside it.
#[test]
#[cfg_attr(not(guard_library), ignore = "needs the library: tools/library")]
fn files_appear_whole_or_not_at_all() {
    let folder = Folder::new("whole");
    let out = folder.file("out");
    std::fs::write(&out, "before").expect("written");
    let faulty = repository("rust/workbench/tests/faults/two_starts.sheet");
    let faulty = faulty.to_str().expect("letters");
    let unrealizable = sheet("P3.hex");
    for words in [["compile", faulty, "-o", &out], ["make", &unrealizable, "-o", &out]] {
        assert_eq!(guard(&words, b"").status, 1);
        assert_eq!(std::fs::read(&out).expect("there"), b"before");
    }
    let a = sheet("A.hex");
    for (words, table) in [
        (vec!["compile", &a, "-o", &out], guard(&["compile", &a], b"").out),
        (
            vec!["make", &a, "-o", &out],
            reference::guard_table(&guard(&["compile", &a], b"").out).expect("made"),
        ),
        (
            vec!["make", "--supervisor", &a, "-o", &out],
            reference::supervisor_table(&guard(&["compile", &a], b"").out).expect("made"),
        ),
    ] {
        let done = guard(&words, b"");
        assert_eq!((done.status, done.out.len()), (0, 0), "{}", done.err);
        assert_eq!(std::fs::read(&out).expect("there"), table);
    }
    assert_eq!(std::fs::read_dir(&folder.0).expect("there").count(), 1, "something is left");
}

/// Stored tables are listed, drawn and run; a damaged one is refused 11, and no sheet's command takes one.
#[test]
#[cfg_attr(not(guard_library), ignore = "needs the library: tools/library")]
fn stored_tables_are_taken() {
    let folder = Folder::new("stored");
    let (a, table) = (sheet("A.hex"), folder.file("-A.table"));
    assert_eq!(guard(&["make", &a, "-o", &table], b"").status, 0);
    let listing = "states 3 inputs 1 outputs 1 horizon 1\n0: 0>1 1>2\n1: 0>1 1>2\n2: 0>1 0>0\n";
    assert_eq!(guard(&["list", &table], b"").text(), listing);
    assert_eq!(guard(&["list", &a], b"").text(), listing);
    assert!(guard(&["dot", &table], b"").text().contains("  2 -> 0 [label=\"in0: !out0\"];"));
    assert_eq!(guard(&["run", &table], b"1\n").text(), "out0 | state 2 | steps 1 | deviations 0\n");
    assert!(guard(&["check", &table], b"").text().contains("refused 2"));
    let mut bytes = std::fs::read(&table).expect("there");
    bytes[15] = 9;
    let done = guard(&["list", "-"], &bytes);
    assert_eq!((done.status, done.text().as_str()), (1, "refused 11\n"));
    assert_eq!(guard(&["dot", "-"], &bytes).status, 1);
}

/// A guard of more than 256 states has rows of kind 20: stored, it is listed, drawn and run as others are.
#[test]
#[cfg_attr(not(guard_library), ignore = "needs the library: tools/library")]
fn stored_tables_with_wide_rows_are_taken() {
    let folder = Folder::new("wide");
    let (counters, table) = (sheet("counters-32-9.sheet"), folder.file("wide.table"));
    assert_eq!(guard(&["make", &counters, "-o", &table], b"").status, 0);
    let mut bytes = std::fs::read(&table).expect("there");
    assert_eq!((bytes.len(), &bytes[12..14]), (10 + 288 * 7, &[20, 0][..]));
    let listing = std::fs::read_to_string(sheet("counters-32-9.list")).expect("there");
    assert_eq!(guard(&["list", &table], b"").text(), listing);
    let graph = guard(&["dot", &table], b"").text();
    assert!(graph.contains("  287 -> 0 [") && graph.contains("  256 -> 257 ["), "{graph}");
    let run = guard(&["run", &table], "0\n".repeat(300).as_bytes()).text();
    let answer = |state, steps| format!("out0 out1 | state {state} | steps {steps} | deviations 0");
    let told = run.lines().zip(1..).all(|(line, step)| line == answer(step % 288, step));
    assert!(told && run.lines().count() == 300, "{run}");
    let checked = guard(&["check", &counters], b"").text();
    assert!(checked.ends_with("guard table         2026 bytes, rows of kind 20\n"), "{checked}");
    bytes[12] = 17;
    assert_eq!(guard(&["list", "-"], &bytes).text(), "refused 11\n");
}

/// A refusal is `refused N` on standard output for a listing, and in words on standard error.
#[test]
#[cfg_attr(not(guard_library), ignore = "needs the library: tools/library")]
fn refusals_are_told_in_words() {
    for (name, number, words) in
        [("P3", 8, "unrealizable"), ("counters-32-17", 7, "512"), ("P10", 5, "seventh")]
    {
        let done = guard(&["list", &sheet(&format!("{name}.hex"))], b"");
        assert_eq!((done.status, done.text()), (1, format!("refused {number}\n")));
        assert!(done.err.contains(words), "{}", done.err);
        for command in ["supervisor", "forecast", "dot"] {
            let done = guard(&[command, &sheet(&format!("{name}.hex"))], b"");
            assert_eq!((done.status, done.out.len()), (1, 0));
            assert_eq!(done.err.contains("guard forced FILE"), number == 8, "{}", done.err);
        }
    }
    for (length, text) in [(16_384, "refused 2\n"), (16_385, "too long\n")] {
        let done = guard(&["list", "-"], &vec![0; length]);
        assert_eq!((done.status, done.text().as_str()), (1, text));
    }
}

/// The sheets of the repository have the listings that stand beside them.
#[test]
#[cfg_attr(not(guard_library), ignore = "needs the library: tools/library")]
fn sheets_are_listed_as_stored() {
    let sheets = files(repository("sheets"), "sheet");
    assert!(sheets.len() >= 15, "too few text sheets");
    for path in sheets {
        let file = path.to_str().expect("letters");
        let stored = std::fs::read_to_string(path.with_extension("list")).expect("a listing");
        let done = guard(&["list", file], b"");
        assert_eq!(done.text(), stored, "{file}");
        assert_eq!(done.status, u8::from(stored.starts_with("refused")), "{file}");
    }
}

/// Names come from the text; a shield's copies and proposals are told apart.
#[test]
#[cfg_attr(not(guard_library), ignore = "needs the library: tools/library")]
fn supervisors_are_told_by_names() {
    let a = guard(&["supervisor", &sheet("A.sheet")], b"").text();
    assert!(
        a.starts_with(
            "state 0: never_open_twice closed, open_with_tray other\n  !tray  !open, open\n"
        ),
        "{a}"
    );
    let p7 = guard(&["supervisor", &sheet("P7.hex")], b"").text();
    assert!(
        p7.starts_with("state 0: hard0 s0; proposal hard0 s0\n  / !out0  !out0, out0\n"),
        "{p7}"
    );
}

/// A file is taken for what is in it, and a byte order mark is no part of a text sheet.
#[test]
#[cfg_attr(not(guard_library), ignore = "needs the library: tools/library")]
fn files_are_taken_for_their_content() {
    let text = std::fs::read(sheet("A.sheet")).expect("there");
    let bytes = guard(&["compile", "-"], &text).out;
    let marked = ["\u{FEFF}".as_bytes(), &text].concat();
    let lines = String::from_utf8(text.clone()).expect("text").replace('\n', "\r\n");
    for content in [&text, &marked, &lines.into_bytes(), &bytes] {
        assert_eq!(guard(&["compile", "-"], content).out, bytes);
    }
    for (content, taken) in [
        (&b"\x7F00"[..], "bytes"),
        (b"00\0", "bytes"),
        (b"# mode\n0G", "hexadecimal text"),
        (b"mode\n0G", "a text sheet"),
        (b"modes in0 0G", "hexadecimal text"),
        (b"\x10\0\x13\0", "bytes"),
        ("0G äin".as_bytes(), "a text sheet"),
        (b"", "the empty sheet"),
    ] {
        let done = guard(&["check", "-"], content);
        assert!(done.err.contains(&format!("taken for {taken}, since")), "{}", done.err);
        assert_eq!(done.status, 1);
    }
    // A table where a sheet is asked for: the library refuses it, and a hint is given.
    let guard_table = reference::guard_table(&bytes).expect("accepted");
    let supervisor_table = reference::supervisor_table(&bytes).expect("accepted");
    for (table, kind) in [(guard_table, "guard"), (supervisor_table, "supervisor")] {
        for command in ["check", "show", "forced", "order", "supervisor", "forecast", "compile"] {
            let done = guard(&[command, "-"], &table);
            assert!(done.err.contains(&format!("as a {kind} table does")), "{}", done.err);
            assert_eq!((done.status, done.text().contains("bytes")), (1, false), "{command}");
        }
    }
    let utf16: Vec<u8> = "\u{FEFF}mode".encode_utf16().flat_map(u16::to_le_bytes).collect();
    assert!(guard(&["compile", "-"], &utf16).err.contains("save it in UTF-8"));
    assert!(guard(&["compile", "-"], b"mode\x0C").err.contains("it might be a text sheet"));
}
