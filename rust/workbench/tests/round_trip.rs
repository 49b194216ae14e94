//! `compile` of `show` gives the same bytes, for every sheet in bounds.

mod common;

use common::{files, guard, repository};
use conformance::{cases, generate, seed, Random};
use workbench::source::Source;
use workbench::text;

#[test]
fn generated_sheets_come_back() {
    let mut shown = 0;
    for case in 0..cases(3_000) {
        let mut random = Random::new(seed(), case);
        let bytes = generate::any_sheet(&mut random);
        let Some(named) = Source::of_bytes("test", bytes.clone()).named() else {
            assert!(reference::Sheet::parse(&bytes).is_err(), "case {case}");
            continue;
        };
        shown += 1;
        let text = text::show(&named);
        let (again, warnings) = text::compile(&text)
            .unwrap_or_else(|faults| panic!("case {case}: {faults:?} in\n{text}"));
        assert_eq!(again.sheet.to_bytes(), bytes, "case {case}:\n{text}");
        assert_eq!(again, named, "case {case}: names");
        assert_eq!(warnings, [], "case {case}:\n{text}");
        assert_eq!(text::show(&again), text, "case {case}");
    }
    assert!(shown * 2 > cases(3_000), "too few sheets in bounds");
}

/// Through the commands, as a person does it, text by standard input.
#[test]
#[cfg_attr(not(guard_library), ignore = "needs the library: tools/library")]
fn show_and_compile_undo_each_other() {
    for case in 0..cases(200) {
        let mut random = Random::new(seed(), case);
        let bytes = generate::sheet(&mut random);
        let shown = guard(&["show", "-"], &bytes);
        assert_eq!((shown.status, shown.err.as_str()), (0, ""), "case {case}");
        let compiled = guard(&["compile", "-"], &shown.out);
        assert_eq!((compiled.status, compiled.err.as_str()), (0, ""), "case {case}");
        assert_eq!(compiled.out, bytes, "case {case}");
    }
}

/// The repository's sheets: text and hexadecimal say the same bytes, and names stay.
#[test]
#[cfg_attr(not(guard_library), ignore = "needs the library: tools/library")]
fn the_sheets_say_the_same_both_ways() {
    let mut pairs = 0;
    for path in files(repository("sheets"), "sheet") {
        let file = path.to_str().expect("a name in letters");
        let compiled = guard(&["compile", file], b"");
        assert_eq!((compiled.status, compiled.err.as_str()), (0, ""), "{file}");
        let shown = guard(&["show", file], b"");
        assert_eq!(guard(&["compile", "-"], &shown.out).out, compiled.out, "{file}");
        let other = path.with_extension("hex");
        if other.exists() {
            pairs += 1;
            let bytes = guard(&["compile", other.to_str().expect("letters")], b"");
            assert_eq!(bytes.out, compiled.out, "{file}");
        }
    }
    assert!(pairs >= 10, "too few sheets in both forms");
}
