//! What is said of text sheets and hexadecimal texts, held to files: for each NAME.sheet or NAME.hex what
//! `compile` says of it is NAME.err. tests/faults has those with errors, tests/warnings those that
//! compile all the same. With BLESS=1 in the environment the files are written.

mod common;

use common::{files, guard, repository};

/// Holds every sheet of the folder to what is stored; answers how many there are.
fn hold(folder: &str, status: u8) -> usize {
    let folder = repository("rust/workbench/tests").join(folder);
    let mut sheets = files(folder.clone(), "sheet");
    sheets.extend(files(folder.clone(), "hex"));
    for path in &sheets {
        let done = guard(&["compile", path.to_str().expect("letters")], b"");
        let name = path.file_name().expect("a file").to_str().expect("letters");
        let said = done.err.replace(&format!("{}/", folder.display()), "");
        let stored = path.with_extension("err");
        if std::env::var_os("BLESS").is_some() {
            std::fs::write(&stored, &said).expect("written");
        }
        let expected = std::fs::read_to_string(&stored).unwrap_or_default();
        assert_eq!(said, expected, "{name}");
        assert!(!said.is_empty(), "{name}");
        assert_eq!((done.status, done.out.is_empty()), (status, status == 1), "{name}");
    }
    sheets.len()
}

#[test]
#[cfg_attr(not(guard_library), ignore = "needs the library: tools/library")]
fn errors_are_as_stored() {
    assert!(hold("faults", 1) >= 40, "too few faults");
}

#[test]
#[cfg_attr(not(guard_library), ignore = "needs the library: tools/library")]
fn warnings_are_as_stored() {
    assert!(hold("warnings", 0) >= 1, "no warnings");
}
