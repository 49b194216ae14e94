//! One set of names for the refusals: the wrapper's and the reference's tables are the same, and
//! Rattle's source, which has the names first, has no others.

use std::collections::BTreeMap;
use std::fs;
use std::path::Path;

/// Numbers and names, in the order of a table.
fn named<T: std::fmt::Debug>(table: &[T], number: fn(&T) -> u32) -> Vec<(u32, String)> {
    table.iter().map(|refusal| (number(refusal), format!("{refusal:?}"))).collect()
}

fn of_wrapper() -> Vec<(u32, String)> {
    named(&guard::Refusal::NAMED, |refusal| refusal.number())
}

fn of_reference() -> Vec<(u32, String)> {
    named(&reference::Refusal::ALL, |refusal| refusal.number())
}

#[test]
fn wrapper_and_reference_have_the_same_names_and_numbers() {
    assert_eq!(of_wrapper(), of_reference());
}

/// The types of Rattle's grounds: a maker's refusals, the play's own ground, and what the calls on a board
/// refuse by.
const GROUNDS: [&str; 5] = ["Refusal", "Ground", "LoadRefusal", "StepRefusal", "ChangeRefusal"];

/// Adds the names that a source gives numbers to: as cases `Name = number,` of an enum, or by an arm
/// `Type::Name => number,`.
fn add_names(source: &str, names: &mut BTreeMap<u32, String>) {
    let mut ground = "";
    for line in source.lines().map(str::trim) {
        if let Some(name) = line.strip_prefix("pub enum ") {
            ground = name.trim_end_matches(" {");
        } else if line == "}" {
            ground = "";
        }
        let case = line.split_once(" = ").map(|(name, number)| (ground, name, number));
        let arm = line.split_once(" => ").and_then(|(arm, number)| {
            arm.split_once("::").map(|(ground, name)| (ground, name, number))
        });
        let Some((ground, name, number)) = case.or(arm) else { continue };
        let Ok(number) = number.trim_end_matches(',').parse() else { continue };
        if GROUNDS.contains(&ground) {
            let before = names.insert(number, name.to_string());
            assert!(before.is_none_or(|before| before == name), "{number} has two names");
        }
    }
}

#[test]
fn rattle_has_the_same_names_and_numbers() {
    let crates = Path::new(concat!(env!("CARGO_MANIFEST_DIR"), "/../../crates"));
    let entries = |folder: &Path| fs::read_dir(folder).into_iter().flatten().flatten();
    let mut names = BTreeMap::new();
    for folder in entries(crates) {
        for file in entries(&folder.path().join("src")) {
            let source = fs::read_to_string(file.path()).expect("a source is a text");
            add_names(&source, &mut names);
        }
    }
    assert_eq!(names.into_iter().collect::<Vec<_>>(), of_wrapper());
}

#[test]
fn the_tools_say_a_maker_s_refusals_in_the_wrapper_s_words() {
    let tools = Path::new(concat!(env!("CARGO_MANIFEST_DIR"), "/../../tools/lib.sh"));
    let tools = fs::read_to_string(tools).expect("the tools' shared file is there");
    let said = tools.lines().filter_map(|line| {
        let (number, words) = line.trim().split_once(") echo \"")?;
        number.parse::<u32>().ok()?;
        Some(format!("refused {number}: {}", words.strip_suffix("\" ;;")?))
    });
    let makers = guard::Refusal::NAMED.into_iter().filter(|refusal| refusal.number() <= 10);
    assert_eq!(said.collect::<Vec<_>>(), makers.map(|r| r.to_string()).collect::<Vec<_>>());
}
