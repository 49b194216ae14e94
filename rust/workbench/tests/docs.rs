//! docs/SHEETS.md and README.md: their sheets compile as those of the repository, their taps are
//! answered, their cards forecast, their plays and orders told as they say.

mod common;

use common::{guard, repository, sheet};

/// The worked examples: a heading, and the sheet that it is about.
const EXAMPLES: [(&str, &str); 3] = [
    ("### A tray lock", "A"),
    ("### A shield that corrects only errors", "tray_shield"),
    ("### A mine pump", "mine_pump"),
];

/// The text of a section, up to the next heading.
fn section<'a>(document: &'a str, heading: &str) -> &'a str {
    let (_, after) = document.split_once(&format!("{heading}\n")).expect("the heading is there");
    after.split("\n##").next().expect("a section")
}

/// Its indented blocks.
fn blocks(section: &str) -> Vec<String> {
    let mut blocks = vec![String::new()];
    for line in section.lines() {
        let last = blocks.last_mut().expect("never empty");
        match line.strip_prefix("    ") {
            Some(text) => *last += &format!("{text}\n"),
            None if line.is_empty() && !last.is_empty() => *last += "\n",
            None if last.is_empty() => {}
            None => blocks.push(String::new()),
        }
    }
    blocks
}

/// Its taps: input, and output with the state reached; in a shield the deviations too.
fn taps(section: &str) -> Vec<(String, String, Option<String>)> {
    let rows = section.lines().filter(|line| line.starts_with("| `"));
    rows.map(|row| {
        let cells: Vec<&str> = row.trim_matches('|').split(" | ").map(str::trim).collect();
        let (output, state) = cells[1].split_once(", ").expect("output and state");
        let answer = format!("{} | {state}", output.trim_matches('`'));
        let deviations = (cells.len() == 4).then(|| format!("deviations {}", cells[2]));
        (cells[0].trim_matches('`').to_string(), answer, deviations)
    })
    .collect()
}

#[test]
#[cfg_attr(not(guard_library), ignore = "needs the library: tools/library")]
fn the_examples_are_as_told() {
    let document = std::fs::read_to_string(repository("docs/SHEETS.md")).expect("there");
    for (heading, name) in EXAMPLES {
        let section = section(&document, heading);
        let file = sheet(&format!("{name}.sheet"));
        let blocks = blocks(section);
        let text = blocks.iter().find(|block| block.starts_with("mode")).expect("a sheet");
        let listing = blocks.iter().find(|block| block.starts_with("states")).expect("a listing");
        assert_eq!(
            guard(&["list", &file], b"").text(),
            format!("{}\n", listing.trim_end()),
            "{name}"
        );
        // A sheet that is shown in part has two points for the rest.
        if !text.contains("..") {
            let shown = guard(&["compile", "-"], text.as_bytes());
            assert_eq!(shown.out, guard(&["compile", &file], b"").out, "{name}: {}", shown.err);
        }
        let taps = taps(section);
        assert!(taps.len() >= 4, "{name}: too few taps");
        let lines: String = taps.iter().map(|(input, ..)| format!("{input}\n")).collect();
        let answers = guard(&["run", &file], lines.as_bytes()).text();
        assert_eq!(answers.lines().count(), taps.len(), "{name}");
        for (found, (input, answer, deviations)) in answers.lines().zip(&taps) {
            assert!(found.starts_with(&format!("{answer} |")), "{name}, {input}: {found}");
            let deviates = deviations.as_ref().is_none_or(|told| found.ends_with(told));
            assert!(deviates, "{name}, {input}: {found}");
        }
    }
}

/// Sheet A's card is told where its sheet is.
#[test]
#[cfg_attr(not(guard_library), ignore = "needs the library: tools/library")]
fn the_cards_are_as_told() {
    let told = [("docs/SHEETS.md", "### A tray lock"), ("README.md", "## How to write a sheet")];
    let card = guard(&["forecast", &sheet("A.sheet")], b"").text();
    for (file, heading) in told {
        let document = std::fs::read_to_string(repository(file)).expect("there");
        let blocks = blocks(section(&document, heading));
        let shown = blocks.iter().find(|block| block.starts_with("average")).expect("a card");
        assert_eq!(shown.trim_end(), card.trim_end(), "{file}");
    }
}

/// P3 is what is wrong: its check and its play.
#[test]
#[cfg_attr(not(guard_library), ignore = "needs the library: tools/library")]
fn the_plays_are_as_told() {
    let document = std::fs::read_to_string(repository("docs/SHEETS.md")).expect("there");
    let blocks = blocks(section(&document, "## When something is wrong"));
    let file = sheet("P3.sheet");
    for (command, begin) in [("check", "sheets/P3.sheet: refused"), ("forced", "a break of")] {
        let shown = blocks.iter().find(|block| block.starts_with(begin)).expect("it is shown");
        let told = guard(&[command, &file], b"").text().replace(&file, "sheets/P3.sheet");
        assert_eq!(shown.trim_end(), told.trim_end(), "{command}");
    }
}

#[test]
#[cfg_attr(not(guard_library), ignore = "needs the library: tools/library")]
fn the_order_is_as_told() {
    let document = std::fs::read_to_string(repository("docs/SHEETS.md")).expect("there");
    let blocks = blocks(section(&document, "### What the guard chooses"));
    let shown = blocks.iter().find(|block| block.starts_with("prefer")).expect("an order");
    assert_eq!(shown.trim_end(), guard(&["order", &sheet("P8.sheet")], b"").text().trim_end());
}

/// Two product states of P7, with their proposals.
#[test]
#[cfg_attr(not(guard_library), ignore = "needs the library: tools/library")]
fn the_proposals_are_as_told() {
    let document = std::fs::read_to_string(repository("docs/SHEETS.md")).expect("there");
    let blocks = blocks(section(&document, "### A shield that corrects only errors"));
    let shown = blocks.iter().find(|block| block.starts_with("state 3:")).expect("proposals");
    let told = guard(&["proposals", &sheet("P7.sheet")], b"").text();
    assert!(told.contains(shown.trim_end()), "{told}");
}

/// README's sheet is sheet A, with other comments.
#[test]
#[cfg_attr(not(guard_library), ignore = "needs the library: tools/library")]
fn the_readme_s_sheet_is_sheet_a() {
    let document = std::fs::read_to_string(repository("README.md")).expect("there");
    let blocks = blocks(section(&document, "## How to write a sheet"));
    let text = blocks.iter().find(|block| block.starts_with("mode")).expect("a sheet");
    let stored = guard(&["compile", &sheet("A.sheet")], b"").out;
    assert_eq!(guard(&["compile", "-"], text.as_bytes()).out, stored);
}
