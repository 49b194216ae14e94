//! `guard check`: the number is the library's, and the reference's reader, which tells the place, agrees.

mod common;

use std::collections::BTreeMap;

use common::{guard, hexadecimal, input_name, Play};
use conformance::{cases, generate, seed, Random};
use guard::{Guard, Refusal, Supervisor, Work};
use reference::Sheet;

/// What is printed beside a refusal: the reference's place, or how the sheet is beaten.
fn detail(bytes: &[u8], refusal: Refusal) -> String {
    if let Err(fault) = Sheet::read(bytes) {
        let monitor = match fault.refusal.number() {
            4 | 5 => format!(" (monitor {})", fault.record - 1),
            _ => String::new(),
        };
        let place = format!("record {}{monitor}, byte {}", fault.record, fault.byte);
        return format!("  {place}: {}\n", fault.what);
    }
    if refusal != Refusal::Unrealizable {
        return String::new();
    }
    let play = Play::of(bytes);
    let input = input_name(&play.sheet, play.force(0).input);
    format!("  {}, first input {input}; guard forced tells the play\n", play.summary())
}

/// What is printed of a sheet, from the library's answers and the reference's place.
fn expected(bytes: &[u8], work: &mut Work) -> (u32, String) {
    let made = Supervisor::make(bytes, work).and_then(|s| Ok((s, Guard::make(bytes, work)?)));
    let (supervisor, guard) = match made {
        Ok(made) => made,
        Err(refusal) => {
            let detail = detail(bytes, refusal);
            return (refusal.number(), format!("standard input: {refusal}\n{detail}"));
        }
    };
    let kept = (0..supervisor.states()).filter(|&state| supervisor.is_kept(state)).count();
    let kind = if guard.states() <= 256 { 17 } else { 20 };
    let rows = [
        ("product states", supervisor.states(), String::new()),
        ("kept states", kept, String::new()),
        ("guard states", guard.states(), String::new()),
        ("supervisor table", supervisor.as_bytes().len(), " bytes".to_string()),
        ("guard table", guard.as_bytes().len(), format!(" bytes, rows of kind {kind}")),
    ];
    let rows = rows.map(|(what, figure, unit)| format!("  {what:<16}  {figure:>6}{unit}\n"));
    (0, format!("standard input: accepted\n{}", rows.concat()))
}

#[test]
#[cfg_attr(not(guard_library), ignore = "needs the library: tools/library")]
fn numbers_are_the_library_s_and_places_the_reference_s() {
    let mut work = Work::new();
    let mut seen: BTreeMap<u32, usize> = BTreeMap::new();
    for case in 0..cases(20_000) {
        let mut random = Random::new(seed(), case);
        let mut bytes = generate::any_sheet(&mut random);
        if random.once_in(2) {
            generate::damage(&mut random, &mut bytes);
        }
        let (number, text) = expected(&bytes, &mut work);
        // As text, since bytes that are all printable are taken for a text.
        let done = guard(&["check", "-"], hexadecimal(&bytes).as_bytes());
        assert_eq!(done.text(), text, "case {case}");
        assert_eq!(done.status, u8::from(number != 0), "case {case}: {}", done.err);
        *seen.entry(number).or_default() += 1;
    }
    assert_eq!(seen.keys().copied().collect::<Vec<_>>(), [0, 1, 2, 3, 4, 5, 6, 7, 8], "{seen:?}");
}

/// An empty file is the empty sheet, and so is a text of comments alone.
#[test]
#[cfg_attr(not(guard_library), ignore = "needs the library: tools/library")]
fn an_empty_file_is_the_empty_sheet() {
    for content in ["", "\n", "# nothing\n"] {
        let done = guard(&["check", "-"], content.as_bytes());
        assert!(done.text().starts_with("standard input: refused 2: "), "{}", done.text());
        assert_eq!(done.status, 1);
        let listed = guard(&["list", "-"], content.as_bytes());
        assert_eq!((listed.status, listed.text().as_str()), (1, "refused 2\n"));
    }
}
