//! `guard proposals` against the monitors and copies one by one.

mod common;

use common::{guard, hexadecimal, input_name, monitors, sheet};
use conformance::monitors::{broken, next, proposal, sound};
use conformance::{cases, generate, seed, Random};
use reference::{Kept, Mode, Product, Sheet};

/// The whole text; sorts of proposals are counted.
fn expected(sheet: &Sheet, product: &Product, seen: &mut [u64; 4]) -> String {
    let kept = Kept::by_rounds(product);
    let number = |tuple| (0..product.count()).find(|&state| *product.tuple(state) == tuple);
    let names: Vec<String> = (0..1 << sheet.inputs).map(|input| input_name(sheet, input)).collect();
    let width = names.iter().map(String::len).max().unwrap();
    let mut text = String::new();
    for state in (0..product.count()).filter(|&state| kept.is_kept(state)) {
        let at = product.tuple(state);
        text += &format!("state {state}{}\n", monitors(sheet, at));
        for (input, name) in (0..).zip(&names) {
            let output = proposal(sheet, input);
            let given = number(next(sheet, at, input, output))
                .filter(|&to| broken(sheet, at, input, output).is_empty() && kept.is_kept(to));
            let (sort, told) = match (sound(sheet, at, input), given) {
                (true, Some(_)) => (0, "sound, may pass".to_string()),
                (true, None) => (1, "sound, must be corrected".to_string()),
                (false, None) => (2, "unsound, must be corrected".to_string()),
                (false, Some(to)) => {
                    (3, format!("unsound, may pass, and is trusted again: state {to}"))
                }
            };
            seen[sort] += 1;
            text += &format!("  {name:width$}  {told}\n");
        }
    }
    text
}

#[test]
#[cfg_attr(not(guard_library), ignore = "needs the library: tools/library")]
fn every_proposal_of_a_shield_is_told() {
    let (mut controllers, mut seen) = (0, [0; 4]);
    for case in 0..cases(400) {
        let bytes = generate::sheet(&mut Random::new(seed(), case));
        let done = guard(&["proposals", "-"], hexadecimal(&bytes).as_bytes());
        if reference::supervisor_table(&bytes).is_err() {
            assert_eq!((done.status, done.out.len()), (1, 0), "case {case}: {}", done.err);
            continue;
        }
        let sheet = Sheet::parse(&bytes).expect("accepted");
        if sheet.mode == Mode::Controller {
            assert_eq!((done.status, done.out.len()), (1, 0), "case {case}");
            assert!(done.err.ends_with("a controller's sheet, which has no proposals\n"));
            controllers += 1;
            continue;
        }
        let product = Product::explore(&sheet).expect("accepted");
        assert_eq!((done.status, done.err.as_str()), (0, ""), "case {case}");
        assert_eq!(done.text(), expected(&sheet, &product, &mut seen), "case {case}");
    }
    println!("{controllers} controllers; proposals of each sort {seen:?}");
    let few = controllers < 20 || seen.iter().any(|&inputs| inputs < 100);
    assert!(cases(400) < 400 || !few, "too few of a sort");
}

/// The notebook's P7: trusted again from the state where copy and monitor are apart.
#[test]
#[cfg_attr(not(guard_library), ignore = "needs the library: tools/library")]
fn a_proposal_that_has_recovered_is_told() {
    let done = guard(&["proposals", &sheet("P7.sheet")], b"");
    assert_eq!((done.status, done.err.as_str()), (0, ""));
    let told = "\
state 4: never_open_twice closed; proposal never_open_twice twice
  / !open  unsound, may pass, and is trusted again: state 0
  / open   unsound, may pass, and is trusted again: state 3
";
    assert!(done.text().contains(told), "{}", done.text());
}
