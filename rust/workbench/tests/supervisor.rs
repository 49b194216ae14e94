//! `guard supervisor` against the reference: every state with its names, every input, every output.

mod common;

use common::{guard, hexadecimal, input_name, monitors, setting, sheet};
use conformance::{cases, generate, seed, Random};
use guard::{Guard, Supervisor, Work};
use reference::{Kept, Mode, Product, Sheet};
use workbench::source::Source;
use workbench::states::States;

/// The whole text.
fn expected(sheet: &Sheet, product: &Product, kept: &Kept) -> String {
    let mut text = String::new();
    let names: Vec<String> = (0..1 << sheet.inputs).map(|input| input_name(sheet, input)).collect();
    let width = names.iter().map(String::len).max().unwrap();
    for state in 0..product.count() {
        let lost = if kept.is_kept(state) { "" } else { ", lost" };
        text += &format!("state {state}{}{lost}\n", monitors(sheet, product.tuple(state)));
        for (input, name) in names.iter().enumerate().filter(|_| kept.is_kept(state)) {
            let allowed = (0..product.output_count())
                .filter(|&output| kept.allowed(product, state, input, output).is_some())
                .map(|output| setting("out", sheet.outputs, output as u8));
            let allowed: Vec<String> = allowed.collect();
            text += &format!("  {name:width$}  {}\n", allowed.join(", "));
        }
    }
    text
}

#[test]
#[cfg_attr(not(guard_library), ignore = "needs the library: tools/library")]
fn supervisors_are_told_whole() {
    let (mut shields, mut losing) = (0, 0);
    for case in 0..cases(400) {
        let mut random = Random::new(seed(), case);
        let bytes = generate::sheet(&mut random);
        if reference::supervisor_table(&bytes).is_err() {
            continue;
        }
        let sheet = Sheet::parse(&bytes).expect("accepted");
        let product = Product::explore(&sheet).expect("accepted");
        let kept = Kept::by_rounds(&product);
        let done = guard(&["supervisor", "-"], hexadecimal(&bytes).as_bytes());
        assert_eq!((done.status, done.err.as_str()), (0, ""), "case {case}");
        assert_eq!(done.text(), expected(&sheet, &product, &kept), "case {case}");
        shields += usize::from(sheet.mode == Mode::Shield);
        losing += usize::from((0..product.count()).any(|state| !kept.is_kept(state)));
    }
    assert!(shields > 20 && losing > 20, "{shields} shields, {losing} with lost states");
}

/// Names are told only of the supervisor and the guard that they are of.
#[test]
#[cfg_attr(not(guard_library), ignore = "needs the library: tools/library")]
fn another_sheet_s_tables_have_no_names() {
    let source = |name: &str| {
        let bytes = guard(&["compile", &sheet(name)], b"").out;
        Source::of_bytes(name, bytes)
    };
    let (a, p4) = (source("A.hex"), source("P4.hex"));
    let of_a = Supervisor::make(&a.bytes, &mut Work::new()).expect("accepted");
    let of_p4 = Supervisor::make(&p4.bytes, &mut Work::new()).expect("accepted");
    assert!(States::of(&a, &of_a).is_some() && States::of(&p4, &of_p4).is_some());
    assert!(States::of(&a, &of_p4).is_none() && States::of(&p4, &of_a).is_none());
    // Nor has another guard: it would be in two product states at once.
    let states = States::of(&a, &of_a).expect("its own");
    let guard_of =
        |source: &Source| Guard::make(&source.bytes, &mut Work::new()).expect("accepted");
    assert_eq!(states.of_guard(&guard_of(&a)).map(|states| states.len()), Some(3));
    assert!(states.of_guard(&guard_of(&p4)).is_none());
}
