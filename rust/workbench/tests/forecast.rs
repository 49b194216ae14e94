//! `guard forecast` against the reference: every state with its averages, digit by digit, its bars and
//! its names.

mod common;

use common::{guard, hexadecimal, sheet};
use conformance::{cases, generate, seed, Random};
use reference::{Averages, Mode, Product, Prospect, Role, Sheet};

/// The marks of the longest bar.
const MARKS: u128 = 20;

/// A sum over 2^shift in decimal, by long division.
fn decimal(sum: u128, shift: u32) -> String {
    let mut text = (sum >> shift).to_string();
    let mut rest = sum % (1 << shift);
    if rest > 0 {
        text.push('.');
    }
    while rest > 0 {
        rest *= 10;
        text += &(rest >> shift).to_string();
        rest %= 1 << shift;
    }
    text
}

/// As many marks as its share of the largest sum begins.
fn bar(sum: u128, largest: u128) -> String {
    "#".repeat((MARKS * sum).div_ceil(largest.max(1)) as usize)
}

/// The monitors by made-up names, then those that have a copy in brackets: something of each.
fn in_order(sheet: &Sheet, word: impl Fn(usize, usize) -> String) -> String {
    let count = sheet.monitors.len();
    let hard =
        (0..count).filter(|&j| sheet.mode == Mode::Shield && sheet.monitors[j].role == Role::Hard);
    let copies = hard.enumerate().map(|(copy, j)| format!("({})", word(j, count + copy)));
    (0..count).map(|j| word(j, j)).chain(copies).collect::<Vec<_>>().join(", ")
}

/// The rows of a card, a blank between the words.
fn expected(sheet: &Sheet, product: &Product, forecast: &[Prospect]) -> Vec<String> {
    let shift = u32::from(sheet.inputs) * u32::from(sheet.horizon);
    let sum = |average: f64| (average * (1u64 << shift) as f64) as u128;
    let sums = |prospect: &Prospect| match prospect {
        Prospect::Lost => None,
        Prospect::Worth(Averages { best, least }) => Some([sum(*best), sum(*least)]),
    };
    let largest = forecast.iter().filter_map(sums).map(|[best, _]| best).max().unwrap_or(0);
    let role = |j: usize| match sheet.monitors[j].role {
        Role::Hard => "hard",
        Role::Soft => "soft",
        Role::Limit => "limit",
    };
    let steps = if sheet.horizon == 1 { "step" } else { "steps" };
    let mut rows = vec![
        format!("average reward over {} {steps}", sheet.horizon),
        format!("state best least {}", in_order(sheet, |j, _| format!("{}{j}", role(j)))),
    ];
    for (state, prospect) in forecast.iter().enumerate() {
        let cells = sums(prospect).map(|sums| {
            sums.map(|sum| format!("{} {}", decimal(sum, shift), bar(sum, largest))).join(" ")
        });
        let names = in_order(sheet, |_, place| format!("s{}", product.tuple(state)[place]));
        rows.push(format!("{state} {} {names}", cells.unwrap_or("lost".to_string())));
    }
    rows.iter().map(|row| one_blank(row)).collect()
}

fn one_blank(row: &str) -> String {
    row.split_whitespace().collect::<Vec<_>>().join(" ")
}

/// Where the names begin is the same in every row: after the number, two decimals and two bars.
fn names_begin(row: &str) -> Option<usize> {
    row.find(", ").map(|comma| row[..comma].rfind(' ').map_or(0, |blank| blank + 1))
}

#[test]
#[cfg_attr(not(guard_library), ignore = "needs the library: tools/library")]
fn forecasts_are_told_whole() {
    let (mut shields, mut losing, mut fractions) = (0, 0, 0);
    for case in 0..cases(1_000) {
        let bytes = generate::sheet(&mut Random::new(seed(), case));
        let Ok(forecast) = reference::forecast(&bytes) else { continue };
        let sheet = Sheet::parse(&bytes).expect("accepted");
        let product = Product::explore(&sheet).expect("accepted");
        let done = guard(&["forecast", "-"], hexadecimal(&bytes).as_bytes());
        assert_eq!((done.status, done.err.as_str()), (0, ""), "case {case}");
        let text = done.text();
        let rows: Vec<String> = text.lines().map(one_blank).collect();
        assert_eq!(rows, expected(&sheet, &product, &forecast), "case {case}");
        assert!(text.lines().all(|row| row == row.trim_end()), "case {case}: blanks at an end");
        let mut begins = text.lines().filter_map(names_begin);
        let first = begins.next();
        assert!(begins.all(|begin| Some(begin) == first), "case {case}:\n{text}");
        shields += usize::from(sheet.mode == Mode::Shield);
        losing += usize::from(forecast.contains(&Prospect::Lost));
        fractions += usize::from(text.contains('.'));
    }
    println!("{shields} shields, {losing} with lost states, {fractions} with fractions");
    assert!(shields > 20 && losing > 20 && fractions > 20, "too few of a sort");
}

/// A shield with lost states, looking two steps ahead: names of the text, points below each other.
#[test]
#[cfg_attr(not(guard_library), ignore = "needs the library: tools/library")]
fn a_card_is_set_in_columns() {
    let text = std::fs::read_to_string(sheet("limit.sheet")).expect("there");
    let text = text.replace("horizon 0", "horizon 2").replace("match 1", "match 6");
    let card = "\
average reward over 2 steps
state  best                          least                         never_open_twice_in_alarm, corrects_sound_only_after_unsound, (never_open_twice_in_alarm)
    0  11.25   ####################   8.25   ###############       closed, free, (closed)
    1  11.25   ####################  11.25   ####################  closed, bound, (closed)
    2  11.25   ####################   9.375  #################     closed, bound, (opened)
    3  lost                                                        opened, bound, (closed)
    4   9.375  #################      9.375  #################     opened, bound, (opened)
    5   9      ################       9      ################      closed, free, (broken)
";
    let done = guard(&["forecast", "-"], text.as_bytes());
    assert_eq!((done.text().as_str(), done.status), (card, 0));
}

/// At horizon 0 nothing is earned, and no bar is drawn.
#[test]
#[cfg_attr(not(guard_library), ignore = "needs the library: tools/library")]
fn nothing_is_earned_at_horizon_0() {
    let done = guard(&["forecast", &sheet("P6-0.sheet")], b"");
    let rows = done.text();
    assert!(rows.starts_with("average reward over 0 steps\n") && !rows.contains('#'), "{rows}");
}
