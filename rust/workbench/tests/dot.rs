//! `guard dot` against the tables: every edge, and nothing else.

mod common;

use std::collections::{BTreeMap, BTreeSet};

use common::{guard, hexadecimal, setting};
use conformance::{cases, generate, seed, Random};
use reference::{Kept, Mode, Product, Role, Sheet};
use workbench::text;

/// An edge: from, to, output, whether it is dashed.
type Edge = (usize, usize, String, bool);

/// The edges of a graph with their conditions, and the labels of its states in order.
fn drawn(graph: &str) -> (BTreeMap<Edge, String>, Vec<String>) {
    let (mut edges, mut labels) = (BTreeMap::new(), Vec::new());
    for line in graph.lines().filter_map(|line| line.strip_prefix("  ")) {
        if line.starts_with("begin") || !line.starts_with(|c: char| c.is_ascii_digit()) {
            continue;
        }
        let (ends, rest) = line.split_once(" [label=\"").expect("a label");
        let (label, style) = rest.split_once('"').expect("a label's end");
        match ends.split_once(" -> ") {
            None => {
                assert_eq!(ends, labels.len().to_string(), "states in order");
                labels.push(label.to_string());
            }
            Some((from, to)) => {
                let (when, output) = label.rsplit_once(": ").expect("inputs and output");
                let ends = (from.parse().expect("a state"), to.parse().expect("a state"));
                let edge = (ends.0, ends.1, output.to_string(), style.contains("dashed"));
                assert_eq!(edges.insert(edge, when.to_string()), None, "an edge twice: {line}");
            }
        }
    }
    (edges, labels)
}

/// The inputs at which a condition of a graph holds, by compiling it.
fn inputs(when: &str, sheet: &Sheet) -> BTreeSet<usize> {
    let lines: Vec<String> = (0..sheet.inputs).map(|line| format!("l{line}")).collect();
    if when == "any" {
        return (0..1 << sheet.inputs).collect();
    }
    // The lines of the proposal come after the site's.
    let mut when = when.to_string();
    for line in 0..sheet.site_lines {
        when = when.replace(&format!("in{line}"), &format!("l{line}"));
    }
    for line in 0..sheet.outputs {
        when = when.replace(&format!("out{line}?"), &format!("l{}", sheet.site_lines + line));
    }
    let text = format!(
        "mode controller\nin {}\nout o\nhorizon 0\nprefer o\nhard h\nstate s start\n{when} -> t\n\
         else -> s\nstate t\nelse -> t\n",
        lines.join(", ")
    );
    let (named, _) = text::compile(&text).unwrap_or_else(|faults| panic!("{faults:?} in {when}"));
    let row = &named.sheet.monitors[0].next[..1 << sheet.inputs];
    row.iter().enumerate().filter(|(_, &next)| next == 1).map(|(input, _)| input).collect()
}

/// The rows of a guard table: for each input output and next state, which has a byte in rows of kind 17
/// and two in rows of kind 20.
fn rows(sheet: &Sheet, table: &[u8]) -> Vec<Vec<(u8, usize)>> {
    let bytes = if table[12] == 20 { 3 } else { 2 };
    let entry = |entry: &[u8]| {
        let high = entry.get(2).map_or(0, |&high| usize::from(high));
        (entry[0], usize::from(entry[1]) + 256 * high)
    };
    let rows = table[10..].chunks_exact(4 + (bytes << sheet.inputs));
    rows.map(|row| row[4..].chunks_exact(bytes).map(entry).collect()).collect()
}

/// What must be drawn, by the reference: the guard's edges.
fn guard_edges(sheet: &Sheet, table: &[u8]) -> BTreeMap<Edge, BTreeSet<usize>> {
    let mut edges: BTreeMap<Edge, BTreeSet<usize>> = BTreeMap::new();
    for (state, row) in rows(sheet, table).into_iter().enumerate() {
        for (input, (output, next)) in row.into_iter().enumerate() {
            let edge = (state, next, setting("out", sheet.outputs, output), false);
            edges.entry(edge).or_default().insert(input);
        }
    }
    edges
}

/// And the supervisor's.
fn supervisor_edges(
    sheet: &Sheet,
    product: &Product,
    kept: &Kept,
) -> BTreeMap<Edge, BTreeSet<usize>> {
    let mut edges: BTreeMap<Edge, BTreeSet<usize>> = BTreeMap::new();
    for state in 0..product.count() {
        for input in 0..product.input_count() {
            for output in 0..product.output_count() {
                let Some(next) = product.edge(state, input, output).next() else { continue };
                let dashed = kept.allowed(product, state, input, output).is_none();
                let edge = (state, next, setting("out", sheet.outputs, output as u8), dashed);
                edges.entry(edge).or_default().insert(input);
            }
        }
    }
    edges
}

/// The label of a state that stands for a product state.
fn label(number: usize, sheet: &Sheet, product: &Product, state: usize, lost: bool) -> String {
    let count = sheet.monitors.len();
    let copies = sheet.monitors.iter().filter(|monitor| monitor.role == Role::Hard).count();
    let copies = if sheet.mode == Mode::Shield { copies } else { 0 };
    let places = product.tuple(state)[..count + copies].iter().enumerate();
    let names = places.map(|(place, state)| match place < count {
        true => format!("\\ns{state}"),
        false => format!("\\n(s{state})"),
    });
    let lost = if lost { "\\nlost" } else { "" };
    format!("{number}{}{lost}", names.collect::<String>())
}

/// The labels of a guard: its states are met again by following its table in the product.
fn guard_labels(sheet: &Sheet, product: &Product, table: &[u8]) -> Vec<String> {
    let rows = rows(sheet, table);
    let mut places = vec![None; rows.len()];
    places[0] = Some(0);
    for (state, row) in rows.into_iter().enumerate() {
        for (input, (output, next)) in row.into_iter().enumerate() {
            let from = places[state].expect("states are numbered as first met");
            let to = product.edge(from, input, output.into()).next();
            places[next] = places[next].or(to);
        }
    }
    let label = |(state, place): (usize, &Option<usize>)| {
        label(state, sheet, product, place.unwrap(), false)
    };
    places.iter().enumerate().map(label).collect()
}

#[test]
#[cfg_attr(not(guard_library), ignore = "needs the library: tools/library")]
fn graphs_have_the_tables_edges() {
    let (mut shields, mut losing) = (0, 0);
    for case in 0..cases(150) {
        let mut random = Random::new(seed(), case);
        let bytes = generate::sheet(&mut random);
        let Ok(table) = reference::guard_table(&bytes) else { continue };
        let sheet = Sheet::parse(&bytes).expect("accepted");
        let product = Product::explore(&sheet).expect("accepted");
        let kept = Kept::by_rounds(&product);
        let text = hexadecimal(&bytes);
        let told = |state| label(state, &sheet, &product, state, !kept.is_kept(state));
        let labels: Vec<String> = (0..product.count()).map(told).collect();
        losing += usize::from(labels.iter().any(|label| label.ends_with("lost")));
        for (words, expected, labels) in [
            (vec!["dot", "-"], guard_edges(&sheet, &table), guard_labels(&sheet, &product, &table)),
            (vec!["dot", "--supervisor", "-"], supervisor_edges(&sheet, &product, &kept), labels),
        ] {
            let done = guard(&words, text.as_bytes());
            assert_eq!((done.status, done.err.as_str()), (0, ""), "case {case}");
            let (edges, found_labels) = drawn(&done.text());
            let found: BTreeMap<Edge, BTreeSet<usize>> =
                edges.into_iter().map(|(edge, when)| (edge, inputs(&when, &sheet))).collect();
            assert_eq!(found, expected, "case {case}");
            assert_eq!(found_labels, labels, "case {case}");
        }
        shields += usize::from(sheet.mode == Mode::Shield);
    }
    assert!(shields > 5 && losing > 5, "{shields} shields, {losing} with lost states");
}

/// The elements of a kind in a picture, each as its attribute `data-of` and its text.
fn elements<'a>(picture: &'a str, kind: &str) -> Vec<(&'a str, &'a str)> {
    let elements = picture.split(kind).skip(1);
    let read = elements.map(|element| {
        let of = element.split("data-of=\"").nth(1).and_then(|rest| rest.split('"').next());
        let text = element.split('>').nth(1).and_then(|rest| rest.split('<').next());
        (of.unwrap_or(""), text.unwrap_or(""))
    });
    read.collect()
}

/// README's picture of sheet A's guard is its graph: an arrow for each edge, with its label, and for
/// each state its name.
#[test]
#[cfg_attr(not(guard_library), ignore = "needs the library: tools/library")]
fn the_picture_of_sheet_a_is_its_graph() {
    let graph = guard(&["dot", &common::sheet("A.sheet")], b"").text();
    let picture =
        std::fs::read_to_string(common::repository("docs/pictures/A.svg")).expect("there");
    // An arrow's sign cannot stand in the picture's attributes.
    let graph = graph.replace(" -> ", " to ");
    let mut labels: Vec<(&str, &str)> = Vec::new();
    for line in graph.lines().filter(|line| line.contains("label=")) {
        let (of, rest) = line.trim().split_once(" [label=\"").expect("a label");
        let label = rest.split('"').next().expect("a label");
        labels.extend(label.split("\\n").map(|text| (of, text)));
    }
    let mut texts = elements(&picture, "<text ");
    labels.sort_unstable();
    texts.sort_unstable();
    assert_eq!(texts, labels);
    let mut arrows: Vec<&str> = elements(&picture, "<path ").iter().map(|arrow| arrow.0).collect();
    let edges = labels.iter().map(|label| label.0).filter(|of| of.contains(" to "));
    let mut edges: Vec<&str> = edges.collect();
    arrows.sort_unstable();
    edges.sort_unstable();
    assert_eq!(arrows, edges);
}
