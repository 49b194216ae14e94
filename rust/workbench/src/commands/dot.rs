//! `guard dot`: a picture of a guard or a supervisor.

use std::collections::BTreeMap;

use guard::sheet::Mode;
use guard::{Guard, Supervisor};

use super::Command;
use crate::arguments::{Arguments, SUPERVISOR};
use crate::bench::{Bench, Outcome, Stop};
use crate::making;
use crate::names::Names;
use crate::source::Source;
use crate::states::States;
use crate::text::{condition_for, Letters};

pub const COMMAND: Command = Command {
    name: "dot",
    usage: "FILE [--supervisor]",
    about: "a guard, or the supervisor, as a graph for Graphviz",
    help: "\
A state has its number and, for a sheet, the monitors' states that it stands for in their order, then in
brackets those of the copies that read a shield's proposal. An edge has the
inputs it is taken at, a colon and the output; edges that differ only in the input are one, `any` is
every input, and a line of a shield's proposal is written with a question mark: `tray & open?: !open`.
With --supervisor the product states with every step that breaks nothing: lost states are grey, and
steps that are not allowed dashed. What a state stands for, and where a step of the supervisor ends, is
told by an independent implementation, and only where its supervisor table is the library's.
Draw it by: guard dot FILE | dot -Tsvg -o FILE.svg
",
    files: 1,
    options: &[SUPERVISOR],
    run,
};

/// An edge: from, output, to, and whether it is allowed; then the inputs that take it.
type Edges = BTreeMap<(usize, u8, usize, bool), Letters>;

/// What is drawn.
struct Graph {
    name: &'static str,
    /// For each state what stands below its number, and whether it is lost.
    states: Vec<(Vec<String>, bool)>,
    edges: Edges,
}

fn run(arguments: &Arguments, bench: &mut Bench) -> Outcome {
    let source = Source::read(arguments.file(0), bench)?;
    let (graph, names, mode) = match arguments.has(&SUPERVISOR) {
        true => supervisor_graph(&source, bench)?,
        false => guard_graph(&source, bench)?,
    };
    write_graph(&graph, &names, mode, bench)
}

fn guard_graph(source: &Source, bench: &mut Bench) -> Result<(Graph, Names, Mode), Stop> {
    let guard = making::guard(source, bench)?;
    let mut edges = Edges::new();
    for state in 0..guard.states() {
        for input in 0..1 << guard.inputs() {
            let (output, next) = guard.entry(state, input);
            *edges.entry((state, output, next, true)).or_default() |= 1 << input;
        }
    }
    let labels = match source.is_table() {
        true => vec![Vec::new(); guard.states()],
        false => guard_labels(source, &guard, bench)?,
    };
    let states = labels.into_iter().map(|label| (label, false)).collect();
    Ok((Graph { name: "guard", states, edges }, source.names_for(&guard), guard.mode()))
}

/// The monitors' states that each guard state stands for.
fn guard_labels(
    source: &Source,
    guard: &Guard,
    bench: &mut Bench,
) -> Result<Vec<Vec<String>>, Stop> {
    let supervisor = making::supervisor(source, bench)?;
    let states = States::of(source, &supervisor);
    let places = states.as_ref().and_then(|states| states.of_guard(guard));
    match (states, places) {
        (Some(states), Some(places)) => {
            Ok(places.into_iter().map(|place| states.label(place)).collect())
        }
        _ => Err(bench.differs()),
    }
}

fn supervisor_graph(source: &Source, bench: &mut Bench) -> Result<(Graph, Names, Mode), Stop> {
    let supervisor = making::supervisor(source, bench)?;
    let Some(states) = States::of(source, &supervisor) else {
        return Err(bench.differs());
    };
    let edges = supervisor_edges(&supervisor, &states);
    let drawn = (0..supervisor.states())
        .map(|state| (states.label(state), !supervisor.is_kept(state)))
        .collect();
    let graph = Graph { name: "supervisor", states: drawn, edges };
    Ok((graph, states.named.names.clone(), states.named.sheet.mode))
}

/// Every step that breaks nothing; where it ends is the reference's, whether it is allowed the library's.
fn supervisor_edges(supervisor: &Supervisor, states: &States) -> Edges {
    let mut edges = Edges::new();
    for state in 0..supervisor.states() {
        for input in 0..1u8 << supervisor.inputs() {
            for output in 0..1u8 << supervisor.outputs() {
                let edge = states.product.edge(state, input.into(), output.into());
                let allowed = supervisor.allows(state, input, output);
                if let Some(next) = edge.next() {
                    *edges.entry((state, output, next, allowed)).or_default() |= 1 << input;
                }
            }
        }
    }
    edges
}

fn write_graph(graph: &Graph, names: &Names, mode: Mode, bench: &mut Bench) -> Outcome {
    let mut lines = names.lines_in.clone();
    if mode == Mode::Shield {
        lines.extend(names.lines_out.iter().map(|line| format!("{line}?")));
    }
    let out = &mut bench.out;
    writeln!(out, "digraph {} {{", graph.name)?;
    writeln!(out, "  rankdir=LR;\n  node [shape=circle];\n  begin [shape=point];\n  begin -> 0;")?;
    for (state, (label, lost)) in graph.states.iter().enumerate() {
        let below: String = label.iter().map(|name| format!("\\n{name}")).collect();
        let marked = if *lost { "\\nlost\", style=filled, fillcolor=gray80" } else { "\"" };
        writeln!(out, "  {state} [label=\"{state}{below}{marked}];")?;
    }
    for (&(from, output, to, allowed), &inputs) in &graph.edges {
        let when = condition_for(inputs, &lines).unwrap_or_else(|| "any".to_string());
        let style = if allowed { "" } else { ", style=dashed, color=gray50" };
        let output = names.output(output);
        writeln!(out, "  {from} -> {to} [label=\"{when}: {output}\"{style}];")?;
    }
    writeln!(out, "}}")?;
    Ok(())
}
