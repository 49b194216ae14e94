//! Conditions for sets of letters, as short as is easily found.

use super::condition::{all_letters, letters_with, Letters};
use crate::names::literal;

/// Some lines, and how they stand: bit j of both for line j.
#[derive(Clone, Copy)]
struct Term {
    lines: usize,
    on: usize,
    letters: Letters,
}

/// Every term over so many lines, those of fewer lines first.
fn terms(lines: usize) -> Vec<Term> {
    let mut terms = vec![Term { lines: 0, on: 0, letters: all_letters(lines) }];
    for line in 0..lines {
        let with = letters_with(line, lines);
        for known in 0..terms.len() {
            let Term { lines, on, letters } = terms[known];
            let lines = lines | 1 << line;
            terms.push(Term { lines, on: on | 1 << line, letters: letters & with });
            terms.push(Term { lines, on, letters: letters & !with });
        }
    }
    terms.sort_by_key(|term| (term.lines.count_ones(), term.lines, !term.on));
    terms
}

/// A condition that holds for exactly these letters, which are some: terms that lie in the set, each
/// time one that covers the most of what is left.
pub fn condition(set: Letters, names: &[String]) -> String {
    let terms: Vec<Term> =
        terms(names.len()).into_iter().filter(|term| term.letters & !set == 0).collect();
    let mut left = set;
    let mut chosen: Vec<Term> = Vec::new();
    while left != 0 {
        let covers = |term: &&Term| (term.letters & left).count_ones();
        // Of several the first: `max_by_key` gives the last.
        let Some(best) = terms.iter().rev().max_by_key(covers) else { break };
        left &= !best.letters;
        chosen.push(*best);
    }
    let written: Vec<String> = chosen.iter().map(|term| write(term, names)).collect();
    written.join(" | ")
}

fn write(term: &Term, names: &[String]) -> String {
    let reads = names.iter().enumerate().filter(|(line, _)| term.lines >> line & 1 == 1);
    let stands = |(line, name): (usize, &String)| literal(name, term.on >> line & 1 == 1);
    reads.map(stands).collect::<Vec<_>>().join(" & ")
}
