//! Commands run within the test, with their streams caught.

#![allow(dead_code)]

use std::collections::BTreeSet;
use std::ffi::OsString;
use std::path::PathBuf;

use conformance::monitors::broken;
use conformance::Random;
use reference::{Force, Mode, Product, Role, Sheet};
use workbench::bench::{Bench, Stop};
use workbench::commands;

/// What a command came to.
#[derive(Clone, Debug, PartialEq, Eq)]
pub struct Done {
    pub status: u8,
    pub out: Vec<u8>,
    pub err: String,
}

impl Done {
    /// Standard output as text.
    pub fn text(&self) -> String {
        String::from_utf8(self.out.clone()).expect("text on standard output")
    }
}

/// Runs a command as `main` does.
pub fn guard(words: &[&str], input: &[u8]) -> Done {
    let words: Vec<OsString> = words.iter().map(OsString::from).collect();
    let (mut out, mut err) = (Vec::new(), Vec::new());
    let mut input = input;
    let mut bench = Bench { input: &mut input, out: &mut out, err: &mut err, terminal: false };
    let status = match commands::dispatch(&words, &mut bench) {
        Ok(()) => 0,
        Err(stop) => {
            if let Stop::Use(what) | Stop::File(what) = &stop {
                bench.say(what);
            }
            stop.status()
        }
    };
    Done { status, out, err: String::from_utf8(err).expect("text on standard error") }
}

/// A folder of the repository.
pub fn repository(folder: &str) -> PathBuf {
    PathBuf::from(env!("CARGO_MANIFEST_DIR")).join("../..").join(folder)
}

/// The files of a folder with this ending, in order.
pub fn files(folder: PathBuf, ending: &str) -> Vec<PathBuf> {
    let entries = std::fs::read_dir(&folder).expect("the folder is there");
    let mut files: Vec<PathBuf> = entries
        .map(|entry| entry.expect("an entry").path())
        .filter(|path| path.extension().is_some_and(|found| found == ending))
        .collect();
    files.sort();
    files
}

/// A folder for a test's own files, which goes with it.
pub struct Folder(pub PathBuf);

impl Folder {
    pub fn new(name: &str) -> Folder {
        let folder = std::env::temp_dir().join(format!("guard-{name}-{}", std::process::id()));
        std::fs::create_dir_all(&folder).expect("a folder for the test");
        Folder(folder)
    }

    /// A file in it, as a word of a command.
    pub fn file(&self, name: &str) -> String {
        self.0.join(name).to_str().expect("a name in letters").to_string()
    }
}

impl Drop for Folder {
    fn drop(&mut self) {
        let _ = std::fs::remove_dir_all(&self.0);
    }
}

/// A sheet of the repository, as a word of a command.
pub fn sheet(name: &str) -> String {
    repository("sheets").join(name).to_str().expect("a name in letters").to_string()
}

/// How lines with made-up names stand, bit j for line j: `in0 !in1`.
pub fn setting(word: &str, lines: u8, bits: u8) -> String {
    let stands = |line: u8| match bits >> line & 1 {
        1 => format!("{word}{line}"),
        _ => format!("!{word}{line}"),
    };
    (0..lines).map(stands).collect::<Vec<_>>().join(" ")
}

/// A guard's input by made-up names.
pub fn input_name(sheet: &Sheet, input: u8) -> String {
    let site = setting("in", sheet.site_lines, input);
    let proposal = setting("out", sheet.outputs, input >> sheet.site_lines);
    match (sheet.mode, sheet.site_lines) {
        (Mode::Controller, 0) => "any".to_string(),
        (Mode::Controller, _) => site,
        (Mode::Shield, 0) => format!("/ {proposal}"),
        (Mode::Shield, _) => format!("{site} / {proposal}"),
    }
}

/// A monitor by its made-up name.
pub fn monitor_name(sheet: &Sheet, monitor: usize) -> String {
    match sheet.monitors[monitor].role {
        Role::Hard => format!("hard{monitor}"),
        Role::Soft => format!("soft{monitor}"),
        Role::Limit => format!("limit{monitor}"),
    }
}

/// The monitors of a product state by made-up names, then the copies.
pub fn monitors(sheet: &Sheet, tuple: &[u8]) -> String {
    let count = sheet.monitors.len();
    let place = |(j, state): (usize, &u8)| format!("{} s{state}", monitor_name(sheet, j));
    let own: Vec<String> = (0..count).zip(tuple).map(place).collect();
    let hard = (0..count).filter(|&j| sheet.monitors[j].role == Role::Hard);
    let copies: Vec<String> = hard.zip(&tuple[count..]).map(place).collect();
    match (own.is_empty(), sheet.mode == Mode::Shield && !copies.is_empty()) {
        (true, _) => String::new(),
        (_, false) => format!(": {}", own.join(", ")),
        (_, true) => format!(": {}; proposal {}", own.join(", "), copies.join(", ")),
    }
}

/// The reference's play of a sheet that is lost.
pub struct Play {
    pub sheet: Sheet,
    pub product: Product,
    pub forces: Vec<Option<Force>>,
}

impl Play {
    pub fn of(bytes: &[u8]) -> Play {
        let sheet = Sheet::parse(bytes).expect("in bounds");
        let product = Product::explore(&sheet).expect("few states");
        Play { sheet, product, forces: reference::forced(bytes).expect("lost") }
    }

    /// How a state that the play comes to is forced.
    pub fn force(&self, state: usize) -> Force {
        self.forces[state].expect("the play comes to no kept state")
    }

    /// The states after each output to the input that is given in a state; where the step is broken, the
    /// first monitor that breaks.
    pub fn answers(&self, state: usize) -> Vec<Result<usize, usize>> {
        let (input, tuple) = (self.force(state).input, self.product.tuple(state));
        let answer = |output: usize| match self.product.edge(state, input.into(), output).next() {
            Some(next) => Ok(next),
            None => Err(broken(&self.sheet, tuple, input, output as u8)[0]),
        };
        (0..self.product.output_count()).map(answer).collect()
    }

    /// The states that the play comes to, as first met.
    pub fn reached(&self) -> Vec<usize> {
        let mut found = vec![0];
        for place in 0.. {
            let Some(&state) = found.get(place) else { break };
            for next in self.answers(state).into_iter().flatten() {
                if !found.contains(&next) {
                    found.push(next);
                }
            }
        }
        found
    }

    /// What the play comes to, in a line.
    pub fn summary(&self) -> String {
        let answers = self.reached().into_iter().flat_map(|state| self.answers(state));
        let broken: BTreeSet<usize> = answers.filter_map(Result::err).collect();
        let mut names: Vec<String> = broken.iter().map(|&j| monitor_name(&self.sheet, j)).collect();
        let last = names.pop().expect("something is broken in the end");
        let names = match names.len() {
            0 => last,
            _ => format!("{} or {last}", names.join(", ")),
        };
        format!("a break of {names} is forced in {}", steps(self.force(0).steps))
    }
}

/// So many steps.
pub fn steps(count: u16) -> String {
    match count {
        1 => "1 step".to_string(),
        _ => format!("{count} steps"),
    }
}

/// Bytes as hexadecimal text.
pub fn hexadecimal(bytes: &[u8]) -> String {
    bytes.iter().map(|byte| format!("{byte:02x} ")).collect()
}

/// One of several texts.
pub fn pick<'a>(random: &mut Random, of: &[&'a str]) -> &'a str {
    of[random.below(of.len())]
}
