//! A file of a sheet or a table: read, and taken for what its content says.

use std::ffi::OsStr;
use std::fs::File;
use std::io::Read;

use guard::sheet::{self, Literal, Monitor, Role};
use guard::Guard;

use crate::bench::{Bench, Stop};
use crate::hexadecimal;
use crate::names::Names;
use crate::place::Fault;
use crate::text::words::{uncommented, STATEMENTS};
use crate::text::{self, Named};

/// The most that is read of a file.
const BYTES_MOST: u64 = 1 << 24;
/// How many faults of a text are told.
const FAULTS_MOST: usize = 1_000;

/// What a file is taken for.
#[derive(Clone, Copy, Debug, PartialEq, Eq)]
pub enum Taken {
    TextSheet,
    Hexadecimal,
    Bytes,
}

impl Taken {
    /// An empty file is the empty sheet. Any control character but tabs and line ends makes a file
    /// bytes. A text with a word that a statement begins with is a text sheet, any other hexadecimal.
    pub fn of(content: &[u8]) -> Taken {
        match content.is_empty() || content.iter().any(is_control) {
            true => Taken::Bytes,
            false if has_statement(content) => Taken::TextSheet,
            false => Taken::Hexadecimal,
        }
    }

    /// What content is taken for, and why.
    fn reason(self, content: &[u8]) -> String {
        let Some(at) = content.iter().position(is_control) else {
            let reason = match self {
                Taken::TextSheet => "a text sheet, since a statement's first word is in it",
                Taken::Hexadecimal => "hexadecimal text, since no word of a text sheet is in it",
                Taken::Bytes => "the empty sheet, since it is empty",
            };
            return format!("taken for {reason}");
        };
        let otherwise = match content {
            [0xFF, 0xFE, ..] | [0xFE, 0xFF, ..] => "; if it is text in UTF-16, save it in UTF-8",
            _ if has_statement(content) => "; but for that it might be a text sheet",
            _ => "",
        };
        format!("taken for bytes, since its byte {at} is a control character{otherwise}")
    }
}

fn is_control(byte: &u8) -> bool {
    *byte < 32 && !b"\t\n\r".contains(byte) || *byte == 127
}

/// Whether a word of the text, comments aside, is one that a statement begins with.
fn has_statement(content: &[u8]) -> bool {
    let content = String::from_utf8_lossy(content);
    let words = |line| uncommented(line).split(|c: char| !c.is_ascii_alphanumeric() && c != '_');
    content.lines().flat_map(words).any(|word| STATEMENTS.contains(&word))
}

/// A file's bytes.
#[derive(Clone, Debug, PartialEq, Eq)]
pub struct Source {
    /// The file as messages name it.
    pub file: String,
    pub taken: Taken,
    pub bytes: Vec<u8>,
    /// The sheet of a text, with the names that it gives.
    text: Option<Named>,
    /// What the file was taken for, and why.
    reason: String,
}

impl Source {
    /// Reads a file, `-` being standard input. The faults of a text are all said.
    pub fn read(file: &OsStr, bench: &mut Bench) -> Result<Source, Stop> {
        let name = match file.to_str() {
            Some("-") => "standard input".to_string(),
            _ => file.to_string_lossy().into_owned(),
        };
        let content = read_content(file, &name, bench)?;
        let taken = Taken::of(&content);
        let reason = taken.reason(&content);
        let mut source = Source { file: name, taken, bytes: Vec::new(), text: None, reason };
        let text = String::from_utf8_lossy(&content);
        let faults = match taken {
            Taken::Bytes => {
                source.bytes = content;
                return Ok(source);
            }
            Taken::TextSheet => match text::compile(&text) {
                Ok((named, warnings)) => {
                    source.tell(&warnings, &text, bench);
                    source.bytes = named.sheet.to_bytes();
                    source.text = Some(named);
                    return Ok(source);
                }
                Err(faults) => faults,
            },
            Taken::Hexadecimal => match hexadecimal::bytes(&text) {
                Ok(bytes) => {
                    source.bytes = bytes;
                    return Ok(source);
                }
                Err(fault) => vec![fault],
            },
        };
        Err(source.refuse(&faults, &text, bench))
    }

    /// Bytes that are in no file.
    pub fn of_bytes(file: &str, bytes: Vec<u8>) -> Source {
        let reason = Taken::Bytes.reason(&bytes);
        Source { file: file.to_string(), taken: Taken::Bytes, bytes, text: None, reason }
    }

    /// Says faults or warnings, each with its line; of very many the first.
    fn tell(&self, faults: &[Fault], text: &str, bench: &mut Bench) {
        let lines: Vec<&str> = text.lines().collect();
        for fault in faults.iter().take(FAULTS_MOST) {
            let line = lines.get(fault.place.line - 1).copied().unwrap_or("");
            bench.tell(fault.on_line(&self.file, line));
        }
        if let Some(more) = faults.len().checked_sub(FAULTS_MOST + 1) {
            bench.say(format!("{}: {} more", self.file, more + 1));
        }
    }

    fn refuse(&self, faults: &[Fault], text: &str, bench: &mut Bench) -> Stop {
        self.tell(faults, text, bench);
        let errors = if faults.len() == 1 { "error" } else { "errors" };
        bench.say(format!("{}: {} {errors}; {}", self.file, faults.len(), self.reason));
        Stop::Refused
    }

    /// What the file was taken for, and why.
    pub fn reason(&self) -> &str {
        &self.reason
    }

    /// Of what the bytes begin as a table.
    pub fn table_kind(&self) -> Option<&'static str> {
        match self.bytes.get(2..4) {
            Some([16, 0]) => Some("guard"),
            Some([19, 0]) => Some("supervisor"),
            _ => None,
        }
    }

    /// Whether the bytes begin as a guard table does.
    pub fn is_table(&self) -> bool {
        self.table_kind() == Some("guard")
    }

    /// The sheet with its names, made up where it has none; nothing if the reference does not read
    /// these very bytes.
    pub fn named(&self) -> Option<Named> {
        if self.text.is_some() {
            return self.text.clone();
        }
        let sheet = parts(&reference::Sheet::parse(&self.bytes).ok()?);
        let names = Names::made_up(&sheet);
        (sheet.to_bytes() == self.bytes).then_some(Named { sheet, names })
    }

    /// The names for a guard made from this or stored in it.
    pub fn names_for(&self, guard: &Guard) -> Names {
        let site = guard.inputs() - if guard.is_shield() { guard.outputs() } else { 0 };
        let named = if self.is_table() { None } else { self.named() };
        named.map_or_else(|| Names::of_lines(site, guard.outputs()), |named| named.names)
    }
}

fn read_content(file: &OsStr, name: &str, bench: &mut Bench) -> Result<Vec<u8>, Stop> {
    let mut content = Vec::new();
    let read = match file == "-" {
        true => Read::take(&mut *bench.input, BYTES_MOST + 1).read_to_end(&mut content),
        false => {
            File::open(file).and_then(|file| file.take(BYTES_MOST + 1).read_to_end(&mut content))
        }
    };
    read.map_err(|error| Stop::File(format!("{name}: {error}")))?;
    match content.len() as u64 > BYTES_MOST {
        true => Err(Stop::File(format!("{name}: more than {BYTES_MOST} bytes"))),
        false => Ok(content),
    }
}

/// The parts of a sheet that the reference has read.
fn parts(read: &reference::Sheet) -> sheet::Sheet {
    let new = match read.mode {
        reference::Mode::Controller => sheet::Sheet::controller,
        reference::Mode::Shield => sheet::Sheet::shield,
    };
    let prefer = read.literals.iter().map(|literal| Literal { line: literal.line, on: literal.on });
    let mut sheet = new(read.site_lines, read.outputs)
        .horizon(read.horizon)
        .match_weight(read.match_weight)
        .prefer(prefer.collect::<Vec<_>>());
    sheet.monitors = read.monitors.iter().map(monitor_parts).collect();
    sheet
}

fn monitor_parts(read: &reference::Monitor) -> Monitor {
    let states = 0..read.states() as u8;
    Monitor {
        role: match read.role {
            reference::Role::Hard => Role::Hard,
            reference::Role::Soft => Role::Soft,
            reference::Role::Limit => Role::Limit,
        },
        weight: read.weight,
        start: read.start,
        accepts: states.clone().map(|state| read.accepts(state)).collect(),
        next: states.flat_map(|state| read.row(state).to_vec()).collect(),
    }
}
