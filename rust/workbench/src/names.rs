//! What the lines, monitors and states of a sheet are called.

use guard::sheet::{Literal, Mode, Role, Sheet};

/// A monitor's name and those of its states.
#[derive(Clone, Debug, Default, PartialEq, Eq)]
pub struct MonitorNames {
    pub name: String,
    pub states: Vec<String>,
}

/// The names of a sheet.
#[derive(Clone, Debug, Default, PartialEq, Eq)]
pub struct Names {
    pub lines_in: Vec<String>,
    pub lines_out: Vec<String>,
    pub monitors: Vec<MonitorNames>,
}

/// The name of a role, as a text sheet has it.
pub fn role_word(role: Role) -> &'static str {
    match role {
        Role::Hard => "hard",
        Role::Soft => "soft",
        Role::Limit => "limit",
    }
}

/// The names of what a limit reads: whether the proposal is sound, and whether the output differs.
pub const LIMIT_LINES: [&str; 2] = ["sound", "differ"];

/// Numbered names: `in0`, `in1`, ..
fn numbered(word: &str, count: usize) -> Vec<String> {
    (0..count).map(|number| format!("{word}{number}")).collect()
}

impl Names {
    /// Names for lines that have none.
    pub fn of_lines(lines_in: u8, lines_out: u8) -> Names {
        Names {
            lines_in: numbered("in", lines_in.into()),
            lines_out: numbered("out", lines_out.into()),
            monitors: Vec::new(),
        }
    }

    /// Names for a sheet that has none.
    pub fn made_up(sheet: &Sheet) -> Names {
        let monitors = sheet.monitors.iter().enumerate().map(|(number, monitor)| MonitorNames {
            name: format!("{}{number}", role_word(monitor.role)),
            states: numbered("s", monitor.accepts.len()),
        });
        let monitors = monitors.collect();
        Names { monitors, ..Names::of_lines(sheet.lines_in, sheet.lines_out) }
    }

    /// The lines that a monitor of the role reads, bit j of a letter being line j.
    pub fn read_by(&self, role: Role) -> Vec<String> {
        match role {
            Role::Limit => LIMIT_LINES.map(String::from).to_vec(),
            Role::Hard | Role::Soft => [&self.lines_in[..], &self.lines_out[..]].concat(),
        }
    }

    /// An output by names: `open !heat`.
    pub fn output(&self, output: u8) -> String {
        setting(&self.lines_out, output)
    }

    /// The preferences by names, the most important first: `!heat, open`.
    pub fn preferences(&self, prefer: &[Literal]) -> String {
        let name = |line: u8| &self.lines_out[usize::from(line)];
        let order = prefer.iter().map(|preferred| literal(name(preferred.line), preferred.on));
        order.collect::<Vec<_>>().join(", ")
    }

    /// A guard's input by names: of a shield `tray / open`, site and proposal; `any` where there is
    /// only one.
    pub fn input(&self, mode: Mode, input: u8) -> String {
        let site = setting(&self.lines_in, input);
        match mode {
            Mode::Controller if self.lines_in.is_empty() => "any".to_string(),
            Mode::Controller => site,
            Mode::Shield => {
                let proposal = setting(&self.lines_out, input >> self.lines_in.len());
                [site.as_str(), "/", &proposal].join(" ").trim_start().to_string()
            }
        }
    }
}

/// How the lines stand, bit j for line j: `tray !lid`.
pub fn setting(lines: &[String], bits: u8) -> String {
    let stands = |(bit, name): (usize, &String)| literal(name, bits >> bit & 1 == 1);
    lines.iter().enumerate().map(stands).collect::<Vec<_>>().join(" ")
}

/// A line that is on or off: `tray`, `!tray`.
pub fn literal(name: &str, on: bool) -> String {
    let sign = if on { "" } else { "!" };
    format!("{sign}{name}")
}
