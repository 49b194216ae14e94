//! Sheets by their parts, and the bytes that they are written as.
//!
//! Nothing is judged here: what is out of bounds is written as it stands, or as the largest number
//! that its field holds, and the makers refuse it.

const HEAD: u16 = 1;
const MONITOR: u16 = 2;
/// The letters of a limit: 1 if the proposal is sound, plus 2 if output and proposal differ.
const LIMIT_LETTERS: usize = 4;

/// A record of any kind: the length of its body and the kind, two bytes each, then the body.
pub fn record(kind: u16, body: &[u8]) -> Vec<u8> {
    let mut bytes = Vec::with_capacity(4 + body.len());
    bytes.extend(u16::try_from(body.len()).unwrap_or(u16::MAX).to_le_bytes());
    bytes.extend(kind.to_le_bytes());
    bytes.extend(body);
    bytes
}

/// Whether the guard decides alone or corrects a proposal.
#[derive(Clone, Copy, Debug, PartialEq, Eq, Hash)]
pub enum Mode {
    /// Decides alone.
    Controller = 0,
    /// Reads a proposal, and corrects it where it has to.
    Shield = 1,
}

/// What a monitor is for.
#[derive(Clone, Copy, Debug, PartialEq, Eq, Hash)]
pub enum Role {
    /// Must accept after every step.
    Hard = 0,
    /// Earns its weight by every step after which it accepts.
    Soft = 1,
    /// Of a shield: must accept after every step, and reads whether the proposal is sound and
    /// whether the output differs from it.
    Limit = 2,
}

/// A preference for one output line.
#[derive(Clone, Copy, Debug, PartialEq, Eq, Hash)]
pub struct Literal {
    /// The line.
    pub line: u8,
    /// Whether on is preferred.
    pub on: bool,
}

impl Literal {
    /// The line's number if on is preferred, 8 more if off is; no such byte is a line's that there
    /// cannot be.
    fn byte(self) -> u8 {
        match (self.line, self.on) {
            (0..=7, true) => self.line,
            (0..=7, false) => self.line + 8,
            _ => u8::MAX,
        }
    }
}

/// A monitor automaton.
#[derive(Clone, Debug, PartialEq, Eq, Hash)]
pub struct Monitor {
    /// What it is for.
    pub role: Role,
    /// What it earns: 1 to 255 for a soft one, else 0.
    pub weight: u8,
    /// The state that a run begins in.
    pub start: u8,
    /// For each state whether it accepts.
    pub accepts: Vec<bool>,
    /// For each state, letters ascending, the state after the letter.
    pub next: Vec<u8>,
}

impl Monitor {
    /// The most states.
    pub const STATES_MOST: usize = 32;

    /// The monitor's record.
    pub fn record(&self) -> Vec<u8> {
        let states = u8::try_from(self.accepts.len()).unwrap_or(u8::MAX);
        let mut body = vec![self.role as u8, self.weight, states, self.start];
        body.extend(self.accepts.iter().map(|&accepts| u8::from(accepts)));
        body.extend(&self.next);
        record(MONITOR, &body)
    }
}

/// A sheet by its parts: a head, then monitors.
///
/// ```
/// use guard::sheet::Sheet;
///
/// // One line each way; never on twice running; 3 for each step with the output as the input.
/// let sheet = Sheet::controller(1, 1)
///     .horizon(1)
///     .hard(3, |state| state < 2, |state, letter| match letter >> 1 {
///         1 => (state + 1).min(2),
///         _ => state / 2 * 2,
///     })
///     .soft(3, 2, |state| state == 1, |_, letter| u8::from(letter == 0 || letter == 3));
/// assert_eq!(sheet.to_bytes().len(), 10 + 23 + 18);
/// ```
#[derive(Clone, Debug, PartialEq, Eq, Hash)]
pub struct Sheet {
    /// Controller or shield.
    pub mode: Mode,
    /// The lines in: of a shield the site's alone.
    pub lines_in: u8,
    /// The lines out.
    pub lines_out: u8,
    /// How many further inputs a plan looks ahead.
    pub horizon: u8,
    /// What a shield earns for each output line that is as proposed.
    pub match_weight: u8,
    /// One preference for each output line, the most important first.
    pub prefer: Vec<Literal>,
    /// The monitors in their order.
    pub monitors: Vec<Monitor>,
}

/// The bounds that the makers hold a sheet to, for those who write one.
impl Sheet {
    /// The most lines in.
    pub const LINES_IN_MOST: usize = 4;
    /// The most lines out; there is at least one.
    pub const LINES_OUT_MOST: usize = 3;
    /// The most input lines of the guard.
    pub const INPUTS_MOST: usize = 4;
    /// The most input and output lines of the guard together.
    pub const LINES_MOST: usize = 6;
    /// The longest horizon, and the most that input lines times horizon may be.
    pub const HORIZON_MOST: u8 = 24;
    /// The most monitors.
    pub const MONITORS_MOST: usize = 6;
}

impl Sheet {
    fn new(mode: Mode, lines_in: u8, lines_out: u8) -> Sheet {
        let prefer = (0..lines_out).map(|line| Literal { line, on: true }).collect();
        let monitors = Vec::new();
        Sheet { mode, lines_in, lines_out, horizon: 0, match_weight: 0, prefer, monitors }
    }

    /// A controller without monitors: horizon 0, the output lines preferred on in their order.
    pub fn controller(lines_in: u8, lines_out: u8) -> Sheet {
        Sheet::new(Mode::Controller, lines_in, lines_out)
    }

    /// Such a shield, with match weight 0.
    pub fn shield(site_lines: u8, lines_out: u8) -> Sheet {
        Sheet::new(Mode::Shield, site_lines, lines_out)
    }

    /// With this horizon.
    pub fn horizon(self, horizon: u8) -> Sheet {
        Sheet { horizon, ..self }
    }

    /// With this match weight.
    pub fn match_weight(self, match_weight: u8) -> Sheet {
        Sheet { match_weight, ..self }
    }

    /// With these preferences.
    pub fn prefer(self, prefer: impl Into<Vec<Literal>>) -> Sheet {
        Sheet { prefer: prefer.into(), ..self }
    }

    /// With a hard monitor more; see [`Sheet::monitor`].
    pub fn hard(
        self,
        states: u8,
        accepts: impl Fn(u8) -> bool,
        next: impl Fn(u8, u8) -> u8,
    ) -> Sheet {
        self.monitor(Role::Hard, 0, states, accepts, next)
    }

    /// With a soft monitor more; see [`Sheet::monitor`].
    pub fn soft(
        self,
        weight: u8,
        states: u8,
        accepts: impl Fn(u8) -> bool,
        next: impl Fn(u8, u8) -> u8,
    ) -> Sheet {
        self.monitor(Role::Soft, weight, states, accepts, next)
    }

    /// With a deviation limit more; see [`Sheet::monitor`].
    pub fn limit(
        self,
        states: u8,
        accepts: impl Fn(u8) -> bool,
        next: impl Fn(u8, u8) -> u8,
    ) -> Sheet {
        self.monitor(Role::Limit, 0, states, accepts, next)
    }

    /// With a monitor more that starts in state 0: whether a state accepts, and where a letter
    /// leads from it.
    pub fn monitor(
        mut self,
        role: Role,
        weight: u8,
        states: u8,
        accepts: impl Fn(u8) -> bool,
        next: impl Fn(u8, u8) -> u8,
    ) -> Sheet {
        let letters = self.letters(role);
        let row = |state| (0..letters).map(move |letter| (state, letter as u8));
        self.monitors.push(Monitor {
            role,
            weight,
            start: 0,
            accepts: (0..states).map(accepts).collect(),
            next: (0..states).flat_map(row).map(|(state, letter)| next(state, letter)).collect(),
        });
        self
    }

    /// The guard's input lines: of a shield the site's and the proposal's.
    pub fn inputs(&self) -> u8 {
        match self.mode {
            Mode::Controller => self.lines_in,
            Mode::Shield => self.lines_in.saturating_add(self.lines_out),
        }
    }

    /// How many letters a monitor of the role reads: bit j is line j, lines in first. A letter is a
    /// byte, so there are at most 256.
    pub fn letters(&self, role: Role) -> usize {
        match role {
            Role::Hard | Role::Soft => 1 << self.lines_in.saturating_add(self.lines_out).min(8),
            Role::Limit => LIMIT_LETTERS,
        }
    }

    /// The head's record.
    pub fn head(&self) -> Vec<u8> {
        let mut body =
            vec![self.mode as u8, self.lines_in, self.lines_out, self.horizon, self.match_weight];
        body.extend(self.prefer.iter().map(|literal| literal.byte()));
        record(HEAD, &body)
    }

    /// The sheet's bytes.
    pub fn to_bytes(&self) -> Vec<u8> {
        self.monitors.iter().fold(self.head(), |mut bytes, monitor| {
            bytes.extend(monitor.record());
            bytes
        })
    }
}

#[cfg(test)]
mod tests {
    use super::*;

    /// Sheet A of the notebook, byte by byte.
    #[test]
    fn a_sheet_is_its_records() {
        let sheet = Sheet::controller(1, 1)
            .horizon(1)
            .hard(
                3,
                |state| state < 2,
                |state, letter| match (state, letter >> 1) {
                    (2, _) => 2,
                    (_, 1) => state + 1,
                    _ => 0,
                },
            )
            .soft(3, 2, |state| state == 1, |_, letter| u8::from(letter == 0 || letter == 3));
        let records: [&[u8]; 3] = [
            &[6, 0, 1, 0, 0, 1, 1, 1, 0, 0],
            &[19, 0, 2, 0, 0, 0, 3, 0, 1, 1, 0, 0, 0, 1, 1, 0, 0, 2, 2, 2, 2, 2, 2],
            &[14, 0, 2, 0, 1, 3, 2, 0, 0, 1, 1, 0, 0, 1, 1, 0, 0, 1],
        ];
        assert_eq!(sheet.to_bytes(), records.concat());
    }

    /// A shield's head and limit, with a match weight and preferences.
    #[test]
    fn a_shield_s_fields_are_written() {
        let prefer = [Literal { line: 1, on: false }, Literal { line: 0, on: true }];
        let sheet = Sheet::shield(1, 2).horizon(7).match_weight(9).prefer(prefer);
        assert_eq!(
            (sheet.inputs(), sheet.letters(Role::Hard), sheet.letters(Role::Limit)),
            (3, 8, 4)
        );
        let sheet = sheet.limit(2, |state| state == 0, |_, letter| letter >> 1);
        let records: [&[u8]; 2] = [
            &[7, 0, 1, 0, 1, 1, 2, 7, 9, 9, 0],
            &[14, 0, 2, 0, 2, 0, 2, 0, 1, 0, 0, 0, 1, 1, 0, 0, 1, 1],
        ];
        assert_eq!(sheet.to_bytes(), records.concat());
    }

    /// What does not fit becomes nothing that does.
    #[test]
    fn what_is_out_of_bounds_stays_so() {
        for (line, on) in [(8, true), (8, false), (248, false), (255, true)] {
            let sheet = Sheet::controller(0, 1).prefer([Literal { line, on }]);
            assert_eq!(sheet.head()[9], u8::MAX);
        }
        let many = Monitor {
            role: Role::Hard,
            weight: 0,
            start: 0,
            accepts: vec![true; 256],
            next: vec![0; 70_000],
        };
        assert_eq!(many.record()[..8], [255, 255, 2, 0, 0, 0, 255, 0]);
        let wide = Sheet::shield(255, 255);
        assert_eq!((wide.inputs(), wide.letters(Role::Soft)), (255, 256));
    }
}
