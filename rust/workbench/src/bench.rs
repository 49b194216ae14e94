//! What a command works with, and how it ends.

use std::fmt;
use std::io::{self, BufRead, Write};

/// The streams of a command. Answers go to `out`, words about the work to `err`.
pub struct Bench<'a> {
    pub input: &'a mut dyn BufRead,
    pub out: &'a mut dyn Write,
    pub err: &'a mut dyn Write,
    /// Whether a person sits at input and output.
    pub terminal: bool,
}

impl Bench<'_> {
    /// A word about the work, after the answers so far. Where even that cannot be written there is
    /// nobody to tell; what becomes of the answers is seen at the end.
    pub fn say(&mut self, what: impl fmt::Display) {
        self.tell(format_args!("guard: {what}\n"));
    }

    /// The same without the program's name.
    pub fn tell(&mut self, what: impl fmt::Display) {
        let _ = self.out.flush();
        let _ = write!(self.err, "{what}");
    }

    /// The library and the reference do not agree: what only the reference knows is not told.
    pub fn differs(&mut self) -> Stop {
        self.say("the reference, which tells places and names, differs from the library here");
        Stop::Differs
    }
}

/// Why a command did not do what it was asked.
#[derive(Debug)]
pub enum Stop {
    /// The sheet, the table or a step is refused or faulty; that has been said.
    Refused,
    /// Wrong use.
    Use(String),
    /// A file cannot be read or written.
    File(String),
    /// The reference, which tells places and names, differs from the library; that has been said.
    Differs,
    /// Nobody reads the answers any more.
    Unheard,
}

impl Stop {
    /// The exit status.
    pub fn status(&self) -> u8 {
        match self {
            Stop::Refused => 1,
            Stop::Use(_) => 2,
            Stop::File(_) | Stop::Differs | Stop::Unheard => 3,
        }
    }
}

impl From<io::Error> for Stop {
    /// For standard output; files are named where they are opened.
    fn from(error: io::Error) -> Stop {
        match error.kind() {
            io::ErrorKind::BrokenPipe => Stop::Unheard,
            _ => Stop::File(format!("standard output: {error}")),
        }
    }
}

/// What a command comes to.
pub type Outcome = Result<(), Stop>;
