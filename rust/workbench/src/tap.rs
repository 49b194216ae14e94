//! A line of `guard run`: a call of the board.

use guard::sheet::Mode;

use crate::names::Names;
use crate::place::Fault;
use crate::text::line::Line;
use crate::text::words::{self, Kind};
use crate::text::BYTE_ORDER_MARK;

/// A call of the board.
#[derive(Clone, Copy, Debug, PartialEq, Eq)]
pub enum Call {
    Step(u8),
    Load,
    Rewind,
    Unload,
}

/// The call of a line; nothing where it is blank.
pub fn read(line: &str, number: usize, names: &Names, mode: Mode) -> Result<Option<Call>, Fault> {
    let line = line.strip_prefix(BYTE_ORDER_MARK).filter(|_| number == 1).unwrap_or(line);
    let mut faults = Vec::new();
    let words = words::words(line, number, &mut faults);
    if let Some(fault) = faults.into_iter().next() {
        let expected = "an input by its number or by names, rewind, unload or load";
        return Err(Fault::new(fault.place, fault.what, expected));
    }
    let Some(mut line) = Line::new(words) else { return Ok(None) };
    let call = match line.peek().map(|word| (word.kind, word.text.as_str())) {
        Some((_, "load")) => Call::Load,
        Some((_, "rewind")) => Call::Rewind,
        Some((_, "unload")) => Call::Unload,
        Some((Kind::Number, _)) => Call::Step(line.number("the input", 0, 255)?.0),
        _ => Call::Step(read_names(&mut line, names, mode)?),
    };
    if !matches!(call, Call::Step(_)) {
        line.take_if(|_| true);
    }
    line.end()?;
    Ok(Some(call))
}

/// An input by names: lines not named are off.
fn read_names(line: &mut Line, names: &Names, mode: Mode) -> Result<u8, Fault> {
    let site = read_lines(line, &names.lines_in)?;
    if mode == Mode::Controller {
        return Ok(site);
    }
    if !line.take("/") {
        return Err(line.unlike("names of the site's lines, a `/`, and names of the proposal's"));
    }
    Ok(site | read_lines(line, &names.lines_out)? << names.lines_in.len())
}

/// The lines named on, bit j for line j, up to a slash or the end.
fn read_lines(line: &mut Line, lines: &[String]) -> Result<u8, Fault> {
    let (mut on, mut named) = (0, 0);
    while line.peek().is_some_and(|word| !word.is("/")) {
        let off = line.take("!");
        let expected = match lines {
            [] => {
                "the input's number, or of a shield `/` and the names of its proposal".to_string()
            }
            _ => format!("one of {}, or `!` and one", lines.join(", ")),
        };
        let Some(word) = line.peek().filter(|word| word.is_free_name()) else {
            return Err(line.unlike(expected));
        };
        let Some(bit) = lines.iter().position(|line| *line == word.text) else {
            return Err(line.fault(format!("there is no line `{}` here", word.text), expected));
        };
        if named >> bit & 1 == 1 {
            return Err(line.fault("this line is named twice", "each line once"));
        }
        line.take_if(|_| true);
        line.take(",");
        named |= 1 << bit;
        on |= u8::from(!off) << bit;
    }
    Ok(on)
}
