//! Files of expected answers (the format is in `vectors/README.md`).

use std::cmp::Ordering;
use std::fmt;
use std::str::FromStr;

use guard::calls::{CARD_WORDS, LOST};
use reference::Board;

use crate::Subject;

/// The present level: the base is 0, level k knows the change requests N1 to Nk.
pub const LEVEL: u32 = 6;

/// Every kind of line that the present level has, by its letter. The next level raises [`LEVEL`],
/// adds its kinds here, and to [`Subject`] the calls that they compare.
const KINDS: &[(&str, Comparison)] = &[
    ("S", tables),
    ("R", room),
    ("C", forecast),
    ("F", forced),
    (LISTING, listing),
    ("D", load),
    ("B", step),
    ("O", change),
    ("Q", steps),
];

/// The one kind of line that names no level: it is of its file's.
const LISTING: &str = "L";

/// Reads the fields of a line, all of them before the first call, and compares the answers.
type Comparison = fn(&mut Fields, &mut dyn Subject) -> Compared;

/// Nothing, or how the answers differ or why the line cannot be run.
type Compared = Result<(), String>;

/// Result memory beyond the table, and what it is filled with before a call.
const BEYOND: usize = 16;
const FILL: u8 = 0xA5;
/// The most result memory that a line may ask for.
const ROOM_MOST: usize = 1 << 20;

/// How many lines agree, differ, and were passed over.
#[derive(Clone, Copy, Debug, Default, PartialEq, Eq)]
pub struct Tally {
    pub agree: usize,
    pub differ: usize,
    pub passed_over: usize,
}

impl fmt::Display for Tally {
    fn fmt(&self, f: &mut fmt::Formatter<'_>) -> fmt::Result {
        write!(f, "{} agree, {} differ, {} passed over", self.agree, self.differ, self.passed_over)
    }
}

/// What came of a line.
#[derive(Clone, Debug, PartialEq, Eq)]
pub enum Outcome {
    /// The answers are those of the line.
    Agrees,
    /// They are not, or the line is one that cannot be run.
    Differs(String),
    /// The line is of a later level.
    PassedOver,
}

/// Compares every line of the text; `report` is told each that differs, with its number.
pub fn run(text: &str, subject: &mut dyn Subject, report: &mut dyn FnMut(usize, &str)) -> Tally {
    let lines = || text.lines().enumerate().filter(|(_, line)| !line.trim().is_empty());
    // The file's level is the lowest that a line of it names.
    let named = lines().filter_map(|(_, line)| begin(line).ok()?.level);
    let level = named.min().unwrap_or(LEVEL);
    let mut tally = Tally::default();
    for (index, line) in lines() {
        match compare(line, level, subject) {
            Outcome::Agrees => tally.agree += 1,
            Outcome::PassedOver => tally.passed_over += 1,
            Outcome::Differs(how) => {
                tally.differ += 1;
                report(index + 1, &how);
            }
        }
    }
    tally
}

/// Compares one line of a file of the level.
pub fn compare(line: &str, level: u32, subject: &mut dyn Subject) -> Outcome {
    try_compare(line, level, subject).unwrap_or_else(Outcome::Differs)
}

fn try_compare(line: &str, level: u32, subject: &mut dyn Subject) -> Result<Outcome, String> {
    let Begun { letter, level: named, mut fields } = begin(line)?;
    let level = named.unwrap_or(level);
    match level.cmp(&LEVEL) {
        Ordering::Greater => return Ok(Outcome::PassedOver),
        Ordering::Less => return Err(format!("of level {level}, and the present one is {LEVEL}")),
        Ordering::Equal => {}
    }
    let (_, compared) = KINDS
        .iter()
        .find(|(known, _)| *known == letter)
        .ok_or_else(|| format!("level {LEVEL} has no kind of line {letter}"))?;
    compared(&mut fields, subject)?;
    fields.end()?;
    Ok(Outcome::Agrees)
}

/// A line of which letter and level are read.
struct Begun<'a> {
    letter: &'a str,
    /// None where the line names none.
    level: Option<u32>,
    fields: Fields<'a>,
}

fn begin(line: &str) -> Result<Begun<'_>, String> {
    let mut fields = Fields(line);
    let letter = fields.next()?;
    let level = match letter {
        LISTING => None,
        _ => Some(fields.number().map_err(|why| format!("no level after {letter}: {why}"))?),
    };
    Ok(Begun { letter, level, fields })
}

/// The fields of a line that are still to be read.
struct Fields<'a>(&'a str);

impl<'a> Fields<'a> {
    fn next(&mut self) -> Result<&'a str, String> {
        let rest = self.0.trim_start();
        let (field, rest) = rest.split_once(' ').unwrap_or((rest, ""));
        self.0 = rest;
        if field.is_empty() {
            return Err("a field is missing".to_string());
        }
        Ok(field)
    }

    fn number<T: FromStr>(&mut self) -> Result<T, String> {
        number_of(self.next()?)
    }

    fn bytes(&mut self) -> Result<Vec<u8>, String> {
        bytes_of(self.next()?)
    }

    fn board(&mut self) -> Result<Board, String> {
        board_of(self.next()?)
    }

    /// A field of several parts, joined by commas.
    fn list<T>(&mut self, part: impl Fn(&str) -> Result<T, String>) -> Result<Vec<T>, String> {
        match self.next()? {
            "-" => Ok(Vec::new()),
            field => field.split(',').map(part).collect(),
        }
    }

    /// All the fields that are left.
    fn rest(&mut self) -> Vec<&'a str> {
        std::mem::take(&mut self.0).split_whitespace().collect()
    }

    /// All that is left, blanks included, `\n` for a line's end.
    fn text(&mut self) -> String {
        std::mem::take(&mut self.0).replace("\\n", "\n")
    }

    fn end(&self) -> Compared {
        match self.0.trim() {
            "" => Ok(()),
            more => Err(format!("more fields than such a line has: {more}")),
        }
    }
}

fn number_of<T: FromStr>(field: &str) -> Result<T, String> {
    field.parse().map_err(|_| format!("no such number: {field}"))
}

fn bytes_of(field: &str) -> Result<Vec<u8>, String> {
    let digits: Option<Vec<u8>> =
        field.chars().map(|digit| Some(digit.to_digit(16)? as u8)).collect();
    match (field, digits) {
        ("-", _) => Ok(Vec::new()),
        (_, Some(digits)) if digits.len() % 2 == 0 => {
            Ok(digits.chunks_exact(2).map(|pair| pair[0] << 4 | pair[1]).collect())
        }
        _ => Err(format!("no bytes: {field}")),
    }
}

fn board_of(field: &str) -> Result<Board, String> {
    let &[loaded, mode, inputs, outputs, count, place, steps, deviations] =
        field.split(',').collect::<Vec<_>>().as_slice()
    else {
        return Err(format!("no board: {field}"));
    };
    Ok(Board {
        loaded: number_of::<u8>(loaded)? == 1,
        mode: number_of(mode)?,
        inputs: number_of(inputs)?,
        outputs: number_of(outputs)?,
        count: number_of(count)?,
        place: number_of(place)?,
        steps: number_of(steps)?,
        deviations: number_of(deviations)?,
    })
}

/// A step's refusal and output.
fn answer_of(part: &str) -> Result<(u32, u32), String> {
    let (no, output) = part.split_once(':').ok_or_else(|| format!("no answer: {part}"))?;
    Ok((number_of(no)?, number_of(output)?))
}

fn same<T: PartialEq + fmt::Debug>(what: &str, expected: &T, found: &T) -> Compared {
    if expected == found {
        return Ok(());
    }
    Err(format!("{what}: expected {expected:?}, found {found:?}"))
}

/// What a maker must answer: refusal and length, and where it is known the table or play.
struct Making<'a> {
    no: u32,
    length: u64,
    table: Option<&'a [u8]>,
}

impl<'a> Making<'a> {
    fn of(no: u32, table: &'a [u8]) -> Making<'a> {
        Making { no, length: table.len() as u64, table: Some(table) }
    }

    /// Makes a table in memory of `room` bytes, which must have it at the start and else be as it
    /// was.
    fn compare(
        &self,
        what: &str,
        room: usize,
        maker: &mut dyn FnMut(&mut [u8]) -> (u32, u64),
    ) -> Compared {
        if room > ROOM_MOST {
            return Err(format!("more result memory than is tried: {room}"));
        }
        let mut result = vec![FILL; room];
        same(what, &(self.no, self.length), &maker(&mut result))?;
        let written = if self.no == 0 { self.length as usize } else { 0 };
        let (made, beyond) = result
            .split_at_checked(written)
            .ok_or_else(|| format!("{what}: a table of {written} bytes in {room}"))?;
        let table = self.table.unwrap_or(made);
        for (at, (expected, found)) in table.iter().zip(made).enumerate() {
            same(&format!("{what}: byte {at}"), expected, found)?;
        }
        if beyond.iter().any(|&byte| byte != FILL) {
            return Err(format!("{what}: bytes written that are not the table's"));
        }
        Ok(())
    }
}

fn tables(line: &mut Fields, subject: &mut dyn Subject) -> Compared {
    let (sheet, no) = (line.bytes()?, line.number()?);
    let (supervisor, guard) = (line.bytes()?, line.bytes()?);
    let room = reference::GUARD_BYTES_MOST + BEYOND;
    let mut maker = |result: &mut [u8]| subject.make_supervisor(&sheet, result);
    Making::of(no, &supervisor).compare("supervisor", room, &mut maker)?;
    let mut maker = |result: &mut [u8]| subject.make_guard(&sheet, result);
    Making::of(no, &guard).compare("guard", room, &mut maker)
}

fn room(line: &mut Fields, subject: &mut dyn Subject) -> Compared {
    let (sheet, room) = (line.bytes()?, line.number()?);
    let making = Making { no: line.number()?, length: line.number()?, table: None };
    making.compare("guard", room, &mut |result| subject.make_guard(&sheet, result))
}

/// An entry of a card, as a line has it.
fn entry(words: &[u64]) -> String {
    match words {
        [LOST, LOST] => "lost".to_string(),
        _ => format!("{:016x}:{:016x}", words[0], words[1]),
    }
}

fn forecast(line: &mut Fields, subject: &mut dyn Subject) -> Compared {
    let (sheet, no, count): (_, _, u64) = (line.bytes()?, line.number()?, line.number()?);
    let entries = line.rest();
    same("count and entries", &count, &(entries.len() as u64))?;
    let mut card = [FILL.into(); CARD_WORDS];
    same("number", &no, &subject.forecast(&sheet, &mut card))?;
    same("count", &count, &card[0])?;
    for (state, words) in card[1..].chunks_exact(2).enumerate() {
        let expected = entries.get(state).copied().unwrap_or("lost");
        same(&format!("state {state}"), &expected, &entry(words).as_str())?;
    }
    Ok(())
}

fn forced(line: &mut Fields, subject: &mut dyn Subject) -> Compared {
    let (sheet, room) = (line.bytes()?, line.number()?);
    let (no, play) = (line.number()?, line.bytes()?);
    let mut maker = |result: &mut [u8]| subject.forced(&sheet, result);
    Making::of(no, &play).compare("forced", room, &mut maker)
}

fn listing(line: &mut Fields, subject: &mut dyn Subject) -> Compared {
    let (sheet, text) = (line.bytes()?, line.text());
    same("listing", &text, &subject.list(&sheet))
}

fn load(line: &mut Fields, subject: &mut dyn Subject) -> Compared {
    let (table, no): (_, u32) = (line.bytes()?, line.number()?);
    let after = match (no, table.as_slice()) {
        (0, &[_, _, _, _, mode, inputs, outputs, _, low, high, ..]) => Board {
            loaded: true,
            mode,
            inputs,
            outputs,
            count: u16::from_le_bytes([low, high]),
            ..Board::default()
        },
        _ => Board::default(),
    };
    let mut board = Board::default();
    same("number", &no, &subject.load(&mut board, &table))?;
    same("board", &after, &board)
}

fn step(line: &mut Fields, subject: &mut dyn Subject) -> Compared {
    let (mut board, table, input) = (line.board()?, line.bytes()?, line.number()?);
    let (no, after, output) = (line.number()?, line.board()?, line.number()?);
    same("number and output", &(no, output), &subject.step(&mut board, &table, input))?;
    same("board", &after, &board)
}

fn change(line: &mut Fields, subject: &mut dyn Subject) -> Compared {
    let (mut board, call, _name) = (line.board()?, line.next()?, line.next()?);
    let (no, after) = (line.number()?, line.board()?);
    let number = match call {
        "rewind" => subject.rewind(&mut board),
        "unload" => subject.unload(&mut board),
        _ => return Err(format!("level {LEVEL} has no call {call}")),
    };
    same("number", &no, &number)?;
    same("board", &after, &board)
}

fn steps(line: &mut Fields, subject: &mut dyn Subject) -> Compared {
    let (table, inputs) = (line.bytes()?, line.list(number_of)?);
    let (answers, after) = (line.list(answer_of)?, line.board()?);
    same("inputs and answers", &inputs.len(), &answers.len())?;
    let mut board = Board::default();
    same("load", &0, &subject.load(&mut board, &table))?;
    for (place, (&input, answer)) in inputs.iter().zip(&answers).enumerate() {
        same(&format!("step {place}"), answer, &subject.step(&mut board, &table, input))?;
    }
    same("board", &after, &board)
}

#[cfg(test)]
mod tests {
    use super::*;
    use crate::Reference;

    const A: &str = "06000100000101010000130002000000030001010000000101000002020202020\
                     20e0002000103020000010100000101000001";
    /// Best and least 3 and 0 in two states, 1.5 in the others.
    const CARD_OF_A: &str = " 4008000000000000:0000000000000000 4008000000000000:0000000000000000 \
                             3ff8000000000000:3ff8000000000000 3ff8000000000000:3ff8000000000000";
    /// A monitor more, with which A is refused 8 and beaten by two inputs on running: at the second, off
    /// breaks monitor 2 and on monitor 0.
    const ON_AT_ON: &str = "0e0002000000020000010100010101000101";
    const PLAY: &str = "020001ffff020001ffff01000102000100010200";
    const EMPTY: &str = "0,0,0,0,0,0,0,0";

    fn of(line: &str) -> Outcome {
        compare(line, LEVEL, &mut Reference)
    }

    fn run_reference(text: &str) -> (String, Vec<usize>) {
        let mut reported = Vec::new();
        let tally = run(text, &mut Reference, &mut |line, _| reported.push(line));
        (tally.to_string(), reported)
    }

    #[test]
    fn lines_of_later_levels_are_passed_over() {
        let next = LEVEL + 1;
        for rest in ["S {} 00 0 - -", "D {} 00 11 12", "O {} 1,2;3 mark 3 0 1", "ZZ {}"] {
            let line = rest.replace("{}", &next.to_string());
            assert_eq!(of(&line), Outcome::PassedOver, "{line}");
        }
    }

    #[test]
    fn lines_of_the_present_level_are_compared() {
        let lines = [
            format!("S {LEVEL} - 2 - -"),
            format!("D {LEVEL} - 11"),
            "L - refused 2\\n".to_string(),
            format!("R {LEVEL} {A} 33 9 0"),
            format!("C {LEVEL} - 2 0"),
            format!("C {LEVEL} {A} 0 4{CARD_OF_A}"),
            format!("F {LEVEL} - 0 2 -"),
            format!("F {LEVEL} {A} 0 23 -"),
            format!("F {LEVEL} {A}{ON_AT_ON} 20 0 {PLAY}"),
            format!("F {LEVEL} {A}{ON_AT_ON} 30000 0 {PLAY}"),
            format!("F {LEVEL} {A}{ON_AT_ON} 19 9 -"),
            format!("O {LEVEL} {EMPTY} unload 7 20 {EMPTY}"),
            format!("B {LEVEL} {EMPTY} - 255 20 {EMPTY} 0"),
        ];
        for line in lines {
            assert_eq!(of(&line), Outcome::Agrees, "{line}");
        }
    }

    #[test]
    fn other_answers_differ() {
        let lines = [
            format!("S {LEVEL} - 1 - -"),
            format!("S {LEVEL} - 2 00 -"),
            format!("S {LEVEL} {A} 0 - -"),
            format!("D {LEVEL} - 0"),
            "L - refused 1\\n".to_string(),
            format!("R {LEVEL} {A} 33 0 46"),
            format!("C {LEVEL} - 1 0"),
            format!("C {LEVEL} - 2 1 lost"),
            format!("C {LEVEL} {A} 8 4{CARD_OF_A}"),
            format!("C {LEVEL} {A} 0 3{}", CARD_OF_A.rsplit_once(' ').unwrap().0),
            format!("C {LEVEL} {A} 0 5{CARD_OF_A} lost"),
            format!("C {LEVEL} {A} 0 4{}", CARD_OF_A.replacen("0000000000000000", "lost", 1)),
            format!("C {LEVEL} {A} 0 4{}", CARD_OF_A.replacen(":0", ":8", 1)),
            format!("F {LEVEL} - 0 0 -"),
            format!("F {LEVEL} {A} 0 8 -"),
            format!("F {LEVEL} {A}{ON_AT_ON} 20 8 -"),
            format!("F {LEVEL} {A}{ON_AT_ON} 20 0 {}", &PLAY[10..]),
            format!("F {LEVEL} {A}{ON_AT_ON} 20 0 {}", PLAY.replacen("01", "00", 1)),
            format!("F {LEVEL} {A}{ON_AT_ON} 20 0 {}02", &PLAY[..38]),
            format!("F {LEVEL} {A}{ON_AT_ON} 20 0 {}", PLAY.replacen("ff", "02", 1)),
            format!("F {LEVEL} {A}{ON_AT_ON} 20 0 {}", PLAY.replace("ff", "")),
            format!("F {LEVEL} {A}{ON_AT_ON} 20 0 {PLAY}000000ffff"),
            format!("F {LEVEL} {A}{ON_AT_ON} 19 0 {PLAY}"),
            format!("O {LEVEL} {EMPTY} unload 7 0 {EMPTY}"),
            format!("B {LEVEL} {EMPTY} - 255 20 1,0,0,0,0,0,0,0 0"),
            format!("Q {LEVEL} - - - {EMPTY}"),
        ];
        for line in lines {
            assert!(matches!(of(&line), Outcome::Differs(_)), "{line}");
        }
    }

    /// A line that cannot be run is never passed over.
    #[test]
    fn lines_that_cannot_be_run_differ() {
        let mut lines = vec![
            // Kinds, levels and calls that are not known, and not known to be a later level's.
            format!("Z {LEVEL} 00"),
            format!("s {LEVEL} - 2 - -"),
            format!("O {LEVEL} {EMPTY} leap 7 20 {EMPTY}"),
            "W".to_string(),
            "S".to_string(),
            "S x - 2 - -".to_string(),
            "S -1 - 2 - -".to_string(),
            "# note".to_string(),
            // Fields missing, unreadable, or too many.
            "L".to_string(),
            format!("S {LEVEL} -"),
            format!("S {LEVEL} 0 2 - -"),
            format!("S {LEVEL} 0x 2 - -"),
            format!("S {LEVEL} - 2 - - -"),
            format!("O {LEVEL} 0,0,0,0 unload 7 20 {EMPTY}"),
            format!("O {LEVEL} {EMPTY} unload 7 20 {EMPTY},0"),
            format!("B {LEVEL} {EMPTY} - 256 20 {EMPTY} 0"),
            format!("Q {LEVEL} - 0 0 {EMPTY}"),
            format!("R {LEVEL} {A} 18446744073709551615 0 46"),
            format!("F {LEVEL} {A} 18446744073709551615 23 -"),
            format!("F {LEVEL} {A} 0 23"),
            format!("F {LEVEL} {A} 0 23 - -"),
            format!("C {LEVEL} - 2"),
            format!("C {LEVEL} - 2 0 lost"),
            format!("C {LEVEL} {A} 0 513{}", " lost".repeat(513)),
            format!("C {LEVEL} {A} 0 4 won{}", CARD_OF_A.rsplit_once(' ').unwrap().0),
        ];
        lines.extend(LEVEL.checked_sub(1).map(|earlier| format!("S {earlier} - 2 - -")));
        for line in lines {
            assert!(matches!(of(&line), Outcome::Differs(_)), "{line}");
        }
    }

    #[test]
    fn a_tally_counts_every_line_that_is_not_blank() {
        let text = format!("S {LEVEL} - 1 - -\nS {LEVEL} - 2 - -\n\nS {} - 2 - -\n", LEVEL + 5);
        assert_eq!(run_reference(&text), ("1 agree, 1 differ, 1 passed over".to_string(), vec![1]));
        let text = format!("\nZ\r\nS {LEVEL} - 2 - -\r\n");
        assert_eq!(run_reference(&text), ("1 agree, 1 differ, 0 passed over".to_string(), vec![2]));
    }

    #[test]
    fn a_listing_has_the_level_of_its_file() {
        let (right, wrong) = ("L - refused 2\\n", "L - refused 1\\n");
        let later = format!("{wrong}\nS {} - 2 - -\n", LEVEL + 1);
        let tally = |text: &str| run_reference(text).0;
        assert_eq!(tally(&later), "0 agree, 0 differ, 2 passed over");
        assert_eq!(
            tally(&format!("{later}{right}\nD {LEVEL} - 11\n")),
            "2 agree, 1 differ, 1 passed over"
        );
        assert_eq!(tally(&format!("{right}\n{wrong}\n")), "1 agree, 1 differ, 0 passed over");
    }
}
