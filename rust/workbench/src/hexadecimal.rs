//! Hexadecimal text: bytes of two digits, with blanks between them and comments after `#`.

use crate::place::{Fault, Place};
use crate::text::words::uncommented;
use crate::text::BYTE_ORDER_MARK;

const EXPECTED: &str = "bytes of two hexadecimal digits, with blanks between them";

/// The bytes of a text, or its first fault.
pub fn bytes(text: &str) -> Result<Vec<u8>, Fault> {
    let mut bytes = Vec::new();
    // The digit of a byte whose other one is still to come.
    let mut high: Option<(u8, Place)> = None;
    for (index, line) in text.lines().enumerate() {
        for (column, character) in uncommented(line).chars().enumerate() {
            let place = Place { line: index + 1, column: column + 1 };
            match (character.to_digit(16), high) {
                (Some(digit), None) => high = Some((digit as u8, place)),
                (Some(digit), Some((first, _))) => {
                    bytes.push(first << 4 | digit as u8);
                    high = None;
                }
                (None, None) if character.is_ascii_whitespace() => {}
                (None, Some((_, first))) if character.is_ascii_whitespace() => {
                    return Err(alone(line, first));
                }
                (None, _) => return Err(Fault::new(place, describe(character), EXPECTED)),
            }
        }
        if let Some((_, first)) = high {
            return Err(alone(line, first));
        }
    }
    Ok(bytes)
}

fn alone(line: &str, place: Place) -> Fault {
    let digit = line.chars().nth(place.column - 1).unwrap_or('?');
    Fault::new(place, format!("the digit {digit} stands alone"), EXPECTED)
}

fn describe(character: char) -> String {
    match character {
        BYTE_ORDER_MARK => "a byte order mark".to_string(),
        'x' | 'X' => format!("`{character}` is no hexadecimal digit: bytes are written without 0x"),
        ',' => "`,` is no hexadecimal digit: there are blanks between bytes, no commas".to_string(),
        _ => format!("`{}` is no hexadecimal digit", character.escape_debug()),
    }
}
