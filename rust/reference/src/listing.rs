//! The text of the listing program.

use std::fmt::Write;

use crate::tables::RECORD_HEADER;
use crate::{guard_table, loadable};

/// The longest sheet that the listing program reads.
pub const SHEET_BYTES_MOST: usize = 16_384;

/// What the listing program prints for what it reads.
pub fn list(sheet: &[u8]) -> String {
    if sheet.len() > SHEET_BYTES_MOST {
        return "too long\n".to_string();
    }
    match guard_table(sheet) {
        Ok(table) => list_table(&table).expect("a table that was made is loadable"),
        Err(refusal) => format!("{refusal}\n"),
    }
}

/// The listing of a guard table; nothing if it is not loadable.
pub fn list_table(table: &[u8]) -> Option<String> {
    let head = loadable(table)?;
    let mut text = format!(
        "states {} inputs {} outputs {} horizon {}\n",
        head.count, head.inputs, head.outputs, head.horizon
    );
    let row_bytes = RECORD_HEADER + head.rows.body_len(head.inputs);
    let rows = &table[table.len() - usize::from(head.count) * row_bytes..];
    for (state, row) in rows.chunks_exact(row_bytes).enumerate() {
        write!(text, "{state}:").expect("a string takes any text");
        for entry in row[RECORD_HEADER..].chunks_exact(head.rows.entry_len()) {
            let (output, next) = head.rows.read(entry);
            write!(text, " {output}>{next}").expect("a string takes any text");
        }
        text.push('\n');
    }
    Some(text)
}
