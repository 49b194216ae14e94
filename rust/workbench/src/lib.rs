//! The workbench: write, check, see and try a sheet.
//!
//! [`text`] is the text sheet, [`source`] takes a file for what it is, [`making`] has the proved
//! library make its tables, and [`commands`] has a file for each command. Every number and every
//! table is the library's. What it does not say, the reference tells, and only where both agree:
//! where bytes are refused, which monitor states a product state stands for, where a step of the
//! supervisor or of a play ends and what it breaks before the last.

pub mod arguments;
pub mod bench;
pub mod commands;
pub mod hexadecimal;
pub mod making;
pub mod names;
pub mod output;
pub mod place;
pub mod play;
pub mod source;
pub mod states;
pub mod tap;
pub mod text;
