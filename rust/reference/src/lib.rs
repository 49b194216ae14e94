//! Guard tables from hard and weighted monitors, in plain Rust.
//!
//! This crate was written from the papers alone (documents 01 and 02) and shares nothing with the
//! proved library, which it is compared with, but the names of the refusals: it is the outside
//! evidence for the readings, and the yardstick for the speed.
//!
//! The way of the data: the bytes of a site sheet become a [`Sheet`], or a [`Fault`] tells where
//! they are wrong; [`Product`] numbers the product states and holds their steps; [`Kept`] tells
//! which of them survive the rounds; [`Values`] weighs the steps over the horizon.
//! [`make_supervisor`] and [`make_guard`] write the tables, and a [`Board`] runs a guard table.
//! [`list`] prints one. [`forecast`] tells how well each product state can still do, [`forced`] how
//! inputs force a break where it is lost.
//!
//! ```
//! let sheet: Vec<u8> = [
//!     &[0x06, 0, 1, 0, 0, 1, 1, 1, 0, 0][..], // a controller, one line each way, H = 1
//!     &[0x13, 0, 2, 0, 0, 0, 3, 0, 1, 1, 0, 0, 0, 1, 1, 0, 0, 2, 2, 2, 2, 2, 2],
//!     &[0x0E, 0, 2, 0, 1, 3, 2, 0, 0, 1, 1, 0, 0, 1, 1, 0, 0, 1],
//! ]
//! .concat();
//! let table = reference::guard_table(&sheet).unwrap();
//! let mut board = reference::Board::default();
//! board.load(&table).unwrap();
//! assert_eq!(board.step(&table, 1), Ok(1)); // on, as the input is
//! assert_eq!(board.step(&table, 1), Ok(0)); // never on twice running
//! ```

mod board;
mod fault;
mod forced;
mod forecast;
mod listing;
mod product;
mod reading;
mod refusal;
mod rows;
mod sheet;
mod solved;
mod tables;
mod values;

pub use board::{loadable, Board, TableHead, STEPS_MOST};
pub use fault::Fault;
pub use forced::{forced, forced_bytes, make_forced, Force, FORCED_BYTES_MOST};
pub use forecast::{forecast, Averages, Prospect};
pub use listing::{list, list_table, SHEET_BYTES_MOST};
pub use product::{Edge, Kept, Product, STATES_MOST};
pub use refusal::Refusal;
pub use rows::RowKind;
pub use sheet::{Literal, Mode, Monitor, Role, Sheet, Tuple, HORIZON_MOST, MONITORS_MOST, PLACES};
pub use tables::{
    guard_table, make_guard, make_supervisor, supervisor_table, Made, GUARD_BYTES_MOST,
    SUPERVISOR_BYTES_MOST,
};
pub use values::Values;
