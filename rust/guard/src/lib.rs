//! Guard tables made and run by the proved library.
//!
//! A *site sheet* says what a guard board must keep at every step (hard monitors), what it would
//! like (weighted ones) and how far it looks ahead (the horizon). From its bytes
//! [`Supervisor::make`] works out every output that can still be survived, and [`Guard::make`]
//! the table that the board runs by: for each state and input the output and the next state.
//! A [`Board`] loads such a table and answers one input after another. [`Forecast::make`] tells how
//! well each state can still do, and where no guard can keep a sheet, [`Forced::make`] by which inputs
//! it is beaten, and what is broken then.
//!
//! The work is done by functions that were proved to meet their contracts, linked as a static
//! library; all that this crate adds is types. What is unsafe is in the module [`calls`], where
//! each function is one call of the library and nothing more. A call answers by document 01's
//! number, 0 or that of a [`Refusal`]; a number that has no name is an error too
//! ([`Refusal::Unknown`]), and none makes this crate panic.
//!
//! # Example
//!
//! One line each way. The output must never be on twice running; 3 is earned for each step with
//! the output equal to the input.
//!
#![cfg_attr(guard_library, doc = "```")]
#![cfg_attr(not(guard_library), doc = "```no_run")]
//! use guard::sheet::Sheet;
//! use guard::{Averages, Board, Force, Forced, Forecast, Guard, Prospect, Refusal, Supervisor, Work};
//!
//! // A letter is input + 2 x output; state 2 is the break.
//! let never_twice = |state, letter: u8| match (state, letter >> 1) {
//!     (2, _) => 2,
//!     (_, 1) => state + 1,
//!     _ => 0,
//! };
//! let sheet = Sheet::controller(1, 1)
//!     .horizon(1)
//!     .hard(3, |state| state < 2, never_twice)
//!     .soft(3, 2, |state| state == 1, |_, letter| u8::from(letter == 0 || letter == 3))
//!     .to_bytes();
//!
//! let mut work = Work::new();
//! let supervisor = Supervisor::make(&sheet, &mut work)?;
//! assert_eq!(supervisor.states(), 4);
//! assert!(supervisor.allows(0, 1, 1)); // at the start, input on: on may be given,
//! assert!(!supervisor.allows(2, 1, 1)); // but not when it was on a step ago
//!
//! let forecast = Forecast::make(&sheet, &mut work)?;
//! let free = Averages { best: 3.0, least: 0.0 };
//! assert_eq!(forecast.get(0), Some(Prospect::Worth(free)));
//! for (state, prospect) in forecast.iter().enumerate() {
//!     assert_eq!(*prospect != Prospect::Lost, supervisor.is_kept(state));
//! }
//!
//! let guard = Guard::make(&sheet, &mut work)?;
//! let mut board = Board::new();
//! board.load(&guard)?;
//! assert_eq!(board.step(&guard, 1)?, 1);
//! assert_eq!(board.step(&guard, 1)?, 0);
//! assert_eq!(board.step(&guard, 2), Err(Refusal::BadInput)); // one line has no input 2
//! assert_eq!(board.steps(), 2);
//!
//! // With input on, output on: two inputs on running beat a sheet that asks for that too.
//! let on_at_on = |_, letter| u8::from(letter != 1);
//! let too_much = Sheet::controller(1, 1)
//!     .hard(3, |state| state < 2, never_twice)
//!     .hard(2, |state| state == 1, on_at_on)
//!     .to_bytes();
//! assert_eq!(Guard::make(&too_much, &mut work), Err(Refusal::Unrealizable));
//! let forced = Forced::make(&too_much, &mut work)?;
//! assert_eq!(forced.get(0), Some(Force { steps: 2, input: 1 }));
//! assert_eq!(forced.get(2), Some(Force { steps: 1, input: 1 })); // it was on a step ago:
//! assert_eq!(forced.broken_by(2, 0), Some(1)); // off breaks the second monitor,
//! assert_eq!(forced.broken_by(2, 1), Some(0)); // on the first
//! # Ok::<(), Refusal>(())
//! ```

#![warn(missing_docs)]

mod board;
#[allow(unsafe_code)]
pub mod calls;
mod forced;
mod forecast;
mod refusal;
mod rows;
pub mod sheet;
mod tables;
mod work;

pub use board::{Board, Fields};
pub use forced::{Force, Forced};
pub use forecast::{Averages, Forecast, Prospect};
pub use refusal::Refusal;
pub use rows::RowKind;
pub use tables::{Guard, Made, Supervisor};
pub use work::Work;

/// Whether this build has the library. Where it is false, every call panics.
pub const LINKED: bool = cfg!(guard_library);
