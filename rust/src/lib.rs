//! Half-edge tables and the thirteen Euler operators, with undo and redo to the byte, a take-down that turns a table
//! into a script, solids as OBJ text for a viewer, and the sweep of a face: the proved archive behind safe types.
//!
//! What is proved is the archive, not this wrapper, which does no more than hand slices over and give numbers names.
//! docs/GUIDE.md says what each call promises.
//!
//! ```
//! # fn main() -> Result<(), zoghvari::Refusal> {
//! use zoghvari::{script_bytes, Capacities, Operator, Table};
//!
//! let mut table = Table::new(Capacities::all(64), 4_096)?;
//! let ran = table.run(&script_bytes(&[Operator::new(1, &[1, 1, 1, 1, 0, 0, 0])])?);
//! assert_eq!((ran.refusal, ran.done), (None, 1));
//! assert_eq!(table.undo(ran.done).refusal, None);
//! assert_eq!(table.redo(ran.done).refusal, None);
//! # Ok(())
//! # }
//! ```
#![deny(unsafe_code)]

mod refusal;
mod script;
#[allow(unsafe_code)]
mod sys;
mod table;

pub use refusal::{Cause, Refusal};
pub use script::{read, script_bytes, write, Operator};
pub use sys::Session;
pub use table::{Capacities, Counts, Inverted, Ran, Redone, Table, Undone};
