//! Reads JDR vector drawings, versions 1.0 to 1.5, by a library that is proved to refuse what it cannot read.
//!
//! ```no_run
//! fn main() -> Result<(), Box<dyn std::error::Error>> {
//!     let plan = jdr::Table::read(&std::fs::read("hall.jdr")?)?;
//!     for found in plan.find("machine") {
//!         let groups: Vec<u32> = found.groups().map(|group| group.row()).collect();
//!         println!("row {} {:?} inside {groups:?}", found.row(), found.kind());
//!     }
//!     Ok(())
//! }
//! ```
//!
//! [`Table`] owns its memory. [`TableRef`] has all calls over memory that is lent, and is all that there is without the feature `alloc`, in
//! `no_std`. A row is the number of an object, in the order in which objects open in the file; row 0 is the outer group. Plans do not
//! change, and several threads may use one. [`Session`] checks a plan that comes in pieces, and stores none of it. [`calls`] has the calls as
//! C has them.

#![cfg_attr(not(feature = "std"), no_std)]
#![warn(missing_docs)]

#[cfg(feature = "alloc")]
extern crate alloc;

#[allow(missing_docs)] // the fields are C's, and their structs say what they hold
pub mod calls;
#[allow(missing_docs)] // components and sides say what they are
mod parts;
mod refused;
mod session;
#[cfg(feature = "alloc")]
mod table;
mod table_ref;

pub use parts::{Chars, Colour, Extent, Kind, Paint, Text, Which};
pub use refused::{Reason, Refused};
pub use session::{Session, Verdict};
#[cfg(feature = "alloc")]
pub use table::{Found, Table};
pub use table_ref::{Entries, Object, Room, TableRef, ROW_WORDS};
