//! The journeys of a display, in safe Rust over the static library `timetable`.
//!
//! A paper or a display's data is a load file: a version byte, then records ([`LoadBuilder`] writes them). [`List::read`] reads one, and
//! hands out what its search found: the journeys that no other beats, best first. Then [`List::best`] answers for any second, and
//! [`judge`] says of a connection that somebody names whether it is listed, as good, beaten or impossible, and why.
//!
//! ```
//! # let file = std::fs::read(concat!(env!("CARGO_MANIFEST_DIR"), "/../papers/town.load")).unwrap();
//! use timetable::List;
//!
//! let list = List::read(&file)?;
//! for journey in &list {
//!     println!("leave {} arrival {}, {} rides", journey.leave, journey.arrival, journey.rides().len());
//! }
//! let best = list.best(600)?.expect("one leaves after ten minutes");
//! assert_eq!((best.leave, best.arrival), (960, 3120));
//! assert_eq!(list.best(21601)?, None);
//! # Ok::<(), Box<dyn std::error::Error>>(())
//! ```
//!
//! The crate is `no_std`, allocates nothing and depends on no crate. A refused file is an `Err` of a [`Refusal`], no journey a `None`, and
//! a query of a list that no search made an `Err` of [`NoList`]. Every function may be called from any thread. Reading and judging need
//! stack, docs/API.md says how much; it also says which of this is proved: the library is, this crate is tested.
#![no_std]
#![warn(missing_docs)]
#![deny(unsafe_op_in_unsafe_fn)]

#[cfg(any(test, doctest))]
extern crate std;

mod building;
mod display;
mod judging;
mod library;
mod list;
mod records;
mod refusal;

pub use building::{Accepted, FILE_ROOM, LoadBuilder, write};
pub use display::{Display, GROUPS, Part, deal};
pub use judging::{Cause, Connection, Leg, Verdict, judge};
pub use list::{Journey, List, NoList, Ride, State};
pub use records::{Call, Rule, Settings, Stop};
pub use refusal::Refusal;

/// The version of the library that these declarations are of.
pub const VERSION: u32 = 1;

/// The version of the library that is linked. These declarations are right if it is [`VERSION`].
///
/// ```
/// assert_eq!(timetable::version(), timetable::VERSION);
/// ```
pub fn version() -> u32 {
    library::timetable_version()
}

/// The meaning of a number that the library answered. A library of [`VERSION`] answers no other.
fn known<T>(meaning: Option<T>) -> T {
    meaning.expect("a number of this version of the library")
}
