//! Stands in for gtfs/src/lib.rs: the published gtfs.rs, the published `Id` and the stand-ins beside them.
//! `Error` has the cases that the published sources name; the harness only tells them apart.
#![allow(dead_code)]
pub mod csv;
pub mod zip;
#[path = "../../../published/gtfs/src/gtfs.rs"]
mod records;
mod query {
    use crate::Error;
    include!("../../../published/excerpts/id.rs");
}
pub use query::Id;
pub use records::*;

#[derive(Debug, Clone, Copy, PartialEq, Eq)]
pub enum Error {
    DuplicateTrip,
    IdTooLong,
    IndexFull,
    InvalidDate,
    InvalidField(&'static str),
    InvalidTime,
    MissingColumn(&'static str),
    MissingTable(Table),
    WrongTable,
}
