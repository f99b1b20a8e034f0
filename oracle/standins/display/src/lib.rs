//! Stands in for display/src/lib.rs: the published journey.rs (with the harness as its child) and config.rs, and the
//! stand-ins beside them.
#![allow(dead_code, mismatched_lifetime_syntaxes, clippy::all)]
pub mod clock;
#[path = "../../../published/display/src/config.rs"]
pub mod config;
#[path = "../../../published/display/src/journey.rs"]
pub mod journey;
pub mod feed {
    //! `Tables` is the published text of feed.rs; nothing else of feed.rs is needed.
    use gtfs::{Error, Table, csv::Column, zip};
    include!("../../../published/excerpts/tables.rs");
}
pub mod model {
    //! `Headings` is the published text of model.rs, used by `publish` and `decode` alone, which are never called.
    use heapless::Vec;
    include!("../../../published/excerpts/headings.rs");
}
pub use config::Config;
