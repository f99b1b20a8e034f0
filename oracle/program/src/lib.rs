//! The oracle's program side: load files in, the published Rust's answers out.
pub mod bench;
pub mod file;
pub mod generate;
pub mod load;
pub mod modes;
pub mod print;
