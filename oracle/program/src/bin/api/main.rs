//! The port's crate for Rust (rust/) beside the published Rust: `api compare` reads a batch of load files from standard input and compares
//! lists and queries; `api written PROFILE FILES SEED` has loads written and read back; `api times FILE ..` times calls of both in turns;
//! `api` alone reads pairs as the program `mark` does and prints the verdicts (oracle/marks_compare runs it).
mod compare;
mod marks;
#[allow(dead_code)]
#[path = "../speed/published.rs"]
mod published;
mod steps;
#[allow(dead_code)]
#[path = "../speed/tables.rs"]
mod tables;
mod times;
mod wanted;
mod written;

use std::io::{self, BufRead, Read};

/// Hands over each part of standard input, which stands after its length as a big-endian u32.
fn parts(mut take: impl FnMut(&[u8])) -> io::Result<()> {
    let mut input = io::BufReader::with_capacity(1 << 16, io::stdin().lock());
    let mut bytes = Vec::new();
    while !input.fill_buf()?.is_empty() {
        let mut length = [0; 4];
        input.read_exact(&mut length)?;
        bytes.resize(u32::from_be_bytes(length) as usize, 0);
        input.read_exact(&mut bytes)?;
        take(&bytes);
    }
    Ok(())
}

fn main() -> io::Result<()> {
    assert!(timetable::version() == timetable::VERSION, "another version of the library");
    let words: Vec<String> = std::env::args().skip(1).collect();
    match words.split_first() {
        Some((mode, [])) if mode == "compare" => compare::run(100),
        Some((mode, [every])) if mode == "compare" => compare::run(every.parse().expect("a number")),
        Some((mode, words)) if mode == "written" || mode == "flipped" => written::run(words, mode == "flipped"),
        None => marks::run(),
        Some((mode, files)) if mode == "times" => times::run(files),
        _ => {
            eprintln!(
                "usage: api compare [EVERY] < BATCH   api written|flipped PROFILE FILES SEED   api times FILE ..   api < PAIRS"
            );
            std::process::exit(2)
        }
    }
}
